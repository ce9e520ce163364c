//! Each operation on the files of what is kept, and on a flash's head, asks here first, so that a test may have it fail, or have all
//! behind it fail, as where the process ends there.
use std::io;

/// An operation on a file.
#[cfg_attr(not(test), allow(dead_code))]
#[derive(Clone, Copy, Debug, PartialEq, Eq)]
pub(crate) enum Step {
    ReadHead,
    WriteHead,
    SyncFlash,
    Open,
    Read,
    Create,
    Write,
    Sync,
    Rename,
    SyncFolder,
    Remove,
}

/// The operation is made next.
#[cfg(not(test))]
#[inline]
#[allow(clippy::unnecessary_wraps)]
pub(crate) fn step(_: Step) -> io::Result<()> {
    Ok(())
}

#[cfg(test)]
pub(crate) use tried::step;

#[cfg(test)]
pub(crate) mod tried {
    use super::{io, Step};
    use std::cell::RefCell;

    /// Which operations of this thread fail.
    #[derive(Clone, Copy, Debug, PartialEq, Eq)]
    pub enum Fails {
        None,
        /// The one with this number, from 0.
        One(usize),
        /// It, and all behind it.
        From(usize),
    }

    thread_local! {
        static TRIED: RefCell<(Fails, Vec<Step>)> = const { RefCell::new((Fails::None, Vec::new())) };
    }

    pub fn step(step: Step) -> io::Result<()> {
        TRIED.with_borrow_mut(|(fails, steps)| {
            let number = steps.len();
            steps.push(step);
            let has_failed = match fails {
                Fails::None => false,
                Fails::One(one) => *one == number,
                Fails::From(first) => *first <= number,
            };
            if has_failed {
                return Err(io::ErrorKind::Other.into());
            }
            Ok(())
        })
    }

    /// The operations that this thread makes by the work, of which these fail.
    pub fn tried<T>(fails: Fails, work: impl FnOnce() -> T) -> (T, Vec<Step>) {
        TRIED.set((fails, Vec::new()));
        let done = work();
        (done, TRIED.replace((Fails::None, Vec::new())).1)
    }
}

#[cfg(test)]
mod tests {
    use super::tried::{tried, Fails};
    use super::Step::{self, *};
    use crate::{Began, HybridCache, Keep, OpenError, Options, WhyEmpty};
    use std::fs;
    use std::path::PathBuf;

    struct Folder(PathBuf);

    impl Folder {
        fn new(name: &str) -> Folder {
            let folder = std::env::temp_dir().join(format!("steps-{name}-{}", std::process::id()));
            let _ = fs::remove_dir_all(&folder);
            fs::create_dir(&folder).unwrap();
            Folder(folder)
        }

        fn open(&self, keeps: bool) -> Result<HybridCache, OpenError> {
            let options = Options {
                memory: 100_000,
                flash: 400_000,
                shards: 2,
                keep: keeps.then(|| Keep::at(self.0.join("kept"))),
                ..Options::default()
            };
            HybridCache::open(self.0.join("flash"), &options)
        }

        // One that has something, in a folder that has nothing else.
        fn filled(&self) -> HybridCache {
            for file in fs::read_dir(&self.0).unwrap() {
                fs::remove_file(file.unwrap().path()).unwrap();
            }
            let cache = self.open(true).unwrap();
            for number in 0..200u32 {
                cache.set(&number.to_be_bytes(), &[number as u8; 900], 0).unwrap();
                cache.flush().unwrap();
            }
            assert!(count(&cache) > 100);
            cache
        }
    }

    impl Drop for Folder {
        fn drop(&mut self) {
            let _ = fs::remove_dir_all(&self.0);
        }
    }

    // How many there are, each as it was stored.
    fn count(cache: &HybridCache) -> usize {
        let found = |number: &u32| {
            let found = cache.get(&number.to_be_bytes()).unwrap();
            found.is_some_and(|found| found[..] == [*number as u8; 900])
        };
        (0..200).filter(found).count()
    }

    // A cache that was opened answers, and isn't closed. So the next one must find nothing.
    fn is_used_once(folder: &Folder, cache: HybridCache) {
        for number in 0..200u32 {
            cache.delete(&number.to_be_bytes()).unwrap();
        }
        drop(cache);
        let cache = folder.open(true).unwrap();
        assert!(matches!(cache.kept(), Began::Empty(WhyEmpty::NoSeal)), "{}", cache.kept());
        assert_eq!(count(&cache), 0);
    }

    fn without_repeats(mut steps: Vec<Step>) -> Vec<Step> {
        steps.dedup();
        steps
    }

    #[test]
    fn each_operation_comes_behind_what_it_relies_on() {
        let folder = Folder::new("order");
        let cache = folder.filled();
        let (closed, steps) = tried(Fails::None, || cache.close());
        closed.kept.unwrap();
        let taken = [WriteHead, SyncFlash, WriteHead];
        let order = [&taken[..], &[Create, Write, Sync, Rename, SyncFolder, SyncFlash, WriteHead, SyncFlash]].concat();
        assert_eq!(without_repeats(steps), order);
        let (cache, steps) = tried(Fails::None, || folder.open(true).unwrap());
        let order = [&[Create, Remove, ReadHead, Open, Read], &taken[..], &[Remove]].concat();
        assert_eq!(without_repeats(steps), order);
        cache.close().kept.unwrap();
        // a seal is taken away for good also where nothing is to be kept, and only there is anything synced
        let (_, steps) = tried(Fails::None, || folder.open(false).unwrap());
        assert_eq!(steps, [&[ReadHead], &taken[..]].concat());
        let (_, steps) = tried(Fails::None, || folder.open(false).unwrap());
        assert_eq!(steps, [ReadHead, WriteHead]);
    }

    #[test]
    fn a_seal_whose_end_may_not_be_on_the_disk_is_taken_again() {
        let folder = Folder::new("again");
        for keeps in [true, false] {
            folder.filled().close().kept.unwrap();
            // as if the process ended before its sync was done: the next one can't know what the disk has
            let (_, steps) = tried(Fails::None, || folder.open(keeps).unwrap());
            let at = steps.iter().position(|step| *step == SyncFlash).unwrap();
            folder.filled().close().kept.unwrap();
            let (opened, _) = tried(Fails::From(at), || folder.open(keeps));
            opened.unwrap_err();
            for (again, syncs) in [(keeps, true), (!keeps, false)] {
                let (cache, steps) = tried(Fails::None, || folder.open(again).unwrap());
                assert_eq!(steps.contains(&SyncFlash), syncs, "{keeps}: {steps:?}");
                assert!(!matches!(cache.kept(), Began::Kept(_)), "{}", cache.kept());
            }
        }
    }

    #[test]
    fn a_close_whose_operations_fail_keeps_all_or_nothing() {
        let folder = Folder::new("close");
        let kinds: [fn(usize) -> Fails; 2] = [Fails::One, Fails::From];
        for fails in kinds {
            let mut kept = 0;
            for number in 0.. {
                let cache = folder.filled();
                let all = count(&cache);
                let (closed, steps) = tried(fails(number), || cache.close());
                let cache = folder.open(true).unwrap();
                let has_kept = matches!(cache.kept(), Began::Kept(_));
                assert_eq!(count(&cache), if has_kept { all } else { 0 }, "{number}: {}", cache.kept());
                kept += usize::from(has_kept);
                // what isn't kept by what the close says is found again only where the process ended before it could take it away
                let may_differ = matches!(fails(number), Fails::From(_)) && steps[number..].contains(&SyncFlash);
                assert!(closed.kept.is_ok() == has_kept || may_differ, "{number}: {:?}, {steps:?}", closed.kept);
                is_used_once(&folder, cache);
                if number >= steps.len() {
                    assert!(kept > 0 && number > 8);
                    break;
                }
            }
        }
    }

    #[test]
    fn an_open_whose_operations_fail_answers_nothing_that_is_found_again() {
        let folder = Folder::new("open");
        let kinds: [fn(usize) -> Fails; 2] = [Fails::One, Fails::From];
        for (fails, keeps) in kinds.into_iter().flat_map(|fails| [(fails, true), (fails, false)]) {
            for number in 0.. {
                let cache = folder.filled();
                let all = count(&cache);
                cache.close().kept.unwrap();
                let (opened, steps) = tried(fails(number), || folder.open(keeps));
                let is_refused = opened.is_err();
                if let Ok(cache) = opened {
                    let has_kept = matches!(cache.kept(), Began::Kept(_));
                    assert_eq!(count(&cache), if has_kept { all } else { 0 }, "{number}: {}", cache.kept());
                    is_used_once(&folder, cache);
                }
                if number >= steps.len() {
                    assert!(!is_refused && number > 2);
                    break;
                }
                // (a file that couldn't be read is one that isn't there, and one that can't be removed is of no use)
                let last = if fails(number) == Fails::One(number) { number } else { steps.len() - 1 };
                let refuses = steps[number..=last].iter().any(|step| !matches!(step, Open | Read | Remove));
                assert_eq!(is_refused, refuses, "{number} of {steps:?}");
                if is_refused {
                    // (nothing was answered since: it may be found)
                    is_used_once(&folder, folder.open(true).unwrap());
                }
            }
        }
    }
}
