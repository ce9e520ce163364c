//! Whose a file or block device is, before anything is written to it.
use kilambosetry::{flash_waits, FileError, HybridCache, OpenError, Options};
use std::error::Error;
use std::fs::{self, File, OpenOptions};
use std::os::unix::fs::{symlink, FileExt};
use std::os::unix::net::UnixListener;
use std::path::{Path, PathBuf};
use std::process::Command;
use std::thread;
use std::time::Duration;

// A folder of this test's own, which is removed in the end.
struct Folder(PathBuf);

impl Folder {
    fn new(name: &str) -> Folder {
        let folder = Folder(std::env::temp_dir().join(format!("file-{name}-{}", std::process::id())));
        let _ = fs::remove_dir_all(&folder.0);
        fs::create_dir(&folder.0).unwrap();
        folder
    }

    fn file(&self, name: &str) -> PathBuf {
        self.0.join(name)
    }
}

impl Drop for Folder {
    fn drop(&mut self) {
        let _ = fs::remove_dir_all(&self.0);
    }
}

fn small() -> Options {
    Options { memory: 100_000, flash: 2_000_000, mean_value: 400, shards: 1, ..Options::default() }
}

fn length(options: &Options) -> u64 {
    4096 + options.numbers().unwrap().flash_bytes()
}

// (a program that another test starts has a copy of the file until it begins)
fn opened(path: &Path, options: &Options) -> Result<HybridCache, OpenError> {
    for _ in 0..500 {
        match HybridCache::open(path, options) {
            Err(OpenError::File { why: FileError::InUse, .. }) => thread::sleep(Duration::from_millis(20)),
            opened => return opened,
        }
    }
    HybridCache::open(path, options)
}

fn is_taken(path: &Path, options: &Options) -> bool {
    match opened(path, options) {
        Ok(cache) => {
            for number in 0..400u32 {
                cache.set(&number.to_be_bytes(), &[7; 400], 0).unwrap();
                cache.flush().unwrap();
            }
            assert_eq!(cache.get(&0u32.to_be_bytes()).unwrap().as_deref(), Some(&[7; 400][..]));
            assert!(cache.stats().hits_from_flash == 1 && cache.stats().device.lies == 0, "{}", cache.stats());
            true
        }
        Err(OpenError::File { why: FileError::NotOurs, .. }) => false,
        Err(error) => panic!("{error}"),
    }
}

// A call that flash answers is counted for its own thread, and one that memory answers isn't: get, load and future alike.
#[test]
fn calls_that_wait_for_flash_are_counted_by_thread() {
    let folder = Folder::new("waits");
    let cache = opened(&folder.file("flash"), &small()).unwrap();
    for number in 0..400u32 {
        cache.set(&number.to_be_bytes(), &[7; 400], 0).unwrap();
        cache.flush().unwrap();
    }
    let waits_of = |call: &dyn Fn() -> usize| {
        let before = flash_waits();
        assert_eq!(call(), 400);
        flash_waits() - before
    };
    let get = |number: u32| cache.get(&number.to_be_bytes()).unwrap().map_or(0, |value| value.len());
    let load =
        |number: u32| cache.get_or_load(&number.to_be_bytes(), 0, || Err::<Vec<u8>, _>("it is there")).unwrap().len();
    assert_eq!((waits_of(&|| get(0)), waits_of(&|| get(0))), (1, 0));
    assert_eq!((waits_of(&|| load(1)), waits_of(&|| load(1))), (1, 0));
    assert_eq!((waits_of(&|| load(399)), cache.stats().hits_from_flash), (0, 2));
    let others = thread::scope(|scope| scope.spawn(|| (flash_waits(), waits_of(&|| get(2)))).join().unwrap());
    assert_eq!(others, (0, 1));
}

#[test]
fn what_has_something_and_is_not_ours_is_refused_and_left_alone() {
    let folder = Folder::new("others");
    let options = small();
    let file = folder.file("mine");
    let whole = vec![b'x'; length(&options) as usize];
    let flash = vec![b'x'; options.numbers().unwrap().flash_bytes() as usize];
    for thesis in [&b"my thesis"[..], &[0; 9], &[0; 4096], &whole, &flash, &[whole.clone(), whole.clone()].concat()] {
        fs::write(&file, thesis).unwrap();
        for options in [options.clone(), Options { direct: true, ..options.clone() }] {
            let refused = opened(&file, &options);
            assert!(matches!(refused, Err(OpenError::File { why: FileError::NotOurs, .. })), "{} bytes", thesis.len());
            assert!(fs::read(&file).unwrap() == thesis);
        }
        assert!(is_taken(&file, &Options { overwrite: true, ..options.clone() }));
        fs::remove_file(&file).unwrap();
    }
    // something that stands far from both ends
    let image = File::create(&file).unwrap();
    image.set_len(64 << 20).unwrap();
    image.write_all_at(b"my thesis", 32 << 20).unwrap();
    assert!(!is_taken(&file, &options));
    assert!(opened(&file, &options).unwrap_err().to_string().contains("no flash of a cache"));
}

#[test]
fn a_refused_open_says_which_file() {
    let folder = Folder::new("which");
    let (ours, other) = (folder.file("flash"), folder.file("thesis"));
    let _cache = HybridCache::open(&ours, &small()).unwrap();
    fs::write(&other, b"my thesis").unwrap();
    let absent = folder.file("absent").join("flash");
    let whys = ["another has the file open", "no flash of a cache", "No such file", "neither a file"];
    for (path, why) in [ours, other, absent, "/dev/null".into()].iter().zip(whys) {
        let refused = HybridCache::open(path, &small()).unwrap_err();
        let text = refused.to_string();
        assert!(text.starts_with(&format!("{}: ", path.display())) && text.contains(why), "{text}");
        assert!(refused.source().is_some_and(|source| format!("{}: {source}", path.display()) == text));
        assert!(matches!(refused, OpenError::File { path: said, .. } if said == *path));
    }
    // of what isn't the file's it isn't said
    let wrong = Options { memory: 1, ..small() };
    assert!(HybridCache::open(folder.file("new"), &wrong).unwrap_err().to_string().starts_with("memory is 1, "));
}

fn is_in_use(opened: &Result<HybridCache, OpenError>) -> bool {
    matches!(opened, Err(OpenError::File { why: FileError::InUse, .. }))
}

// Whether there is nothing to be had under a path.
fn is_none(refused: &Result<(), OpenError>) -> bool {
    matches!(refused, Err(OpenError::File { why: FileError::OtherKind | FileError::Io(_), .. }))
}

#[test]
fn what_is_neither_file_nor_block_device_is_refused() {
    let folder = Folder::new("kinds");
    let (fifo, socket, link) = (folder.file("fifo"), folder.file("socket"), folder.file("link"));
    assert!(Command::new("mkfifo").arg(&fifo).status().unwrap().success());
    let _listens = UnixListener::bind(&socket).unwrap();
    let devices = ["/dev/null", "/dev/zero", "/dev/full"].map(PathBuf::from);
    for path in [&fifo, &folder.0].into_iter().chain(&devices) {
        for options in [small(), Options { direct: true, overwrite: true, ..small() }] {
            let refused = opened(path, &options).map(drop);
            assert!(is_none(&refused), "{path:?}: {refused:?}");
        }
    }
    for path in [socket.as_path(), Path::new(""), Path::new("/no/such/folder/flash"), Path::new("/proc/self/mem")] {
        let refused = opened(path, &small()).map(drop);
        assert!(is_none(&refused), "{path:?}: {refused:?}");
    }
    // (a link is followed)
    symlink(folder.file("target"), &link).unwrap();
    assert!(is_taken(&link, &small()));
    assert!(folder.file("target").exists());
}

#[test]
fn what_has_nothing_is_taken_and_what_is_ours_is_taken_again() {
    let folder = Folder::new("ours");
    let (file, options) = (folder.file("flash"), small());
    assert!(is_taken(&file, &options));
    assert_eq!(fs::metadata(&file).unwrap().len(), length(&options));
    assert!(is_taken(&file, &options));
    // of another length it is made anew
    for flash in [4_000_000, 1_000_000, 2_000_000] {
        let other = Options { flash, ..options.clone() };
        assert!(is_taken(&file, &other));
        assert_eq!(fs::metadata(&file).unwrap().len(), length(&other));
    }
    // an empty file, and one that has room alone
    let empty = folder.file("empty");
    fs::write(&empty, b"").unwrap();
    assert!(is_taken(&empty, &options));
    let room = folder.file("room");
    File::create(&room).unwrap().set_len(3_000_000).unwrap();
    assert!(is_taken(&room, &options));
    assert!(is_taken(&folder.file("direct"), &Options { direct: true, ..options }));
}

#[test]
fn its_head_says_whose_it_is() {
    let folder = Folder::new("head");
    let (file, options) = (folder.file("flash"), small());
    let head = |file: &Path| {
        drop(opened(file, &options).unwrap());
        let mut head = [0; 4096];
        File::open(file).unwrap().read_exact_at(&mut head, 0).unwrap();
        head
    };
    let first = head(&file);
    assert_eq!(first[..16], *b"Kilambosetry\r\n\x1a\n");
    assert_eq!(
        (first[16..20].to_vec(), first[20..24].to_vec()),
        (1u32.to_le_bytes().into(), 4096u32.to_le_bytes().into())
    );
    assert_eq!(first[24..32], options.numbers().unwrap().pages().to_le_bytes());
    assert_ne!(first[32..48], [0; 16]);
    assert_eq!(first[48..64], [0; 16]); // no seal
    assert!(first[72..].iter().all(|byte| *byte == 0));
    // each cache has a number of its own, and a digest of it
    let second = head(&file);
    assert!(first[32..48] != second[32..48] && first[64..72] != second[64..72]);
    // one whose name is damaged is no longer ours
    OpenOptions::new().write(true).open(&file).unwrap().write_all_at(b"k", 0).unwrap();
    assert!(!is_taken(&file, &options));
}

#[test]
fn an_unnamed_file_is_in_no_folder_and_leaves_nothing() {
    let folder = Folder::new("unnamed");
    for direct in [false, true] {
        let options = Options { unnamed: true, direct, ..small() };
        let cache = match HybridCache::open(&folder.0, &options) {
            Err(OpenError::File { why: FileError::Io(error), .. }) if error.raw_os_error() == Some(95) => return, // not on this file system
            cache => cache.unwrap(),
        };
        let other = HybridCache::open(&folder.0, &options).unwrap(); // another one, beside it
        for number in 0..400u32 {
            cache.set(&number.to_be_bytes(), &[7; 400], 0).unwrap();
            cache.flush().unwrap();
        }
        assert_eq!(cache.get(&0u32.to_be_bytes()).unwrap().as_deref(), Some(&[7; 400][..]));
        assert!(cache.stats().hits_from_flash == 1 && other.get(&0u32.to_be_bytes()).unwrap().is_none());
        assert_eq!(fs::read_dir(&folder.0).unwrap().count(), 0);
    }
}

// What a command of the system says, where it succeeds.
fn said(command: &str, words: &[&str]) -> Option<String> {
    let ran = Command::new(command).args(words).output().ok()?;
    ran.status.success().then(|| String::from_utf8_lossy(&ran.stdout).trim().to_string())
}

// A block device over a file.
struct Loop(String);

impl Drop for Loop {
    fn drop(&mut self) {
        said("losetup", &["--detach", &self.0]);
    }
}

// Something that is mounted.
struct Mounted(PathBuf);

impl Drop for Mounted {
    fn drop(&mut self) {
        said("umount", &[self.0.to_str().unwrap()]);
    }
}

#[test]
fn a_block_device_that_is_mounted_or_has_something_is_refused() {
    let folder = Folder::new("device");
    let image = folder.file("image");
    File::create(&image).unwrap().set_len(16 << 20).unwrap();
    let Some(device) = said("losetup", &["--find", "--show", image.to_str().unwrap()]).map(Loop) else {
        println!("skipped: no loop device (it wants root)");
        return;
    };
    let (path, options) = (Path::new(&device.0), small());
    let overwrites = Options { overwrite: true, ..options.clone() };
    let Some(_) = said("mkfs.ext4", &["-q", &device.0]) else {
        println!("skipped: no mkfs.ext4");
        return;
    };
    let folder = folder.file("mounted");
    fs::create_dir(&folder).unwrap();
    if said("mount", &[&device.0, folder.to_str().unwrap()]).is_some() {
        let mounted = Mounted(folder.clone());
        fs::write(folder.join("thesis"), b"my thesis").unwrap();
        for options in [&options, &overwrites] {
            assert!(is_in_use(&HybridCache::open(path, options)), "it is mounted");
        }
        assert_eq!(fs::read(folder.join("thesis")).unwrap(), b"my thesis");
        drop(mounted);
    }
    assert!(!is_taken(path, &options));
    assert!(said("fsck.ext4", &["-n", &device.0]).is_some(), "it was written to");
    // one that is told to be ours is, and is from then on
    assert!(is_taken(path, &overwrites));
    assert!(is_taken(path, &options));
    assert!(is_taken(path, &Options { direct: true, ..options.clone() }));
    let first = HybridCache::open(path, &options).unwrap();
    assert!(is_in_use(&HybridCache::open(path, &options)));
    drop(first);
    // marks of which one stands at the far end, as of a volume
    let image = OpenOptions::new().write(true).open(path).unwrap();
    image.write_all_at(&vec![0; 16 << 20], 0).unwrap();
    image.write_all_at(b"a mark", (16 << 20) - 4096).unwrap();
    drop(image);
    assert!(!is_taken(path, &options));
    let large = Options { flash: 32_000_000, ..overwrites };
    assert!(matches!(HybridCache::open(path, &large), Err(OpenError::File { why: FileError::TooSmall { .. }, .. })));
}
