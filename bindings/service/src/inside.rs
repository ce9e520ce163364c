use std::sync::atomic::{AtomicBool, AtomicUsize, Ordering::SeqCst};
use std::thread;
use std::time::Duration;

// So many counts, so that threads seldom share one.
const COUNTS: usize = 16;

// On a line of the processor's memory of its own.
#[derive(Default)]
#[repr(align(128))]
struct Count(AtomicUsize);

/// How many calls are under way, so that who closes the cache can wait for their end: its memory is freed then.
#[derive(Default)]
pub struct Inside {
    counts: [Count; COUNTS],
    is_shut: AtomicBool,
}

impl Inside {
    /// A call begins, which is counted until this is dropped; none, once it is shut.
    pub fn enter(&self) -> Option<Call<'_>> {
        let call = self.count();
        (!self.is_shut.load(SeqCst)).then_some(call)
    }

    /// A call begins that may be made when it is shut, too.
    pub fn count(&self) -> Call<'_> {
        let Count(count) = &self.counts[place()];
        count.fetch_add(1, SeqCst);
        Call(count)
    }

    /// No call enters any more.
    pub fn shut(&self) {
        self.is_shut.store(true, SeqCst);
    }

    /// Waits until all calls are over that had entered when it was shut. (They are short, or are being answered.)
    pub fn wait(&self) {
        for Count(count) in &self.counts {
            while count.load(SeqCst) > 0 {
                thread::sleep(Duration::from_millis(1));
            }
        }
    }
}

/// A call that is under way.
pub struct Call<'a>(&'a AtomicUsize);

impl Drop for Call<'_> {
    fn drop(&mut self) {
        self.0.fetch_sub(1, SeqCst);
    }
}

// The thread's count.
fn place() -> usize {
    static NEXT: AtomicUsize = AtomicUsize::new(0);
    thread_local! {
        static PLACE: usize = NEXT.fetch_add(1, SeqCst) % COUNTS;
    }
    PLACE.try_with(|place| *place).unwrap_or(0)
}
