use crate::Refused;
use std::panic::{self, AssertUnwindSafe};
use std::sync::Condvar;
use std::task::Waker;

/// The condition variables of a shard. Who waits for something with a number sleeps at the one of that number, and looks again as
/// it is rung: others may sleep there too. So nobody needs memory to sleep.
#[derive(Debug)]
pub(crate) struct Rings([Condvar; RINGS]);

const RINGS: usize = u64::BITS as usize;

impl Default for Rings {
    fn default() -> Rings {
        Rings([const { Condvar::new() }; RINGS])
    }
}

impl Rings {
    /// The one of this number.
    pub fn of(&self, number: u64) -> &Condvar {
        &self.0[number as usize % RINGS]
    }

    fn ring(&self, which: u64) {
        let is_rung = |at: &usize| which >> at & 1 == 1;
        (0..RINGS).filter(is_rung).for_each(|at| self.0[at].notify_all());
    }
}

/// Whom a shard is to wake once its lock is free. Tasks have their places before they wait, so that none lacks memory to be woken.
#[derive(Default)]
pub(crate) struct Wakes {
    // a bit for each condition variable
    threads: u64,
    tasks: Vec<Waker>,
    // tasks that wait
    waiting: usize,
}

impl Wakes {
    /// Keeps a place for one more task that waits.
    pub fn reserve(&mut self) -> Result<(), Refused> {
        self.tasks.try_reserve(self.waiting + 1).map_err(|_| Refused::NO_MEMORY)
    }

    /// A task waits, in the place that was kept.
    pub fn wait(&mut self) {
        self.waiting += 1;
    }

    /// A task waits no more, and isn't woken.
    pub fn forget(&mut self) {
        self.waiting -= 1;
    }

    /// A task that waited is to be woken.
    pub fn task(&mut self, waker: Waker) {
        self.waiting -= 1;
        self.tasks.push(waker);
    }

    /// Those are to be woken that sleep at the condition variable of this number.
    pub fn threads(&mut self, number: u64) {
        self.threads |= 1 << (number as usize % RINGS);
    }

    /// Whom to wake now, without the lock. There may be more.
    pub fn take(&mut self) -> Woken {
        let mut woken = Woken { threads: std::mem::take(&mut self.threads), ..Woken::default() };
        let some = self.tasks.len().min(woken.tasks.len());
        woken.tasks[..some].iter_mut().for_each(|task| *task = self.tasks.pop());
        woken.is_all = self.tasks.is_empty();
        woken
    }
}

/// Some who are to be woken.
#[derive(Default)]
#[must_use]
pub(crate) struct Woken {
    threads: u64,
    tasks: [Option<Waker>; 16],
    /// Nobody else is.
    pub is_all: bool,
}

impl Woken {
    /// Wakes them. A task that panics ends no worker.
    pub fn wake(self, rings: &Rings) {
        rings.ring(self.threads);
        for task in self.tasks.into_iter().flatten() {
            let _ = panic::catch_unwind(AssertUnwindSafe(|| task.wake()));
        }
    }
}
