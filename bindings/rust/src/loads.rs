use crate::held::copied;
use crate::wakes::Wakes;
use crate::Refused;
use std::collections::HashMap;
use std::task::Waker;
use std::time::{Duration, Instant};

/// More than anyone waits, and little enough to be added to any moment.
const MOST_PATIENCE: Duration = Duration::from_secs(u32::MAX as u64);

/// The moment that is so far from now.
pub(crate) fn after(patience: Duration) -> Instant {
    Instant::now() + patience.min(MOST_PATIENCE)
}

/// What a load came to, for who waited for it.
#[derive(Clone, Copy, Debug, PartialEq, Eq)]
pub(crate) enum Outcome {
    /// The key is to be looked at again: what was loaded is stored, or the key was changed.
    Look,
    /// Nobody loaded: the get that was to found a value, or was given up first.
    NotBegun,
    /// There is no such row, which isn't kept.
    Absent,
    /// The row, or why there is none, stands beside the shards.
    Told,
}

/// A load, and who waits for it.
struct Load {
    // then another may begin
    until: Instant,
    // whether who misses the key now waits for it
    is_running: bool,
    waiting: usize,
    // those of who waits that are tasks
    tasks: HashMap<u64, Waker>,
    outcome: Option<Outcome>,
}

impl Load {
    fn wake(&mut self, number: u64, wakes: &mut Wakes) {
        if self.waiting > self.tasks.len() {
            wakes.threads(number);
        }
        self.tasks.drain().for_each(|(_, waker)| wakes.task(waker));
    }
}

/// How a call is to go on that has missed a key.
#[derive(Clone, Copy, Debug, PartialEq, Eq)]
pub(crate) enum Begins {
    /// It loads, by the load with this number. Without one nobody waits for it, since there was no memory for that.
    Ours(Option<u64>),
    /// Another loads, by the load with this number.
    Anothers(u64),
}

impl Begins {
    pub fn is_ours(self) -> bool {
        matches!(self, Begins::Ours(_))
    }
}

/// Who loads which key of a shard, one at a time, and who waits for that. (The engine has turns too. These are of the keys
/// themselves, and not of places for their hashes, and know fractions of a second and whom to wake.)
#[derive(Default)]
pub(crate) struct Loads {
    // the load of each key for which who misses it waits
    running: HashMap<Box<[u8]>, u64>,
    // these, and others of which somebody who waits doesn't know yet what they came to
    loads: HashMap<u64, Load>,
    // the numbers that were given last
    last: u64,
    last_task: u64,
    // so many that run are looked through for those that nobody ends any more
    many: usize,
    /// Leases that were handed out.
    pub begun: u64,
    /// Calls that waited for another's load.
    pub waited: u64,
    /// Loaded values that weren't stored, since a key was changed meanwhile.
    pub stale: u64,
    /// Loaded values that weren't stored, since the store was refused.
    pub refused: u64,
}

// So many loads may run before they are looked through.
const FEW: usize = 64;

impl Loads {
    /// Begins to load the key, unless another does who began less than `patience` ago.
    pub fn begin(&mut self, key: &[u8], patience: Duration) -> Begins {
        let Some(&before) = self.running.get(key) else {
            self.forget_overdue();
            return Begins::Ours(self.list(key, patience).ok());
        };
        if self.left(before).is_some() {
            return Begins::Anothers(before);
        }
        // (its time is up, and who waits for it finds that out)
        self.stop(before);
        Begins::Ours(self.list(key, patience).ok())
    }

    fn list(&mut self, key: &[u8], patience: Duration) -> Result<u64, Refused> {
        self.loads.try_reserve(1).map_err(|_| Refused::NO_MEMORY)?;
        self.last += 1;
        match self.running.get_mut(key) {
            Some(number) => *number = self.last,
            None => {
                self.running.try_reserve(1).map_err(|_| Refused::NO_MEMORY)?;
                self.running.insert(copied(key)?.into_boxed_slice(), self.last);
            }
        }
        let until = after(patience);
        let load = Load { until, is_running: true, waiting: 0, tasks: HashMap::new(), outcome: None };
        self.loads.insert(self.last, load);
        Ok(self.last)
    }

    // Nobody begins to wait for it any more.
    fn stop(&mut self, number: u64) {
        if let Some(load) = self.loads.get_mut(&number) {
            load.is_running = false;
            if load.waiting == 0 {
                self.loads.remove(&number);
            }
        }
    }

    // Forgets loads whose time is up and for which nobody waits, whose leases may have been leaked: each time that there are twice as
    // many as were left the last time, so that a load costs the same however many there are.
    fn forget_overdue(&mut self) {
        if self.running.len() < self.many.max(FEW) {
            return;
        }
        let (now, loads) = (Instant::now(), &mut self.loads);
        self.running.retain(|_, number| {
            let is_over = loads.get(number).is_none_or(|load| load.until <= now && load.waiting == 0);
            if is_over {
                loads.remove(number);
            }
            !is_over
        });
        self.many = 2 * self.running.len();
    }

    /// How long the load is waited for still; none, where it is over, or has taken too long.
    pub fn left(&self, number: u64) -> Option<Duration> {
        let load = self.loads.get(&number).filter(|load| load.outcome.is_none())?;
        let left = load.until.saturating_duration_since(Instant::now());
        (!left.is_zero()).then_some(left)
    }

    /// What the load came to, if it is over.
    pub fn outcome(&self, number: u64) -> Option<Outcome> {
        self.loads.get(&number)?.outcome
    }

    /// Whether somebody waits for the load.
    pub fn is_awaited(&self, number: u64) -> bool {
        self.loads.get(&number).is_some_and(|load| load.waiting > 0)
    }

    /// A call waits for the load from now on.
    pub fn join(&mut self, number: u64) {
        if let Some(load) = self.loads.get_mut(&number) {
            load.waiting += 1;
            self.waited += 1;
        }
    }

    /// The same for a task: it is taken from where it is, to be woken in a place that is kept here. Its number, and until when it
    /// waits; none, where there is no memory for it.
    pub fn join_task(&mut self, number: u64, waker: &mut Option<Waker>, wakes: &mut Wakes) -> Option<(u64, Instant)> {
        let load = self.loads.get_mut(&number)?;
        wakes.reserve().ok()?;
        load.tasks.try_reserve(1).ok()?;
        load.tasks.insert(self.last_task + 1, waker.take()?);
        wakes.wait();
        self.last_task += 1;
        let until = load.until;
        self.join(number);
        Some((self.last_task, until))
    }

    /// The task is to be woken by another waker. What is handed back is to be dropped without the lock.
    #[must_use]
    pub fn renew(&mut self, number: u64, task: u64, waker: Waker) -> Option<Waker> {
        let Some(known) = self.loads.get_mut(&number).and_then(|load| load.tasks.get_mut(&task)) else {
            return Some(waker);
        };
        Some(std::mem::replace(known, waker))
    }

    /// The task isn't to be woken any more. What is handed back is to be dropped without the lock.
    #[must_use]
    pub fn forget_task(&mut self, number: u64, task: u64, wakes: &mut Wakes) -> Option<Waker> {
        let waker = self.loads.get_mut(&number)?.tasks.remove(&task)?;
        wakes.forget();
        Some(waker)
    }

    /// The call waits no more: what the load came to, if it is over, and whether nobody else waits for it.
    pub fn leave(&mut self, number: u64) -> (Option<Outcome>, bool) {
        let Some(load) = self.loads.get_mut(&number) else { return (None, true) };
        load.waiting -= 1;
        let (outcome, is_last) = (load.outcome, load.waiting == 0);
        if is_last && !load.is_running {
            self.loads.remove(&number);
        }
        (outcome, is_last)
    }

    /// The key was changed, or what was loaded is stored: who waits for its load is told.
    #[inline]
    pub fn end(&mut self, key: &[u8], wakes: &mut Wakes) {
        if !self.running.is_empty() {
            if let Some(number) = self.running.remove(key) {
                self.tell(number, Outcome::Look, wakes);
            }
        }
    }

    /// The load with this number is over, and came to this. The key's may be another one by now. Whether that is what somebody is
    /// told who waits.
    pub fn finish(&mut self, key: &[u8], number: u64, outcome: Outcome, wakes: &mut Wakes) -> bool {
        if self.running.get(key) == Some(&number) {
            self.running.remove(key);
        }
        self.tell(number, outcome, wakes);
        self.loads.get(&number).is_some_and(|load| load.outcome == Some(outcome))
    }

    /// All keys were changed: who waits for a load is told, and nobody begins to wait for one of these any more.
    pub fn end_all(&mut self, wakes: &mut Wakes) {
        for number in std::mem::take(&mut self.running).into_values() {
            self.tell(number, Outcome::Look, wakes);
        }
    }

    fn tell(&mut self, number: u64, outcome: Outcome, wakes: &mut Wakes) {
        if let Some(load) = self.loads.get_mut(&number) {
            // (one that was taken over isn't ended by what changes the key: so what it came to isn't handed on)
            load.outcome.get_or_insert(if load.is_running { outcome } else { Outcome::Look });
            load.wake(number, wakes);
        }
        self.stop(number);
    }

    /// Has the tasks woken whose loads have taken too long, and answers when it is to be called again.
    pub fn wake_overdue(&mut self, wakes: &mut Wakes) -> Option<Instant> {
        let now = Instant::now();
        let (mut next, awaited) = (None, self.loads.iter_mut().filter(|(_, load)| !load.tasks.is_empty()));
        for (number, load) in awaited {
            if load.until <= now {
                load.wake(*number, wakes);
            } else {
                next = Some(next.map_or(load.until, |next: Instant| next.min(load.until)));
            }
        }
        next
    }

    /// The cache is closed: nobody waits any more.
    pub fn close(&mut self, wakes: &mut Wakes) {
        self.running.clear();
        for (number, load) in &mut self.loads {
            load.is_running = false;
            load.wake(*number, wakes);
        }
        self.loads.retain(|_, load| load.waiting > 0);
    }
}
