use crate::generations::Generations;
use crate::held::copied;
use crate::times::{Clocked, Kind};
use crate::wakes::Wakes;
use crate::{Error, Refused, Reply};
use std::collections::HashMap;
use std::task::Waker;
use std::time::Instant;

/// What a call that waited is answered.
pub(crate) type Answer = Result<Reply, Error>;

/// Who is to be woken once a call is answered.
enum Waits {
    Thread,
    Task(Waker),
}

/// A call that waits, or whose answer isn't taken yet.
#[derive(Default)]
pub(crate) struct Call {
    waits: Option<Waits>,
    is_add: bool,
    // where it is timed
    begun: Option<Instant>,
    // where somebody listens
    key: Option<Box<[u8]>>,
    answer: Option<Answer>,
}

/// The calls of a shard that wait for flash.
#[derive(Default)]
pub(crate) struct Calls {
    waiting: HashMap<u64, Call>,
    // replies that the engine owes, also to calls that were given up
    owed: usize,
    // gets that were given up before they were answered, by their keys, and their keys: the next get of the key goes on with its
    left: HashMap<Box<[u8]>, u64>,
    keys: HashMap<u64, Box<[u8]>>,
    // jobs of which an operation failed, and whether that whose replies come now is one
    failed: Vec<u64>,
    is_faulty: bool,
    // the key of a get that is to wait, and the keys of those that waited, and for which an operation had failed
    noted: Option<Box<[u8]>>,
    unread: Vec<Box<[u8]>>,
    /// The cache is out of memory for a reply, which holds those behind it up: a filler tries again.
    pub is_held_up: bool,
    /// Gets that waited and found a value.
    pub from_flash: u64,
    /// Gets that waited and found none, for whose key an operation had failed.
    pub misses_by_fault: u64,
    /// Gets that waited while the shard was cleared.
    pub misses_by_clear: u64,
    /// Calls that were given up while they waited.
    pub given_up: u64,
    /// Who is told how long gets waited.
    pub clocked: Option<Clocked>,
}

impl Calls {
    /// Keeps a place for one more call, before the engine is asked: a call that it has taken can't be refused any more.
    pub fn reserve(&mut self) -> Result<(), Refused> {
        self.waiting.try_reserve(1).map_err(|_| Refused::NO_MEMORY)
    }

    /// Lists a call that waits from now on, in the place that was kept; and so it has one among those who are woken.
    pub fn begin(&mut self, call: u64, wakes: &mut Wakes) {
        self.owed += 1;
        let begun = self.clocked.as_ref().map(|_| Instant::now());
        self.waiting.insert(call, Call { key: self.noted.take(), begun, ..Call::default() });
        wakes.wait();
    }

    /// The key of the get that begins to wait next. (Out of memory, nobody is told of it.)
    pub fn note_key(&mut self, key: &[u8]) {
        self.noted = copied(key).ok().map(Vec::into_boxed_slice);
    }

    /// Tells the keys of gets that waited and found none, for which an operation had failed.
    pub fn take_unread(&mut self, tell: impl Fn(&[u8])) {
        self.unread.drain(..).for_each(|key| tell(&key));
    }

    // A get that waited found none, and an operation had failed.
    fn note_unread(&mut self, call: u64) {
        self.misses_by_fault += 1;
        let key = self.waiting.get_mut(&call).and_then(|call| call.key.take());
        if let Some(key) = key.filter(|_| self.unread.try_reserve(1).is_ok()) {
            self.unread.push(key);
        }
    }

    /// The call is an add.
    pub fn note_add(&mut self, call: u64) {
        if let Some(call) = self.waiting.get_mut(&call) {
            call.is_add = true;
        }
    }

    /// How many calls wait for their answer.
    pub fn len(&self) -> usize {
        self.waiting.values().filter(|call| call.answer.is_none()).count()
    }

    /// Whether replies may come.
    pub fn is_owed(&self) -> bool {
        self.owed > 0
    }

    /// Whether the call still waits.
    pub fn is_open(&self, call: u64) -> bool {
        self.waiting.get(&call).is_some_and(|call| call.answer.is_none())
    }

    /// Whether the call waits, or its answer isn't taken yet.
    pub fn is_listed(&self, call: u64) -> bool {
        self.waiting.contains_key(&call)
    }

    /// The call's answer, once it is there.
    pub fn take(&mut self, call: u64) -> Option<Answer> {
        self.waiting.get(&call)?.answer.as_ref()?;
        self.waiting.remove(&call)?.answer
    }

    /// A thread sleeps until the call is answered.
    pub fn sleep(&mut self, call: u64) {
        if let Some(call) = self.waiting.get_mut(&call) {
            call.waits = Some(Waits::Thread);
        }
    }

    /// Has the task woken for the call. What is handed back is to be dropped without the lock.
    #[must_use]
    pub fn task(&mut self, call: u64, waker: Waker) -> Option<Waker> {
        let Some(call) = self.waiting.get_mut(&call) else { return Some(waker) };
        match call.waits.replace(Waits::Task(waker)) {
            Some(Waits::Task(before)) => Some(before),
            _ => None,
        }
    }

    /// Gives the get of this key up. Its reply is dropped when it comes, unless another get goes on with it. What is handed back is
    /// to be dropped without the lock.
    #[must_use]
    pub fn give_up(&mut self, call: u64, key: &[u8], wakes: &mut Wakes) -> Option<Call> {
        let given_up = self.forget(call, wakes)?;
        if given_up.answer.is_none() {
            let _ = self.leave(call, key); // (out of memory, the next get of the key begins one of its own)
        }
        Some(given_up)
    }

    /// Gives a call up with which no other goes on.
    #[must_use]
    pub fn forget(&mut self, call: u64, wakes: &mut Wakes) -> Option<Call> {
        let given_up = self.waiting.remove(&call)?;
        if given_up.answer.is_none() {
            self.given_up += 1;
            wakes.forget();
        }
        Some(given_up)
    }

    fn leave(&mut self, call: u64, key: &[u8]) -> Result<(), Refused> {
        if self.left.contains_key(key) {
            return Ok(());
        }
        self.left.try_reserve(1).map_err(|_| Refused::NO_MEMORY)?;
        self.keys.try_reserve(1).map_err(|_| Refused::NO_MEMORY)?;
        let (by_key, of_call) = (copied(key)?, copied(key)?);
        self.left.insert(by_key.into_boxed_slice(), call);
        self.keys.insert(call, of_call.into_boxed_slice());
        Ok(())
    }

    /// The get of this key that was given up and that the engine hasn't answered yet: a get may go on with it. (A change of the key
    /// answers it. So nothing was changed since it began.)
    pub fn go_on(&mut self, key: &[u8], engine: &mut Generations) -> Option<u64> {
        if self.left.is_empty() {
            return None;
        }
        let call = self.left.remove(key)?;
        self.keys.remove(&call);
        let reply = engine.take_reply(call);
        if matches!(reply, Err(Refused::NO_MEMORY)) {
            return None; // (it is still owed)
        }
        self.owed -= 1;
        // (one that was answered was so before now, and maybe before a change)
        matches!(reply, Err(Refused::NOT_READY)).then_some(call)
    }

    /// Notes a result that was handed in for this job: whether its operation failed, and whether the job is over. Its replies are
    /// to be swept next.
    pub fn note_result(&mut self, job: u64, has_failed: bool, is_over: bool) {
        // (out of memory, such a miss isn't told from others)
        if has_failed && !self.failed.contains(&job) && self.failed.try_reserve(1).is_ok() {
            self.failed.push(job);
        }
        if is_over {
            let place = self.failed.iter().position(|failed| *failed == job);
            self.is_faulty = place.map(|place| self.failed.swap_remove(place)).is_some();
        }
    }

    /// Hands out the replies that are there.
    pub fn sweep(&mut self, engine: &mut Generations, wakes: &mut Wakes) {
        let is_faulty = std::mem::take(&mut self.is_faulty);
        self.is_held_up = false;
        while self.owed > 0 {
            let Some(call) = engine.next_reply() else { return };
            let reply = engine.take_reply(call);
            if matches!(reply, Err(Refused::NO_MEMORY)) {
                // it is still owed, and dropped once there is memory
                self.is_held_up = true;
                return self.answer(call, Err(Error::Refused(Refused::NO_MEMORY)), wakes);
            }
            self.owed -= 1;
            self.from_flash += u64::from(matches!(reply, Ok(Reply::Hit(_))));
            if is_faulty && matches!(reply, Ok(Reply::Miss)) {
                self.note_unread(call);
            }
            self.answer(call, reply.map_err(Error::Refused), wakes);
        }
    }

    fn answer(&mut self, number: u64, answer: Answer, wakes: &mut Wakes) {
        match self.waiting.get_mut(&number) {
            Some(call) => {
                if let (Some(clocked), Some(begun), false) = (&self.clocked, call.begun.take(), call.is_add) {
                    clocked.end(Kind::WaitingGet, begun);
                }
                call.answer(number, answer, wakes);
            }
            None => drop(self.keys.remove(&number).and_then(|key| self.left.remove(&key))),
        }
    }

    /// The shard is cleared: all that wait have missed (which an add knows by that it is neither stored nor refused), and no reply is
    /// owed.
    pub fn clear(&mut self, wakes: &mut Wakes) {
        for (number, call) in self.waiting.iter_mut().filter(|(_, call)| call.answer.is_none()) {
            self.misses_by_clear += u64::from(!call.is_add);
            call.answer(*number, Ok(Reply::Miss), wakes);
        }
        self.owed = 0;
        self.left.clear();
        self.keys.clear();
        self.failed.clear();
        self.is_faulty = false;
        self.is_held_up = false;
    }

    /// Answers all that wait that the cache is closed.
    pub fn close(&mut self, wakes: &mut Wakes) {
        self.waiting.iter_mut().for_each(|(number, call)| call.answer(*number, Err(Error::Closed), wakes));
    }
}

impl Call {
    // What it is told first holds: that the cache is out of memory, or closed.
    fn answer(&mut self, number: u64, answer: Answer, wakes: &mut Wakes) {
        if self.answer.is_some() {
            return;
        }
        self.answer = Some(answer);
        match self.waits.take() {
            Some(Waits::Task(waker)) => return wakes.task(waker),
            Some(Waits::Thread) => wakes.threads(number),
            None => {}
        }
        wakes.forget();
    }
}
