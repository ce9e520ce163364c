use crate::bars::Bars;
use crate::bell::Bell;
use crate::buffer::with_page;
use crate::calls::{Answer, Call, Calls};
use crate::checked::Checked;
use crate::generations::Generations;
use crate::lease::Waited;
use crate::listener::{Heard, Queue};
use crate::loads::{Loads, Outcome};
use crate::marks::Marks;
use crate::masked::Pad;
use crate::numbers::{Numbers, Share, MOST_POOLS};
use crate::shared::Shared;
use crate::spread::Spread;
use crate::timer::Timer;
use crate::times::{self, Clocked, Kind};
use crate::told::{Tellings, Told};
use crate::waits;
use crate::wakes::{Rings, Wakes, Woken};
use crate::{
    Added, Came, Cause, Clock, Copied, Engine, Error, Found, Held, Kept, Lookup, Operation, Options, Refused, Take,
    Ticket, Value,
};
use std::collections::hash_map::RandomState;
use std::collections::VecDeque;
use std::hash::{BuildHasher, Hasher};
use std::panic::{RefUnwindSafe, UnwindSafe};
use std::sync::atomic::{AtomicU64, Ordering::Relaxed};
use std::sync::{Condvar, Mutex, MutexGuard, PoisonError, TryLockError};
use std::task::{Poll, Waker};
use std::thread;
use std::time::{Duration, Instant};

// How long one waits for memory, before one tries again.
pub(crate) const PAUSE: Duration = Duration::from_millis(5);
// How often one tries again for an operation's memory: for a second. Then the operation has failed.
const TRIES: usize = 200;

/// What a shard's lock holds.
pub(crate) struct State {
    pub engine: Generations,
    pub calls: Calls,
    pub loads: Loads,
    pub bars: Bars,
    pub wakes: Wakes,
    pub heard: Heard,
    /// Gets that missed, of whose key memory had an item that was expired.
    pub misses_expired: u64,
    // the last second that the engine was told
    now: u64,
    // jobs of writers that are under way
    writing: usize,
    // what tasks began, and fillers are to go on with; and how many jobs are out that may come to be
    left: VecDeque<Left>,
    lent: usize,
    /// How far it has come to rest, before it is closed.
    pub rest: Rest,
    closed: bool,
}

/// How far a shard has come to rest, so that it may be kept.
#[derive(Clone, Copy, Debug, Default, PartialEq, Eq, PartialOrd, Ord)]
pub(crate) enum Rest {
    /// It hasn't begun.
    #[default]
    Not,
    /// No call begins.
    Shut,
    /// And nothing is written that isn't being written.
    Still,
}

// A job that somebody would have had to wait for: for the device, or for memory.
enum Left {
    Take(Take),
    Result(u64, Came),
}

impl State {
    fn new(engine: Engine, now: u64) -> State {
        State {
            engine: Generations::new(engine),
            calls: Calls::default(),
            loads: Loads::default(),
            bars: Bars::default(),
            wakes: Wakes::default(),
            heard: Heard::default(),
            misses_expired: 0,
            now,
            writing: 0,
            left: VecDeque::new(),
            lent: 0,
            rest: Rest::Not,
            closed: false,
        }
    }

    // The state of a shard that has what an earlier one had.
    fn resumed(engine: Engine, pad: Pad, now: u64) -> State {
        State { engine: Generations::resumed(engine, pad), ..State::new(Engine::none(), now) }
    }

    /// Whether no call waits, no reply is owed, and no operation is under way.
    pub fn rests(&self) -> bool {
        let is_quiet = self.writing == 0 && self.lent == 0 && self.left.is_empty();
        is_quiet && self.engine.rests() && !self.calls.is_owed()
    }

    /// Whether writers have nothing to do, and do nothing.
    pub fn has_written(&mut self) -> bool {
        self.writing == 0 && !self.engine.is_to_be_written()
    }

    /// Deletes all keys whose rows are being changed, or may still come to be: what they have may be old by the time that it is found
    /// again. Answers whether it could.
    pub fn delete_barred(&mut self) -> bool {
        let State { engine, bars, .. } = self;
        bars.keys().all(|key| engine.now().delete(key).is_ok())
    }

    /// Whether the shard is closed.
    pub fn is_closed(&self) -> bool {
        self.closed
    }

    // Keeps what a call that waits needs, before the engine is asked.
    fn reserve(&mut self) -> Result<(), Refused> {
        self.calls.reserve()?;
        self.wakes.reserve()
    }

    /// The value under the key. A miss of memory is counted by its reason.
    pub fn get(&mut self, key: &[u8]) -> Result<Found, Refused> {
        self.reserve()?;
        if let Some(call) = self.calls.go_on(key, &mut self.engine) {
            self.note_key(key);
            return Ok(Found::Waits(call));
        }
        let found = self.engine.get(key)?;
        match found {
            Found::Hit(_) => {}
            Found::Miss => self.count_expired(key),
            Found::Waits(_) => self.note_key(key),
        }
        Ok(found)
    }

    /// The same, copied to the head of `out`.
    pub fn get_into(&mut self, key: &[u8], out: &mut [u8]) -> Result<Copied, Refused> {
        self.reserve()?;
        if let Some(call) = self.calls.go_on(key, &mut self.engine) {
            self.note_key(key);
            return Ok(Copied::Waits(call));
        }
        let copied = self.engine.get_into(key, out)?;
        match copied {
            Copied::Hit(_) => {}
            Copied::Miss => self.count_expired(key),
            Copied::Waits(_) => self.note_key(key),
        }
        Ok(copied)
    }

    /// Stores the value where there is none.
    pub fn add(&mut self, pool: u8, key: &[u8], value: &[u8], ttl: u32) -> Result<Added, Refused> {
        self.reserve()?;
        self.engine.add(pool, key, value, ttl)
    }

    /// Takes the key out, and ends its load.
    pub fn delete(&mut self, key: &[u8], why: Cause) -> Result<bool, Refused> {
        let was_there = self.engine.now().delete(key)?;
        self.end_load(key);
        self.heard.note(key, why);
        Ok(was_there)
    }

    /// Stores what was loaded, unless the key was changed since the ticket was handed out, or is being changed.
    pub fn set_leased(
        &mut self,
        ticket: Ticket,
        pool: u8,
        key: &[u8],
        value: &[u8],
        ttl: u32,
    ) -> Result<Kept, Refused> {
        if self.is_barred(key) {
            return Ok(Kept::Stale);
        }
        self.engine.now().set_leased(ticket, pool, key, value, ttl)
    }

    /// Raises a bar on the key, for a change: its number.
    pub fn raise_bar(&mut self, key: &[u8]) -> Result<u64, Refused> {
        let State { engine, bars, loads, wakes, .. } = self;
        bars.end_due(|key| delete(engine, loads, wakes, key));
        bars.raise(key)
    }

    /// Whether a bar stands on the key. One that is due ends here.
    pub fn is_barred(&mut self, key: &[u8]) -> bool {
        let State { engine, bars, loads, wakes, .. } = self;
        bars.stands(key, |key| delete(engine, loads, wakes, key))
    }

    /// The key's load is over, since the key was changed, or what was loaded is stored.
    #[inline]
    pub fn end_load(&mut self, key: &[u8]) {
        self.loads.end(key, &mut self.wakes);
    }

    /// The same of what was stored by this load, which another may have taken over meanwhile.
    pub fn end_loads(&mut self, key: &[u8], load: Option<u64>) {
        self.end_load(key);
        if let Some(load) = load {
            self.loads.finish(key, load, Outcome::Look, &mut self.wakes);
        }
    }

    /// A task waits for a load.
    pub fn join_load(&mut self, load: u64, waker: &mut Option<Waker>) -> Option<(u64, Instant)> {
        self.loads.join_task(load, waker, &mut self.wakes)
    }

    // Keeps a place for one more job that may have to be left.
    fn can_leave_a_job(&mut self) -> bool {
        self.left.try_reserve(self.lent + 1).is_ok()
    }

    /// A call waits, in the places that were kept.
    pub fn begin(&mut self, call: u64) {
        waits::count();
        self.calls.begin(call, &mut self.wakes);
    }

    /// Gives the call up. What is handed back is to be dropped without the lock.
    #[must_use]
    pub fn give_up(&mut self, call: u64, key: &[u8]) -> Option<Call> {
        self.calls.give_up(call, key, &mut self.wakes)
    }

    /// Forgets all that the shard has, and answers the engine that had it, which is to be dropped without the lock. What is loaded
    /// now is stale. Changes that are under way go on: they are of keys, and not of items.
    #[must_use]
    pub fn clear(&mut self, engine: Option<Engine>, pools: u8) -> Engine {
        let cleared = self.engine.cleared();
        let before = self.engine.renew(engine, pools);
        self.heard.note_many(Cause::Cleared, self.engine.cleared() - cleared);
        self.calls.clear(&mut self.wakes);
        self.loads.end_all(&mut self.wakes);
        before
    }

    fn count_expired(&mut self, key: &[u8]) {
        if self.engine.now().is_expired(key) == Ok(true) {
            self.misses_expired += 1;
            self.heard.note(key, Cause::Expired);
        }
    }

    // Who listens is told the key of a call that waits, where its page can't be read.
    fn note_key(&mut self, key: &[u8]) {
        if self.heard.is_on() {
            self.calls.note_key(key);
        }
    }

    /// This one listens from now on.
    pub fn hear(&mut self, queue: Shared<Queue>) {
        let losses = self.engine.losses();
        self.heard.begin(queue, losses);
    }

    // Tells who listens what is gone since.
    fn tell(&mut self) {
        let State { engine, calls, heard, .. } = self;
        calls.take_unread(|key| heard.note(key, Cause::Unread));
        heard.note_losses(engine.losses());
    }

    // Hands in what came of an operation. What it answers is known by `leave`, before the lock is free.
    fn finish(&mut self, job: u64, came: &mut Came) -> Result<Take, Refused> {
        let has_failed = matches!(came, Came::Failed);
        if !self.engine.is_of_now(job) {
            return self.engine.finish(job, came);
        }
        let next = self.engine.finish(job, came);
        self.calls.note_result(job, has_failed, matches!(next, Ok(Take::Finished)));
        next
    }
}

// Whether the key could be deleted. (What was loaded before isn't handed on, also where it can't be.)
fn delete(engine: &mut Generations, loads: &mut Loads, wakes: &mut Wakes, key: &[u8]) -> bool {
    loads.end(key, wakes);
    engine.now().delete(key).is_ok()
}

/// A shard, on lines of the processor's memory of its own.
#[repr(align(128))]
pub(crate) struct Shard {
    state: Mutex<State>,
    // wake who waits for a call or a load
    rings: Rings,
    // a writer has no more to do
    quiet: Condvar,
    lock_waits: AtomicU64,
}

/// The shards, and all that their threads share.
pub(crate) struct Shards {
    shards: Vec<Shard>,
    pub device: Option<Checked>,
    page: usize,
    pub pages: u32,
    pub share: Share,
    pub numbers: Numbers,
    pub spread: Spread,
    pub clock: Clock,
    pub patience: Duration,
    pub unknown_for: Duration,
    // the value that says that there is no such row. Nobody else can have it, since it is drawn by chance, and never shown
    pub absent: [u8; ABSENT],
    pub tellings: Tellings,
    // when the next load has taken too long for which tasks wait, and which shards have such
    timer: Timer,
    timed: Marks,
    writers: Bell,
    fillers: Bell,
    /// How often all were cleared.
    pub clears: AtomicU64,
    /// How long what took, where that is asked for.
    pub clocked: Option<Clocked>,
}

// What panics in a call (a clock, a device, a task that is woken) does so with the shard as a call leaves it, or its lock free.
impl UnwindSafe for Shards {}
impl RefUnwindSafe for Shards {}

/// The length of the value that says that there is no such row.
pub(crate) const ABSENT: usize = 16;

// As many bytes as the platform draws by chance.
pub(crate) fn drawn() -> [u8; ABSENT] {
    let half = || RandomState::new().build_hasher().finish().to_le_bytes();
    let mut drawn = [0; ABSENT];
    drawn[..ABSENT / 2].copy_from_slice(&half());
    drawn[ABSENT / 2..].copy_from_slice(&half());
    drawn
}

/// A shard, locked.
pub(crate) type Locked<'a> = MutexGuard<'a, State>;

impl Shards {
    /// Empty shards with these numbers, over a device that is still to come, where there is flash.
    pub fn new(numbers: &Numbers, options: &Options) -> Result<Shards, Refused> {
        let (share, now) = (numbers.share(), options.clock.now());
        let clocked = if options.times { Some(Clocked::new()?) } else { None };
        let mut shards = Vec::new();
        shards.try_reserve_exact(usize::from(numbers.shards)).map_err(|_| Refused::NO_MEMORY)?;
        for _ in 0..numbers.shards {
            let engine = new_engine(numbers, &share, now)?;
            let mut state = State::new(engine, now);
            state.calls.clocked = clocked.clone();
            let state = Mutex::new(state);
            shards.push(Shard { state, rings: Rings::default(), quiet: Condvar::new(), lock_waits: AtomicU64::new(0) });
        }
        let (page, pages) = numbers.flash.map_or((0, 0), |flash| (flash.page as usize, flash.pages() as u32));
        Ok(Shards {
            shards,
            device: None,
            page,
            pages,
            share,
            numbers: *numbers,
            spread: Spread::new(),
            clock: options.clock.clone(),
            patience: options.patience,
            unknown_for: options.unknown_for,
            absent: drawn(),
            tellings: Tellings::default(),
            timer: Timer::default(),
            timed: Marks::default(),
            writers: Bell::default(),
            fillers: Bell::default(),
            clears: AtomicU64::new(0),
            clocked,
        })
    }

    pub fn len(&self) -> usize {
        self.shards.len()
    }

    pub fn pools(&self) -> u8 {
        self.share.pools
    }

    /// The key's shard, by the upper half of its hash. (That of the library, FNV-1a, goes byte by byte, and takes as long as
    /// half a hit.)
    #[inline]
    pub fn of(&self, key: &[u8]) -> usize {
        match self.shards.len() {
            1 => 0,
            shards => (((self.spread.hash(key) >> 32) * shards as u64) >> 32) as usize,
        }
    }

    /// The key's pool: its items are spread over all of them, where one can't hold as many.
    #[inline]
    pub fn pool_of(&self, key: &[u8]) -> u8 {
        match self.share.pools {
            1 => 0,
            pools => (self.spread.hash(key) as u32 % u32::from(pools)) as u8,
        }
    }

    /// The shard, locked. A thread that panicked while it held the lock left the shard as a call leaves it.
    #[inline]
    pub fn lock(&self, shard: usize) -> Locked<'_> {
        let Shard { state, lock_waits, .. } = &self.shards[shard];
        match state.try_lock() {
            Ok(state) => state,
            Err(TryLockError::Poisoned(state)) => state.into_inner(),
            Err(TryLockError::WouldBlock) => {
                lock_waits.fetch_add(1, Relaxed);
                state.lock().unwrap_or_else(PoisonError::into_inner)
            }
        }
    }

    /// How often a shard's lock was waited for.
    pub fn lock_waits(&self) -> u64 {
        self.shards.iter().map(|shard| shard.lock_waits.load(Relaxed)).sum()
    }

    /// The shard, locked for a call, with its clock told.
    #[inline]
    pub fn enter(&self, shard: usize) -> Result<Locked<'_>, Error> {
        let now = self.clock.now();
        let mut state = self.lock(shard);
        if state.closed || state.rest != Rest::Not {
            return Err(Error::Closed);
        }
        if !state.engine.is_there() {
            self.fill_shard(&mut state)?;
        }
        if now > state.now {
            state.engine.now().tick(now)?;
            state.now = now;
        }
        Ok(state)
    }

    /// When a get begins, if it is one that is timed.
    #[inline]
    pub fn begin_get(&self) -> Option<Instant> {
        self.clocked.as_ref().and_then(|_| times::begin_some())
    }

    /// A get that began then is answered, and hasn't waited.
    #[inline]
    pub fn end_get(&self, begun: Option<Instant>) {
        if let (Some(begun), Some(clocked)) = (begun, &self.clocked) {
            clocked.end(Kind::Get, begun);
        }
    }

    /// Has the shard have what an earlier one had, and was told this second. (That may be later than the clock's: a close that told the
    /// next cache less would let the clock go back by a bit at each restart.)
    pub fn put_resumed(&mut self, shard: usize, engine: Engine, pad: Pad, second: u64) {
        let state = self.shards[shard].state.get_mut().unwrap_or_else(PoisonError::into_inner);
        *state = State::resumed(engine, pad, second);
        state.calls.clocked = self.clocked.clone();
    }

    /// Has all shards be empty, as new ones.
    pub fn empty(&mut self) -> Result<(), Refused> {
        let now = self.clock.now();
        for shard in &mut self.shards {
            let engine = new_engine(&self.numbers, &self.share, now)?;
            let state = shard.state.get_mut().unwrap_or_else(PoisonError::into_inner);
            *state = State::new(engine, now);
            state.calls.clocked = self.clocked.clone();
        }
        Ok(())
    }

    /// The last second that a shard was told, or that it is by the clock.
    pub fn last_second(&self) -> u64 {
        (0..self.len()).map(|shard| self.lock(shard).now).fold(self.clock.now(), u64::max)
    }

    /// Waits until the shard may be at rest, or something changed: a while at most.
    pub fn wait_for_rest<'a>(&'a self, shard: usize, state: Locked<'a>) -> Locked<'a> {
        let waited = self.shards[shard].quiet.wait_timeout(state, PAUSE);
        waited.unwrap_or_else(PoisonError::into_inner).0
    }

    /// Has writers look at the shard.
    pub fn ring_writers(&self, shard: usize) {
        self.writers.ring(shard);
    }

    // Makes the engine for which there was no memory as the shard was cleared.
    #[cold]
    fn fill_shard(&self, state: &mut Locked<'_>) -> Result<(), Refused> {
        let engine = new_engine(&self.numbers, &self.share, state.now)?;
        state.engine.fill(engine);
        Ok(())
    }

    /// Forgets all that the shard has, and answers the engine that had it. Where there is no memory for an empty one, the calls of
    /// the shard are refused until there is.
    #[must_use]
    pub fn clear(&self, shard: usize) -> Option<Engine> {
        let now = self.clock.now();
        let empty = new_engine(&self.numbers, &self.share, now).ok();
        let mut state = self.lock(shard);
        if state.closed {
            return None;
        }
        let before = state.clear(empty, self.pools());
        let now = state.now.max(now);
        let _ = state.engine.now().tick(now); // (where there is one, it isn't refused)
        state.now = now;
        self.leave(shard, state);
        Some(before)
    }

    /// Lets the shard go after a step that may have answered calls or made work: who waits for that is told.
    pub fn leave(&self, shard: usize, mut state: Locked<'_>) {
        let State { engine, calls, wakes, .. } = &mut *state;
        calls.sweep(engine, wakes);
        if state.heard.is_on() {
            state.tell();
        }
        let State { engine, calls, wakes, left, rest, .. } = &mut *state;
        let has_reads = calls.is_owed() && (calls.is_held_up || engine.filler_has_work() != Ok(false));
        let has_fills = has_reads || !left.is_empty();
        let may_write = self.device.is_some() && *rest != Rest::Still;
        let has_writes = may_write && engine.writer_has_work() != Ok(false);
        let woken = wakes.take();
        drop(state);
        if has_writes {
            self.writers.ring(shard);
        }
        if has_fills {
            self.fillers.ring(shard);
        }
        self.wake(shard, woken);
    }

    /// Wakes these, and who else is to be woken.
    fn wake(&self, shard: usize, first: Woken) {
        let mut woken = first;
        loop {
            let is_all = woken.is_all;
            woken.wake(&self.shards[shard].rings);
            if is_all {
                return;
            }
            woken = self.lock(shard).wakes.take();
        }
    }

    // Sleeps until what has this number is rung, or for so long.
    fn sleep<'a>(&'a self, shard: usize, state: Locked<'a>, number: u64, most: Option<Duration>) -> Locked<'a> {
        let ring = self.shards[shard].rings.of(number);
        match most {
            None => ring.wait(state).unwrap_or_else(PoisonError::into_inner),
            Some(most) => ring.wait_timeout(state, most).unwrap_or_else(PoisonError::into_inner).0,
        }
    }

    // Sleeps until the call is answered, or for so long.
    fn sleep_for_call<'a>(
        &'a self,
        shard: usize,
        mut state: Locked<'a>,
        call: u64,
        most: Option<Duration>,
    ) -> Locked<'a> {
        state.calls.sleep(call);
        self.sleep(shard, state, call, most)
    }

    /// Waits for the answer of a get of this key that begins to wait: until this moment at most, or else for as long as it takes.
    pub fn answer_of<'a>(
        &'a self,
        shard: usize,
        state: Locked<'a>,
        (key, call): (&[u8], u64),
        until: Option<Instant>,
    ) -> Answer {
        match until {
            None => self.fill_for(shard, state, call),
            Some(until) => self.wait_for(shard, state, (key, call), until),
        }
    }

    /// Waits for the answer of a call that begins to wait, and makes the reads that are to be made meanwhile: its own, and
    /// those of who waits longer. Where another thread makes it, it sleeps.
    pub fn fill_for<'a>(&'a self, shard: usize, mut state: Locked<'a>, call: u64) -> Answer {
        state.begin(call);
        self.fill_on(shard, state, call)
    }

    /// The same of an add. Where it is a miss, the shard was cleared meanwhile, and nothing is stored.
    pub fn fill_for_add<'a>(&'a self, shard: usize, mut state: Locked<'a>, call: u64) -> Answer {
        state.begin(call);
        state.calls.note_add(call);
        self.fill_on(shard, state, call)
    }

    /// The same of a call that waits already.
    pub fn fill_on<'a>(&'a self, shard: usize, mut state: Locked<'a>, call: u64) -> Answer {
        loop {
            match self.fill_until_idle(shard, state, call) {
                Ok(answer) => return answer,
                Err((idle, most)) => state = self.sleep_for_call(shard, idle, call, most),
            }
        }
    }

    /// Makes the reads that are to be made until the call is answered: its answer. Where there is none to be made, the shard again,
    /// and for how long at most one may sleep then.
    pub fn fill_until_idle<'a>(
        &'a self,
        shard: usize,
        mut state: Locked<'a>,
        call: u64,
    ) -> Result<Answer, (Locked<'a>, Option<Duration>)> {
        loop {
            if let Some(answer) = state.calls.take(call) {
                return Ok(answer);
            }
            match state.engine.filler_take() {
                Ok(Take::Idle) => return Err((state, None)),
                Err(_) => return Err((state, Some(PAUSE))),
                Ok(take) => self.complete(shard, state, take),
            }
            state = self.lock(shard);
        }
    }

    // Waits for the answer of a get of this key that begins to wait, until this moment at most. The fillers make the reads for which
    // this thread would have to wait.
    fn wait_for<'a>(&'a self, shard: usize, state: Locked<'a>, (key, call): (&[u8], u64), until: Instant) -> Answer {
        let state = self.begin_waiting(shard, state, call);
        self.wait_or_give_up(shard, state, (key, call), until)
    }

    /// Waits for the answer of a get of this key that waits, until this moment at most, and gives it up then.
    pub fn wait_or_give_up<'a>(
        &'a self,
        shard: usize,
        state: Locked<'a>,
        (key, call): (&[u8], u64),
        until: Instant,
    ) -> Answer {
        match self.wait_on(shard, state, call, Some(until)) {
            Ok(answer) => answer,
            Err(mut state) => {
                let given_up = state.give_up(call, key);
                drop(state);
                drop(given_up);
                Err(Error::TimedOut)
            }
        }
    }

    /// Begins a call that waits, and makes its reads as far as nobody has to wait for one. The fillers make the others.
    pub fn begin_waiting<'a>(&'a self, shard: usize, mut state: Locked<'a>, call: u64) -> Locked<'a> {
        state.begin(call);
        self.begin_reads(shard, state, call)
    }

    /// Makes the reads of a call that waits as far as nobody has to wait for one. The fillers make the others.
    pub fn begin_reads<'a>(&'a self, shard: usize, state: Locked<'a>, call: u64) -> Locked<'a> {
        let state = self.fill_now(shard, state, call);
        self.call_filler(shard);
        state
    }

    /// Calls a filler to the shard.
    pub fn call_filler(&self, shard: usize) {
        self.fillers.ring(shard);
    }

    /// Waits for the answer of a call that waits, until this moment at most: the shard again, where there is none by then.
    pub fn wait_on<'a>(
        &'a self,
        shard: usize,
        mut state: Locked<'a>,
        call: u64,
        until: Option<Instant>,
    ) -> Result<Answer, Locked<'a>> {
        loop {
            if let Some(answer) = state.calls.take(call) {
                return Ok(answer);
            }
            let left = until.map(|until| until.saturating_duration_since(Instant::now()));
            if left == Some(Duration::ZERO) {
                return Err(state);
            }
            state = self.sleep_for_call(shard, state, call, left);
        }
    }

    /// Begins a call that waits: its answer, where nobody has to wait for its reads. Else the fillers make them, and the task is
    /// woken.
    pub fn begin<'a>(&'a self, shard: usize, mut state: Locked<'a>, call: u64, waker: Waker) -> Poll<Answer> {
        state = self.begin_waiting(shard, state, call);
        if let Some(answer) = state.calls.take(call) {
            return Poll::Ready(answer);
        }
        let before = state.calls.task(call, waker);
        drop(state);
        drop(before);
        Poll::Pending
    }

    // Makes reads as long as nobody has to wait for one, and the call isn't answered.
    fn fill_now<'a>(&'a self, shard: usize, mut state: Locked<'a>, call: u64) -> Locked<'a> {
        while state.calls.is_open(call) && state.can_leave_a_job() {
            match state.engine.filler_take() {
                Ok(Take::Idle) | Err(_) => break,
                Ok(take) => {
                    state.lent += 1;
                    let is_done = self.complete_now(shard, state, take);
                    state = self.lock(shard);
                    state.lent -= 1;
                    if !is_done {
                        break;
                    }
                }
            }
        }
        state
    }

    /// Gives a call up.
    pub fn give_up(&self, shard: usize, key: &[u8], call: u64) {
        let given_up: Option<Call> = self.lock(shard).give_up(call, key);
        drop(given_up);
    }

    /// Forgets a call.
    pub fn forget(&self, shard: usize, call: u64) {
        let mut state = self.lock(shard);
        let State { calls, wakes, .. } = &mut *state;
        let forgotten = calls.forget(call, wakes);
        drop(state);
        drop(forgotten);
    }

    /// Waits until the load is over, or has taken too long, until this moment at most.
    pub fn wait_for_load<'a>(
        &'a self,
        shard: usize,
        mut state: Locked<'a>,
        load: u64,
        until: Option<Instant>,
    ) -> Result<Waited, Error> {
        state.loads.join(load);
        let mut error = Error::Closed;
        while !state.closed {
            let Some(left) = state.loads.left(load) else { return Ok(self.leave_load(shard, state, load, None)) };
            let own = until.map_or(left, |until| until.saturating_duration_since(Instant::now()));
            if own.is_zero() {
                error = Error::TimedOut;
                break;
            }
            state = self.sleep(shard, state, load, Some(left.min(own)));
        }
        self.leave_load(shard, state, load, None);
        Err(error)
    }

    /// Waits for the load no more: what it came to, where it is over.
    pub fn leave_load<'a>(&'a self, shard: usize, mut state: Locked<'a>, load: u64, task: Option<u64>) -> Waited {
        let mut told = None;
        if state.loads.outcome(load) == Some(Outcome::Told) {
            drop(state);
            told = self.tellings.read((shard, load)); // (it is kept until the last one leaves)
            state = self.lock(shard);
        }
        let State { loads, wakes, .. } = &mut *state;
        let waker = task.and_then(|task| loads.forget_task(load, task, wakes));
        let (outcome, is_last) = loads.leave(load);
        drop(state);
        drop(waker);
        if outcome == Some(Outcome::Told) && is_last {
            drop(self.tellings.take((shard, load)));
        }
        match (outcome, told) {
            (Some(Outcome::NotBegun), _) => Waited::Look { was_loaded: false },
            (Some(Outcome::Absent), _) => Waited::Came(Lookup::Absent),
            (_, Some(Told::Row(row))) => Waited::Came(Lookup::Hit(Value::from(row))),
            (_, Some(Told::Failed(why))) => Waited::Came(Lookup::Failed(why)),
            (_, None) => Waited::Look { was_loaded: true },
        }
    }

    /// The load is over, and came to this.
    pub fn finish_load(&self, shard: usize, key: &[u8], load: u64, outcome: Outcome) {
        let mut state = self.lock(shard);
        let State { loads, wakes, .. } = &mut *state;
        let is_known = loads.finish(key, load, outcome, wakes);
        let woken = wakes.take();
        drop(state);
        if outcome == Outcome::Told && !is_known {
            drop(self.tellings.take((shard, load))); // (who waited has gone meanwhile)
        }
        self.wake(shard, woken);
    }

    /// A load of the shard for which a task waits has taken too long then.
    pub fn set_timer(&self, shard: usize, moment: Instant) {
        self.timed.add(shard);
        self.timer.set(moment);
    }

    /// Sees to it that tasks are woken whose loads have taken too long, until the end.
    pub fn keep_time(&self) {
        while self.timer.wait() {
            self.timed.take_all(|shard| self.wake_overdue(shard));
        }
    }

    fn wake_overdue(&self, shard: usize) {
        let mut state = self.lock(shard);
        let State { loads, wakes, .. } = &mut *state;
        let next = loads.wake_overdue(wakes);
        let woken = wakes.take();
        drop(state);
        next.into_iter().for_each(|next| self.set_timer(shard, next));
        self.wake(shard, woken);
    }

    /// The value that is held; none, where it says that there is none.
    pub fn value_of(&self, held: Held) -> Result<Option<Value>, Refused> {
        let value = Value::of(held)?;
        Ok((!self.is_absent(&value)).then_some(value))
    }

    /// What is held, unless it says that there is none.
    pub fn row_of(&self, held: Option<Held>) -> Option<Held> {
        let mut held = held?;
        let mut bytes = [0; ABSENT];
        let says_absent = held.length() == ABSENT && held.copy(0, &mut bytes) == ABSENT && self.is_absent(&bytes);
        (!says_absent).then_some(held)
    }

    /// The value of what may be held.
    pub fn value_of_any(&self, held: Option<Held>) -> Result<Option<Value>, Error> {
        Ok(held.map_or(Ok(None), |held| self.value_of(held))?)
    }

    /// Whether these bytes say that there is no such row.
    pub fn is_absent(&self, value: &[u8]) -> bool {
        value == self.absent
    }

    /// Does what was taken to its end, with no lock held while the device works, and lets the shard go.
    fn complete<'a>(&'a self, shard: usize, state: Locked<'a>, take: Take) {
        let (mut state, mut take) = (state, take);
        loop {
            let (job, operation) = match take {
                Take::Idle | Take::Finished => return self.leave(shard, state),
                Take::Untold(job) => (job, None),
                Take::Work(job, operation) => (job, Some(operation)),
            };
            self.leave(shard, state);
            let operation = operation.or_else(|| self.ask_again(shard, job));
            let mut came = operation.map_or(Came::Failed, |operation| self.operate(shard, operation));
            (take, state) = self.hand_in(shard, job, &mut came);
        }
    }

    // The same as far as nobody has to wait: whether that was to its end. What is left goes to the fillers.
    fn complete_now<'a>(&'a self, shard: usize, state: Locked<'a>, take: Take) -> bool {
        let (mut state, mut take) = (state, take);
        loop {
            let (job, operation) = match take {
                Take::Idle | Take::Finished => {
                    self.leave(shard, state);
                    return true;
                }
                Take::Untold(job) => (job, None),
                Take::Work(job, operation) => (job, Some(operation)),
            };
            self.leave(shard, state);
            let came = match operation {
                Some(operation) => self.operate_now(shard, operation).map_err(|operation| Take::Work(job, operation)),
                None => Err(Take::Untold(job)),
            };
            state = self.lock(shard);
            let left = match came {
                Err(take) => Left::Take(take),
                Ok(mut came) => match state.finish(job, &mut came) {
                    Err(Refused::NO_MEMORY) => Left::Result(job, came),
                    next => {
                        take = next.unwrap_or(Take::Finished);
                        continue;
                    }
                },
            };
            state.left.push_back(left);
            self.leave(shard, state);
            return false;
        }
    }

    // Goes on with what a task left.
    fn resume<'a>(&'a self, shard: usize, state: Locked<'a>, left: Left) {
        match left {
            Left::Take(take) => self.complete(shard, state, take),
            Left::Result(job, mut came) => {
                drop(state);
                let (take, state) = self.hand_in(shard, job, &mut came);
                self.complete(shard, state, take);
            }
        }
    }

    // Hands a result in, again as long as the cache is out of memory, and answers what is next of the job.
    fn hand_in(&self, shard: usize, job: u64, came: &mut Came) -> (Take, Locked<'_>) {
        loop {
            let mut state = self.lock(shard);
            match state.finish(job, came) {
                Err(Refused::NO_MEMORY) if !state.closed => {
                    drop(state);
                    thread::sleep(PAUSE);
                }
                Ok(take) if !state.closed => return (take, state),
                _ => return (Take::Finished, state),
            }
        }
    }

    // What there may be memory for later, where it comes in time.
    fn tried<T>(&self, shard: usize, mut take: impl FnMut() -> Option<T>) -> Option<T> {
        for _ in 0..TRIES {
            let taken = take();
            if taken.is_some() || self.lock(shard).closed {
                return taken;
            }
            thread::sleep(PAUSE);
        }
        None
    }

    // The operation of a job, which couldn't be told for want of memory.
    fn ask_again(&self, shard: usize, job: u64) -> Option<Operation> {
        let asked = || match self.lock(shard).engine.operation(job) {
            Err(Refused::NO_MEMORY) => None,
            told => Some(told.ok()),
        };
        self.tried(shard, asked).flatten()
    }

    fn operate(&self, shard: usize, operation: Operation) -> Came {
        let came = match operation {
            Operation::Read(page) => self.read(shard, self.place_of(shard, page)),
            Operation::Write(page, bytes) => self.write(shard, self.place_of(shard, page), bytes),
        };
        came.unwrap_or(Came::Failed)
    }

    // What came of a read for which nobody has to wait. Any other operation is handed back.
    fn operate_now(&self, shard: usize, operation: Operation) -> Result<Came, Operation> {
        let (Operation::Read(page), Some(device)) = (&operation, &self.device) else { return Err(operation) };
        let page = self.place_of(shard, *page);
        let read = |out: &mut [u8]| {
            let is_read = device.read_now(page, out)?;
            if is_read {
                Held::copy_of(out).ok().map(Came::Page)
            } else {
                Some(Came::Failed)
            }
        };
        with_page(self.page, read).flatten().ok_or(operation)
    }

    // The shard's page among those of all shards.
    fn place_of(&self, shard: usize, page: u32) -> u32 {
        shard as u32 * self.pages + page
    }

    fn read(&self, shard: usize, page: u32) -> Option<Came> {
        let device = self.device.as_ref()?;
        let held = |out: &mut [u8]| self.tried(shard, || Held::copy_of(out).ok());
        let read = |out: &mut [u8]| if device.read(page, out) { held(out) } else { None };
        self.tried(shard, || with_page(self.page, read))?.map(Came::Page)
    }

    fn write(&self, shard: usize, page: u32, mut bytes: Held) -> Option<Came> {
        let device = self.device.as_ref()?;
        let mut write = |out: &mut [u8]| bytes.copy(0, out) == out.len() && device.write(page, out);
        self.tried(shard, || with_page(self.page, &mut write))?.then_some(Came::Written)
    }

    /// A filler, until the end. It does one job of a shard, and then goes to the next: a job that leaves more to do rings again.
    pub fn fill(&self) {
        while let Some(shard) = self.fillers.next() {
            let mut state = self.lock(shard);
            if state.closed {
                return;
            }
            if state.calls.is_held_up {
                drop(state);
                thread::sleep(PAUSE);
                self.leave(shard, self.lock(shard)); // (hands out what it can)
                continue;
            }
            if let Some(left) = state.left.pop_front() {
                self.resume(shard, state, left);
                continue;
            }
            match state.engine.filler_take() {
                Ok(take) => self.complete(shard, state, take),
                Err(_) => self.try_later(shard, state, &self.fillers),
            }
        }
    }

    /// A writer, which makes regions clean too, until the end. It does one job of a shard at a time, as a filler does.
    pub fn write_out(&self) {
        while let Some(shard) = self.writers.next() {
            let mut state = self.lock(shard);
            if state.closed {
                return;
            }
            if state.rest == Rest::Still {
                continue;
            }
            match take_write(&mut state.engine) {
                Ok(take) => {
                    state.writing += 1;
                    self.complete(shard, state, take);
                    self.lock(shard).writing -= 1;
                    self.shards[shard].quiet.notify_all();
                }
                Err(_) => self.try_later(shard, state, &self.writers),
            }
        }
    }

    // Comes back to a shard that was out of memory.
    fn try_later(&self, shard: usize, state: Locked<'_>, bell: &Bell) {
        drop(state);
        thread::sleep(PAUSE);
        bell.ring(shard);
    }

    /// Waits until nothing of the shard is to be written.
    pub fn flush(&self, shard: usize) -> Result<(), Error> {
        let mut state = self.enter(shard)?;
        while !state.closed {
            if state.writing == 0 && !state.engine.is_to_be_written() {
                return Ok(());
            }
            self.writers.ring(shard);
            // (looked at again after a while too, since the shard may be out of memory)
            let wait = self.shards[shard].quiet.wait_timeout(state, PAUSE);
            state = wait.unwrap_or_else(PoisonError::into_inner).0;
        }
        Err(Error::Closed)
    }

    /// Answers all calls that wait that the cache is closed, and ends the workers as soon as their operation is done.
    pub fn close(&self) {
        for shard in 0..self.len() {
            let mut state = self.lock(shard);
            state.closed = true;
            state.heard.end();
            let State { calls, loads, wakes, .. } = &mut *state;
            calls.close(wakes);
            loads.close(wakes);
            let woken = wakes.take();
            drop(state);
            self.shards[shard].quiet.notify_all();
            self.wake(shard, woken);
        }
        self.writers.end();
        self.fillers.end();
        self.timer.end();
    }
}

// An empty engine of one shard, with its clock told.
fn new_engine(numbers: &Numbers, share: &Share, now: u64) -> Result<Engine, Refused> {
    let pools = &[share.pool; MOST_POOLS as usize][..usize::from(share.pools)];
    let mut engine = match &numbers.flash {
        Some(flash) => Engine::with_slots(pools, flash, numbers.slots())?,
        None => Engine::in_memory(pools, numbers.slots())?,
    };
    engine.tick(now)?;
    Ok(engine)
}

// What is to be written next. Regions are made clean first.
fn take_write(engine: &mut Generations) -> Result<Take, Refused> {
    while engine.reclaim()? {}
    engine.writer_take()
}
