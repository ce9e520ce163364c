use crate::calls::Answer;
use crate::hybrid::held_of;
use crate::lease::{Begun, Waited};
use crate::loads::{after, Begins, Outcome};
use crate::shards::Locked;
use crate::{Error, Found, Held, HybridCache, Lookup, Value};
use std::fmt;
use std::future::Future;
use std::pin::Pin;
use std::task::{Context, Poll, Waker};

/// A get that waits as a future: [`HybridCache::get_async`]. Where it is dropped, its call is given up.
#[derive(Debug)]
#[must_use = "a future does nothing until it is polled"]
pub struct GetAsync<'a> {
    cache: &'a HybridCache,
    key: &'a [u8],
    // the call that waits, and its shard
    call: Option<(usize, u64)>,
}

impl<'a> GetAsync<'a> {
    pub(crate) fn new(cache: &'a HybridCache, key: &'a [u8]) -> GetAsync<'a> {
        GetAsync { cache, key, call: None }
    }

    // Begins the call: its answer, where it is there at once.
    fn begin(&mut self, context: &Context<'_>) -> Poll<Result<Option<Value>, Error>> {
        let shards = self.cache.shards();
        let shard = shards.of(self.key);
        let waker = context.waker().clone();
        let mut state = shards.enter(shard)?;
        match state.get(self.key)? {
            Found::Hit(held) => {
                drop(state);
                Poll::Ready(Ok(shards.value_of(held)?))
            }
            Found::Miss => Poll::Ready(Ok(None)),
            Found::Waits(call) => {
                let begun = shards.begin(shard, state, call, waker);
                if begun.is_pending() {
                    self.call = Some((shard, call));
                }
                begun.map(|answer| self.value_of(answer))
            }
        }
    }

    // Looks whether the call is answered.
    fn look(&mut self, context: &Context<'_>, shard: usize, call: u64) -> Poll<Result<Option<Value>, Error>> {
        let waker = context.waker().clone();
        let mut state = self.cache.shards().lock(shard);
        match state.calls.take(call) {
            Some(answer) => {
                drop(state);
                self.call = None;
                Poll::Ready(self.value_of(answer))
            }
            None => {
                let before = state.calls.task(call, waker);
                drop(state);
                drop(before);
                Poll::Pending
            }
        }
    }

    // What a call that waited found.
    fn value_of(&self, answer: Answer) -> Result<Option<Value>, Error> {
        self.cache.shards().value_of_any(held_of(answer?))
    }
}

impl Future for GetAsync<'_> {
    type Output = Result<Option<Value>, Error>;

    fn poll(mut self: Pin<&mut Self>, context: &mut Context<'_>) -> Poll<Self::Output> {
        match self.call {
            None => self.begin(context),
            Some((shard, call)) => self.look(context, shard, call),
        }
    }
}

impl Drop for GetAsync<'_> {
    fn drop(&mut self) {
        if let Some((shard, call)) = self.call {
            self.cache.shards().give_up(shard, self.key, call);
        }
    }
}

// What a future waits for.
#[derive(Clone, Copy)]
enum Waits {
    Nothing,
    // the answer of this call, begun with the key's load in hand or without it
    Flash { call: u64, was_ours: bool },
    // another's load of the key, as the task of this number
    Load { load: u64, task: u64 },
}

/// A get that hands out a lease where it misses, as a future: [`HybridCache::get_or_lease_async`]. Where it is dropped, its call
/// is given up, and nothing of it is left.
#[must_use = "a future does nothing until it is polled"]
pub struct LeaseAsync<'a> {
    cache: &'a HybridCache,
    begun: Begun<'a>,
    waits: Waits,
    may_wait: bool,
    // where it is known that there is no such row, that is told; else it is a miss
    tells_absent: bool,
}

impl<'a> LeaseAsync<'a> {
    pub(crate) fn new(cache: &'a HybridCache, key: &'a [u8], tells_absent: bool) -> LeaseAsync<'a> {
        let begun = Begun::new(cache.shards(), key);
        LeaseAsync { cache, begun, waits: Waits::Nothing, may_wait: true, tells_absent }
    }

    // Gets the key anew.
    fn get(&mut self, context: &Context<'_>) -> Poll<Result<Lookup, Error>> {
        let Begun { shards, shard, key, .. } = self.begun;
        let waker = context.waker().clone();
        let mut state = shards.enter(shard)?;
        match state.get(key)? {
            Found::Hit(held) => {
                drop(state);
                self.found(context, held, true)
            }
            Found::Miss => {
                let begins = self.begun.begin(&mut state);
                self.missed(waker, state, begins)
            }
            Found::Waits(call) => {
                let was_ours = self.begun.begin(&mut state).is_ours();
                match shards.begin(shard, state, call, waker) {
                    Poll::Ready(answer) => self.answered(context, answer, was_ours),
                    Poll::Pending => {
                        self.waits = Waits::Flash { call, was_ours };
                        Poll::Pending
                    }
                }
            }
        }
    }

    // Looks whether the call is answered.
    fn look(&mut self, context: &Context<'_>, call: u64, was_ours: bool) -> Poll<Result<Lookup, Error>> {
        let Begun { shards, shard, .. } = self.begun;
        let waker = context.waker().clone();
        let mut state = shards.lock(shard);
        let Some(answer) = state.calls.take(call) else {
            let before = state.calls.task(call, waker);
            drop(state);
            drop(before);
            return Poll::Pending;
        };
        drop(state);
        self.answered(context, answer, was_ours)
    }

    // The call that waited is answered.
    fn answered(&mut self, context: &Context<'_>, answer: Answer, was_ours: bool) -> Poll<Result<Lookup, Error>> {
        self.waits = Waits::Nothing;
        match held_of(answer?) {
            Some(held) => self.found(context, held, was_ours),
            None => self.begin(context, was_ours),
        }
    }

    // Something was found: a value, or that there is no such row.
    fn found(&mut self, context: &Context<'_>, held: Held, was_ours: bool) -> Poll<Result<Lookup, Error>> {
        match self.cache.found(held)? {
            Lookup::Absent if !self.tells_absent => self.begin(context, was_ours),
            found => Poll::Ready(Ok(found)),
        }
    }

    // Nothing was: the load is begun, if that is still to be done.
    fn begin(&mut self, context: &Context<'_>, was_ours: bool) -> Poll<Result<Lookup, Error>> {
        let Begun { shards, shard, .. } = self.begun;
        let waker = context.waker().clone();
        let mut state = shards.enter(shard)?;
        let begins = self.begun.begin(&mut state);
        if begins.is_ours() && !was_ours {
            drop(state);
            return self.get(context); // another's load was over behind the miss, and may have stored
        }
        self.missed(waker, state, begins)
    }

    // There is none: it is loaded, or another's load waited for.
    fn missed(&mut self, waker: Waker, mut state: Locked<'_>, begins: Begins) -> Poll<Result<Lookup, Error>> {
        let mut waker = Some(waker);
        if let Begins::Anothers(load) = begins {
            if self.may_wait && self.cache.keeps_time() {
                if let Some((task, until)) = state.join_load(load, &mut waker) {
                    drop(state);
                    self.waits = Waits::Load { load, task };
                    self.begun.shards.set_timer(self.begun.shard, until);
                    return Poll::Pending;
                }
            }
        }
        let lease = self.cache.lease(state, &mut self.begun)?;
        Poll::Ready(Ok(Lookup::Miss(lease)))
    }

    // Looks whether another's load is over, or has taken too long.
    fn wait(&mut self, context: &Context<'_>, load: u64, task: u64) -> Poll<Result<Lookup, Error>> {
        let Begun { shards, shard, .. } = self.begun;
        let waker = context.waker().clone();
        let mut state = shards.enter(shard)?;
        if let Some(left) = state.loads.left(load) {
            let known = state.loads.renew(load, task, waker);
            drop(state);
            drop(known);
            // (a task may be polled without being woken, and just before its time is up)
            shards.set_timer(shard, after(left));
            return Poll::Pending;
        }
        self.waits = Waits::Nothing;
        match shards.leave_load(shard, state, load, Some(task)) {
            Waited::Came(Lookup::Absent) if !self.tells_absent => {
                self.may_wait = false;
                self.get(context)
            }
            Waited::Came(came) => Poll::Ready(Ok(came)),
            Waited::Look { was_loaded } => {
                self.may_wait = !was_loaded;
                self.get(context)
            }
        }
    }
}

impl Future for LeaseAsync<'_> {
    type Output = Result<Lookup, Error>;

    fn poll(mut self: Pin<&mut Self>, context: &mut Context<'_>) -> Poll<Self::Output> {
        let polled = match self.waits {
            Waits::Nothing => self.get(context),
            Waits::Flash { call, was_ours } => self.look(context, call, was_ours),
            Waits::Load { load, task } => self.wait(context, load, task),
        };
        if let Poll::Ready(Ok(Lookup::Hit(_) | Lookup::Absent)) = polled {
            self.begun.end(Outcome::Look);
        }
        polled
    }
}

impl Drop for LeaseAsync<'_> {
    fn drop(&mut self) {
        let Begun { shards, shard, key, .. } = self.begun;
        match self.waits {
            Waits::Nothing => {}
            Waits::Flash { call, .. } => shards.give_up(shard, key, call),
            Waits::Load { load, task } => drop(shards.leave_load(shard, shards.lock(shard), load, Some(task))),
        }
    }
}

impl fmt::Debug for LeaseAsync<'_> {
    fn fmt(&self, f: &mut fmt::Formatter<'_>) -> fmt::Result {
        write!(f, "LeaseAsync(\"{}\")", self.begun.key.escape_ascii())
    }
}
