use crate::calls::Answer;
use crate::hybrid::held_of;
use crate::loads::after;
use crate::shards::{Shards, State};
use crate::{engine, Error, Held, HybridCache, Refused, Value};
use std::time::{Duration, Instant};

impl HybridCache {
    /// The values under many keys, in their order, each as [`get`](HybridCache::get) answers it. What is refused of one key (one
    /// that is too long, or a value for which there is no memory) takes nothing from the others. The whole is refused with
    /// [`Refused::NO_MEMORY`] where there is no memory for the list of answers; then no key was asked for.
    ///
    /// ```
    /// use kilambosetry::{HybridCache, Options};
    ///
    /// let cache = HybridCache::in_memory(&Options::default())?;
    /// cache.set(b"user:7", b"Ada", 3600)?;
    /// let found = cache.get_many(&["user:7", "user:8"])?;
    /// assert_eq!(found[0].as_ref().unwrap().as_deref(), Some(&b"Ada"[..]));
    /// assert_eq!(found[1], Ok(None));
    /// # Ok::<(), Box<dyn std::error::Error>>(())
    /// ```
    ///
    /// Each shard is locked once, and looks all its keys up. All keys are asked for before the first is waited for: where flash
    /// alone may have several, the fillers read beside this thread. The answers needn't be of one moment.
    pub fn get_many<K: AsRef<[u8]>>(&self, keys: &[K]) -> Result<Vec<Result<Option<Value>, Error>>, Refused> {
        self.find_many(keys, None, |shards, found| shards.value_of_any(found))
    }

    /// The same for so long at most, all keys together. Those that aren't answered by then are [`Error::TimedOut`], and given up;
    /// the others have their answers. The fillers make the reads for which this thread would have to wait.
    pub fn get_many_timeout<K: AsRef<[u8]>>(
        &self,
        keys: &[K],
        limit: Duration,
    ) -> Result<Vec<Result<Option<Value>, Error>>, Refused> {
        self.find_many(keys, Some(after(limit)), |shards, found| shards.value_of_any(found))
    }

    /// As [`get_many`](HybridCache::get_many), with no copy of the values.
    pub fn read_many<K: AsRef<[u8]>>(&self, keys: &[K]) -> Result<Vec<Result<Option<Held>, Error>>, Refused> {
        self.find_many(keys, None, |shards, found| Ok(shards.row_of(found)))
    }

    /// As [`get_many_timeout`](HybridCache::get_many_timeout), with no copy of the values.
    pub fn read_many_timeout<K: AsRef<[u8]>>(
        &self,
        keys: &[K],
        limit: Duration,
    ) -> Result<Vec<Result<Option<Held>, Error>>, Refused> {
        self.find_many(keys, Some(after(limit)), |shards, found| Ok(shards.row_of(found)))
    }

    // Finds many keys, and makes of what was found what is answered.
    fn find_many<K: AsRef<[u8]>, T>(
        &self,
        keys: &[K],
        until: Option<Instant>,
        make: impl Fn(&Shards, Option<Held>) -> Result<T, Error>,
    ) -> Result<Vec<Result<T, Error>>, Refused> {
        let mut answers = with_room(keys.len())?;
        let mut many = Many::new(self.shards(), keys)?;
        answers.resize_with(keys.len(), || Err(Error::Closed)); // (each is told)
        let tell = |place: usize, found: Found| answers[place] = found.and_then(|held| make(self.shards(), held));
        many.find(until, tell);
        Ok(answers)
    }
}

// What was found under a key, or why that isn't known.
type Found = Result<Option<Held>, Error>;

fn with_room<T>(length: usize) -> Result<Vec<T>, Refused> {
    let mut list = Vec::new();
    list.try_reserve_exact(length).map_err(|_| Refused::NO_MEMORY)?;
    Ok(list)
}

// One of many keys.
struct Wanted<'a> {
    shard: usize,
    place: usize,
    key: &'a [u8],
    // the call that waits for it
    call: Option<u64>,
}

// Many keys, shard by shard. Calls that wait as this is dropped are given up, as where a clock panics.
struct Many<'a> {
    shards: &'a Shards,
    wanted: Vec<Wanted<'a>>,
    // what a shard has found, by its place: it is copied once the shard is free again
    held: Vec<(usize, Held)>,
}

impl<'a> Many<'a> {
    fn new<K: AsRef<[u8]>>(shards: &'a Shards, keys: &'a [K]) -> Result<Many<'a>, Refused> {
        let (mut wanted, held) = (with_room(keys.len())?, with_room(keys.len())?);
        wanted.extend(keys.iter().enumerate().map(|(place, key)| {
            let key = key.as_ref();
            Wanted { shard: shards.of(key), place, key, call: None }
        }));
        wanted.sort_unstable_by_key(|wanted| (wanted.shard, wanted.place));
        Ok(Many { shards, wanted, held })
    }

    // Finds all of them, and tells each by its place.
    fn find(&mut self, until: Option<Instant>, mut tell: impl FnMut(usize, Found)) {
        self.ask(&mut tell);
        match until {
            None => self.fill(&mut tell),
            Some(until) => self.wait(until, &mut tell),
        }
    }

    // Asks for each key, and tells what is known at once. A shard is locked once for all of its own.
    fn ask(&mut self, tell: &mut impl FnMut(usize, Found)) {
        let Many { shards, wanted, held } = self;
        for own in wanted.chunk_by_mut(|one, next| one.shard == next.shard) {
            match shards.enter(own[0].shard) {
                Ok(mut state) => own.iter_mut().for_each(|wanted| wanted.ask(&mut state, held, tell)),
                Err(error) => own.iter().for_each(|wanted| tell(wanted.place, Err(error))),
            }
            held.drain(..).for_each(|(place, held)| tell(place, Ok(Some(held))));
        }
    }

    // Does this for each key that waits, shard by shard, and tells what is answered.
    fn each_waiting(
        &mut self,
        tell: &mut impl FnMut(usize, Found),
        does: impl Fn(&Shards, usize, (&[u8], u64)) -> Option<Answer>,
    ) {
        for wanted in &mut self.wanted {
            let answer = wanted.call.and_then(|call| does(self.shards, wanted.shard, (wanted.key, call)));
            if let Some(answer) = answer {
                wanted.call = None;
                tell(wanted.place, answer.map(held_of));
            }
        }
    }

    // Calls the fillers to the shards, where there is more to read than this thread reads at once.
    fn call_fillers(&self) {
        let waiting = || self.wanted.iter().filter(|wanted| wanted.call.is_some());
        if waiting().nth(1).is_some() {
            waiting().for_each(|wanted| self.shards.call_filler(wanted.shard));
        }
    }

    // Waits for all that waits, and makes the reads that are to be made meanwhile. It sleeps only where no shard has one.
    fn fill(&mut self, tell: &mut impl FnMut(usize, Found)) {
        self.call_fillers();
        self.each_waiting(tell, |shards, shard, (_, call)| {
            shards.fill_until_idle(shard, shards.lock(shard), call).ok()
        });
        self.each_waiting(tell, |shards, shard, (_, call)| Some(shards.fill_on(shard, shards.lock(shard), call)));
    }

    // Waits for all that waits, until this moment at most. What isn't answered by then is given up.
    fn wait(&mut self, until: Instant, tell: &mut impl FnMut(usize, Found)) {
        self.each_waiting(tell, |shards, shard, (_, call)| {
            drop(shards.begin_reads(shard, shards.lock(shard), call));
            None
        });
        self.each_waiting(tell, |shards, shard, get| {
            Some(shards.wait_or_give_up(shard, shards.lock(shard), get, until))
        });
    }
}

impl Wanted<'_> {
    // Asks the key's shard for it.
    fn ask(&mut self, state: &mut State, held: &mut Vec<(usize, Held)>, tell: &mut impl FnMut(usize, Found)) {
        match state.get(self.key) {
            Ok(engine::Found::Hit(found)) => held.push((self.place, found)),
            Ok(engine::Found::Miss) => tell(self.place, Ok(None)),
            Ok(engine::Found::Waits(call)) => {
                state.begin(call);
                self.call = Some(call);
            }
            Err(refused) => tell(self.place, Err(Error::Refused(refused))),
        }
    }
}

impl Drop for Many<'_> {
    fn drop(&mut self) {
        for Wanted { shard, key, call, .. } in &self.wanted {
            if let Some(call) = call {
                self.shards.give_up(*shard, key, *call);
            }
        }
    }
}
