//! A lock for each key that is being changed, so that what reads and then writes is done as one.
use std::collections::hash_map::{HashMap, RandomState};
use std::collections::{TryReserveError, VecDeque};
use std::hash::BuildHasher;
use std::sync::atomic::{AtomicUsize, Ordering::SeqCst};
use std::sync::{Mutex, MutexGuard, PoisonError};
use tokio::sync::oneshot;

const STRIPES: usize = 256;

// The keys that are locked or hidden.
type Keys = HashMap<Box<[u8]>, Key>;

#[derive(Debug, Default)]
struct Key {
    is_locked: bool,
    // those who wait for it, in their order
    waiting: VecDeque<oneshot::Sender<()>>,
    is_hidden: bool,
}

/// The keys that are being changed. No two keys wait for each other; the stripes are only held to look a key up.
#[derive(Debug)]
pub struct KeyLocks {
    stripes: Box<[Mutex<Keys>]>,
    hasher: RandomState,
    // how many keys are hidden
    hidden: AtomicUsize,
}

/// A key that is locked, until this is dropped. Those who wait have it in the order in which they came.
#[derive(Debug)]
#[must_use = "the key is free again as it is dropped"]
pub struct KeyLock<'a> {
    locks: &'a KeyLocks,
    key: &'a [u8],
    // what tells that it's our turn; none, once it is
    turn: Option<oneshot::Receiver<()>>,
}

impl Default for KeyLocks {
    fn default() -> KeyLocks {
        let stripes = (0..STRIPES).map(|_| Mutex::default()).collect();
        KeyLocks { stripes, hasher: RandomState::new(), hidden: AtomicUsize::new(0) }
    }
}

impl KeyLocks {
    /// Waits until nobody else has the key, and locks it. Refused, where there is no memory for its place among those that are
    /// locked, or for one among those who wait for it.
    pub async fn lock<'a>(&'a self, key: &'a [u8]) -> Result<KeyLock<'a>, TryReserveError> {
        let mut lock = KeyLock { locks: self, key, turn: self.ask(key)? };
        if let Some(turn) = &mut lock.turn {
            // (who has the key drops no sender without telling it)
            let _ = turn.await;
            lock.turn = None;
        }
        Ok(lock)
    }

    /// Whether what is under the key isn't to be found.
    #[must_use]
    pub fn is_hidden(&self, key: &[u8]) -> bool {
        self.hidden.load(SeqCst) > 0 && self.stripe(key).get(key).is_some_and(|key| key.is_hidden)
    }

    /// Tells each key that is hidden.
    pub fn each_hidden(&self, mut tell: impl FnMut(&[u8])) {
        for stripe in &self.stripes {
            let stripe = stripe.lock().unwrap_or_else(PoisonError::into_inner);
            stripe.iter().filter(|(_, key)| key.is_hidden).for_each(|(key, _)| tell(key));
        }
    }

    fn stripe(&self, key: &[u8]) -> MutexGuard<'_, Keys> {
        let stripe = self.hasher.hash_one(key) as usize % STRIPES;
        self.stripes[stripe].lock().unwrap_or_else(PoisonError::into_inner)
    }

    // Takes the key where it is free, or else a place in the row.
    fn ask(&self, key: &[u8]) -> Result<Option<oneshot::Receiver<()>>, TryReserveError> {
        let mut stripe = self.stripe(key);
        let Some(state) = stripe.get_mut(key) else {
            stripe.try_reserve(1)?;
            stripe.insert(key.into(), Key { is_locked: true, ..Key::default() });
            return Ok(None);
        };
        if !state.is_locked {
            state.is_locked = true;
            return Ok(None);
        }
        state.waiting.try_reserve(1)?;
        let (tell, told) = oneshot::channel();
        state.waiting.push_back(tell);
        Ok(Some(told))
    }

    // Hands the key on to the first in the row who still waits.
    fn pass_on(&self, key: &[u8]) {
        let mut stripe = self.stripe(key);
        let Some(state) = stripe.get_mut(key) else { return };
        while let Some(next) = state.waiting.pop_front() {
            if next.send(()).is_ok() {
                return;
            }
        }
        state.is_locked = false;
        if !state.is_hidden {
            stripe.remove(key);
        }
    }

    // (no memory is taken for it: the key has its place as long as it is locked)
    fn set_hidden(&self, key: &[u8], is_hidden: bool) {
        if !is_hidden && self.hidden.load(SeqCst) == 0 {
            return;
        }
        let mut stripe = self.stripe(key);
        let Some(state) = stripe.get_mut(key).filter(|state| state.is_hidden != is_hidden) else { return };
        state.is_hidden = is_hidden;
        if is_hidden {
            self.hidden.fetch_add(1, SeqCst);
        } else {
            self.hidden.fetch_sub(1, SeqCst);
        }
    }

    // How many keys are locked.
    #[cfg(test)]
    fn count(&self) -> usize {
        self.stripes.iter().map(|stripe| stripe.lock().unwrap_or_else(PoisonError::into_inner).len()).sum()
    }
}

impl KeyLock<'_> {
    /// What is under the key isn't found any more, until it is shown.
    pub fn hide(&self) {
        self.locks.set_hidden(self.key, true);
    }

    /// What is under the key is found, if it was hidden.
    pub fn show(&self) {
        self.locks.set_hidden(self.key, false);
    }
}

impl Drop for KeyLock<'_> {
    fn drop(&mut self) {
        // (who is given up while it waits may have been handed the key already)
        let is_ours = self.turn.as_mut().is_none_or(|turn| {
            turn.close();
            turn.try_recv().is_ok()
        });
        if is_ours {
            self.locks.pass_on(self.key);
        }
    }
}

#[cfg(test)]
mod tests {
    use super::*;
    use std::future::Future;
    use std::pin::pin;
    use std::task::{Context, Poll, Waker};

    fn polled<F: Future>(future: std::pin::Pin<&mut F>) -> Poll<F::Output> {
        future.poll(&mut Context::from_waker(Waker::noop()))
    }

    #[test]
    fn a_key_is_handed_on_in_order_and_past_those_who_gave_up() {
        let locks = KeyLocks::default();
        let Poll::Ready(Ok(first)) = polled(pin!(locks.lock(b"key"))) else { panic!("it is free") };
        let mut second = Box::pin(locks.lock(b"key"));
        let mut third = Box::pin(locks.lock(b"key"));
        let mut fourth = pin!(locks.lock(b"key"));
        assert!(polled(second.as_mut()).is_pending() && polled(third.as_mut()).is_pending());
        assert!(polled(fourth.as_mut()).is_pending());
        assert!(polled(pin!(locks.lock(b"other"))).is_ready());
        drop(third); // gives up while it waits
        drop(first);
        drop(second); // gives up when it has been handed the key
        let Poll::Ready(Ok(last)) = polled(fourth.as_mut()) else { panic!("it is its turn") };
        drop(last);
        assert_eq!(locks.count(), 0);
    }

    #[test]
    fn a_key_stays_hidden_until_it_is_shown() {
        let locks = KeyLocks::default();
        let locked = || match polled(pin!(locks.lock(b"key"))) {
            Poll::Ready(lock) => lock.unwrap(),
            Poll::Pending => panic!("it is free"),
        };
        locked().hide();
        assert!(locks.is_hidden(b"key") && !locks.is_hidden(b"other"));
        let mut hidden = Vec::new();
        locks.each_hidden(|key| hidden.push(key.to_vec()));
        assert_eq!(hidden, [b"key"]);
        let lock = locked();
        lock.hide();
        assert!(locks.is_hidden(b"key"));
        lock.show();
        assert!(!locks.is_hidden(b"key"));
        drop(lock);
        assert_eq!(locks.count(), 0);
    }
}
