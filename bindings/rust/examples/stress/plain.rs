//! Keys that are set, added, deleted and stored by leases: each is changed by one thread, and read by all.
use crate::client::Client;
use crate::model::Key;
use crate::tasks::{block_on, waker};
use kilambosetry::{Error, Kept, Lease, Lookup, Value};
use std::future::Future;
use std::pin::pin;
use std::task::{Context, Poll};
use std::thread;
use std::time::Duration;

const FOR_ANOTHER: Duration = Duration::from_millis(50);

impl<'a> Client<'a> {
    /// Reads a key in one of many ways.
    pub fn read_plain(&mut self, key: &'a Key) {
        let oldest = key.oldest();
        let found = match self.draws.below(9) {
            0 | 1 => self.cache.get(&key.name).unwrap(),
            2 => match self.cache.get_timeout(&key.name, self.limit()) {
                Err(Error::TimedOut) => None,
                found => found.unwrap(),
            },
            3 => self.copied(key),
            4 => self.cache.read(&key.name).unwrap().map(|mut held| Value::from(held.to_vec())),
            5 => block_on(self.cache.get_async(&key.name), self.limit()).and_then(Result::unwrap),
            6 => self.polled_here_and_there(key),
            7 => self.looked(key),
            _ => match self.cache.get_or_lease(&key.name).unwrap() {
                Lookup::Hit(value) => Some(value),
                _ => None, // (a lease is given up)
            },
        };
        if let Some(value) = found {
            self.counts.hits += 1;
            key.judge(oldest, &value);
        }
    }

    // Copied to a room that may be too small.
    fn copied(&mut self, key: &Key) -> Option<Value> {
        let mut room = vec![0; self.draws.below(9000) as usize];
        let length = self.cache.get_into(&key.name, &mut room).unwrap()?;
        (length <= room.len()).then(|| Value::from(room[..length].to_vec()))
    }

    // A future that is polled by this thread, and then by another, or dropped.
    fn polled_here_and_there(&mut self, key: &Key) -> Option<Value> {
        let mut future = Box::pin(self.cache.get_async(&key.name));
        if let Poll::Ready(found) = future.as_mut().poll(&mut Context::from_waker(&waker())) {
            return found.unwrap();
        }
        if self.draws.one_of(2) {
            return None;
        }
        let found = thread::scope(|scope| scope.spawn(|| block_on(future, FOR_ANOTHER)).join().unwrap());
        found.and_then(Result::unwrap)
    }

    fn looked(&mut self, key: &Key) -> Option<Value> {
        let limit = self.limit();
        let mut future = pin!(self.cache.get_or_lease_async(&key.name));
        match block_on(&mut future, limit)?.unwrap() {
            Lookup::Hit(value) => Some(value),
            _ => None,
        }
    }

    /// Forgets all. Of keys that are stored once nothing of before is found; rows may be loaded again as they were.
    pub fn clear(&mut self, keys: &[Key]) {
        let answered: Vec<u64> = keys.iter().map(Key::newest_answered).collect();
        self.cache.clear();
        keys.iter().zip(answered).for_each(|(key, answered)| key.cleared(answered));
    }

    /// Changes a key of this thread's own in one of many ways.
    pub fn change_plain(&mut self, key: &'a Key) {
        match self.draws.below(8) {
            0..=2 => {
                let (version, value) = self.next_value(key);
                self.cache.set(&key.name, &value, self.ttl()).unwrap();
                key.answered(version);
            }
            3 => {
                let version = key.begin();
                match self.draws.one_of(2) {
                    true => self.cache.invalidate(&key.name),
                    false => drop(self.cache.delete(&key.name).unwrap()),
                }
                key.answered(version);
            }
            4 => {
                let (version, value) = self.next_value(key);
                if self.cache.add(&key.name, &value, self.ttl()).unwrap() {
                    key.answered(version);
                }
            }
            5 => self.take_lease(key, |it| Some(it.cache.get_or_lease(&key.name).unwrap())),
            6 => {
                let limit = 30 * self.limit();
                self.take_lease(key, |it| block_on(it.cache.get_or_lease_async(&key.name), limit).map(Result::unwrap));
            }
            _ => self.end_lease(),
        }
        if self.leases.len() > 5 {
            self.end_lease();
        }
    }

    fn next_value(&mut self, key: &Key) -> (u64, Vec<u8>) {
        let version = key.begin();
        (version, key.value(version, self.length()))
    }

    fn take_lease(&mut self, key: &'a Key, look: impl FnOnce(&mut Self) -> Option<Lookup>) {
        let oldest = key.oldest();
        match look(self) {
            Some(Lookup::Hit(value)) => key.judge(oldest, &value),
            Some(Lookup::Miss(lease)) => self.leases.push((key, lease)),
            _ => {}
        }
    }

    // Ends a load of one of the leases that are held, some time after it was handed out.
    fn end_lease(&mut self) {
        if self.leases.is_empty() {
            return;
        }
        let at = self.draws.below(self.leases.len() as u64) as usize;
        let (key, lease): (&Key, Lease) = self.leases.swap_remove(at);
        match self.draws.below(8) {
            0 => drop(lease),
            1 => lease.fail("the load fails"),
            _ => {
                let (version, value) = self.next_value(key);
                if lease.store(&value, self.ttl()).unwrap() == Kept::Stored {
                    key.answered(version);
                }
            }
        }
    }
}
