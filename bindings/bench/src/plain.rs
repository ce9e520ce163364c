//! The crate `lru` behind a lock, for the same requests.
use crate::request::{Op, Request};
use crate::sizes::LONGEST_VALUE;
use crate::target::{longest_value, Answer, Target};
use lru::LruCache;
use std::sync::{Mutex, MutexGuard, PoisonError};

// An item takes so many bytes beside its key and value, as in this cache's pools.
const CHARGE: usize = 32;

struct Items {
    items: LruCache<Vec<u8>, Vec<u8>>,
    bytes: u64,
}

/// Items under one lock, of so many bytes together. What goes is what was least recently used; nothing expires.
pub struct Plain {
    items: Mutex<Items>,
    most: u64,
    value: Vec<u8>,
}

fn bytes_of(key: &[u8], value: &[u8]) -> u64 {
    (CHARGE + key.len() + value.len()) as u64
}

impl Plain {
    #[must_use]
    pub fn new(most: u64) -> Plain {
        let items = Items { items: LruCache::unbounded(), bytes: 0 };
        Plain { items: Mutex::new(items), most, value: longest_value() }
    }

    fn lock(&self) -> MutexGuard<'_, Items> {
        self.items.lock().unwrap_or_else(PoisonError::into_inner)
    }

    fn set(&self, key: &[u8], bytes: usize) {
        let (key, value) = (key.to_vec(), self.value[..bytes].to_vec());
        let mut items = self.lock();
        items.remove(&key);
        items.bytes += bytes_of(&key, &value);
        items.items.put(key, value);
        while items.bytes > self.most {
            let Some((key, value)) = items.items.pop_lru() else { break };
            items.bytes -= bytes_of(&key, &value);
        }
    }
}

impl Items {
    fn remove(&mut self, key: &[u8]) {
        if let Some(value) = self.items.pop(key) {
            self.bytes -= bytes_of(key, &value);
        }
    }
}

impl Target for Plain {
    fn ask(&self, request: &Request) -> Answer {
        let Request { op, ref key, value, .. } = *request;
        if matches!(op, Op::Get | Op::Set) && value > LONGEST_VALUE {
            return Answer::TooLong;
        }
        match op {
            Op::Get | Op::Look => {
                // (a copy, as this cache's answer is)
                let found = self.lock().items.get(key).cloned();
                match found {
                    Some(value) => Answer::Hit { from_flash: false, bytes: value.len() },
                    None => {
                        if op == Op::Get {
                            self.set(key, value);
                        }
                        Answer::Miss
                    }
                }
            }
            Op::Set => {
                self.set(key, value);
                Answer::Stored
            }
            Op::Delete => {
                self.lock().remove(key);
                Answer::Deleted
            }
        }
    }
}
