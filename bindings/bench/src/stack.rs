//! Keys in the order of their last use, with their bytes: how many bytes were used since a key was used last.
use crate::sums::Sums;
use std::collections::HashMap;

#[derive(Clone, Copy, Debug)]
struct Used {
    // the place of its last use: later ones have larger numbers
    at: usize,
    bytes: u64,
}

/// The keys, each by a hash of 64 bits.
#[derive(Clone, Debug)]
pub struct Stack {
    used: HashMap<u64, Used>,
    sums: Sums,
    next: usize,
    bytes: u64,
}

const LEAST_PLACES: usize = 1024;

impl Default for Stack {
    fn default() -> Stack {
        Stack { used: HashMap::new(), sums: Sums::new(LEAST_PLACES), next: 0, bytes: 0 }
    }
}

impl Stack {
    /// How many keys there are.
    #[must_use]
    pub fn len(&self) -> usize {
        self.used.len()
    }

    #[must_use]
    pub fn is_empty(&self) -> bool {
        self.used.is_empty()
    }

    /// Bytes of all of them.
    #[must_use]
    pub fn bytes(&self) -> u64 {
        self.bytes
    }

    /// The bytes of the keys that were used since this one was, and its own: so many a least recently used cache must have that
    /// still has it. None, where it isn't there.
    #[must_use]
    pub fn distance(&self, key: u64) -> Option<u64> {
        self.used.get(&key).map(|used| self.bytes - self.sums.below(used.at))
    }

    /// The key is used now, and has so many bytes from now on.
    pub fn put(&mut self, key: u64, bytes: u64) {
        self.remove(key);
        if self.next == self.sums.places() {
            self.renumber();
        }
        self.sums.add(self.next, bytes);
        self.used.insert(key, Used { at: self.next, bytes });
        self.bytes += bytes;
        self.next += 1;
    }

    pub fn remove(&mut self, key: u64) {
        if let Some(used) = self.used.remove(&key) {
            self.sums.take(used.at, used.bytes);
            self.bytes -= used.bytes;
        }
    }

    // The keys get the first places, in their order, and at least as many stay free.
    fn renumber(&mut self) {
        let mut order: Vec<&mut Used> = self.used.values_mut().collect();
        order.sort_unstable_by_key(|used| used.at);
        self.sums = Sums::new((2 * order.len()).max(LEAST_PLACES));
        self.next = order.len();
        for (place, used) in order.into_iter().enumerate() {
            used.at = place;
            self.sums.add(place, used.bytes);
        }
    }
}

#[cfg(test)]
mod tests {
    use super::*;
    use crate::random::Random;

    #[test]
    fn distances_are_those_of_a_list() {
        let mut random = Random::new(1);
        let (mut stack, mut list) = (Stack::default(), Vec::<(u64, u64)>::new());
        for _ in 0..20_000 {
            let (key, bytes) = (random.below(40), 1 + random.below(100));
            let place = list.iter().position(|(known, _)| *known == key);
            let wanted = place.map(|place| list[place..].iter().map(|(_, bytes)| bytes).sum());
            assert_eq!(stack.distance(key), wanted);
            place.map(|place| list.remove(place));
            if random.happens(0.1) {
                stack.remove(key);
            } else {
                stack.put(key, bytes);
                list.push((key, bytes));
            }
            assert_eq!((stack.len(), stack.bytes()), (list.len(), list.iter().map(|(_, bytes)| bytes).sum()));
        }
    }
}
