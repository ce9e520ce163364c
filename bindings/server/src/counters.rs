//! What is counted: by each worker for itself, so that no two write one line of memory.
use std::sync::atomic::{AtomicU64, Ordering::Relaxed};

/// A count.
#[derive(Debug, Default)]
pub struct Counter(AtomicU64);

impl Counter {
    pub fn add(&self, more: u64) {
        self.0.fetch_add(more, Relaxed);
    }

    pub fn one(&self) {
        self.add(1);
    }

    /// What was counted.
    #[must_use]
    pub fn get(&self) -> u64 {
        self.0.load(Relaxed)
    }

    /// Counts one where something is so, and else one of another counter.
    pub fn one_or(&self, is_so: bool, other: &Counter) {
        if is_so { self } else { other }.one();
    }
}

macro_rules! counters {
    ($($(#[$doc:meta])* $name:ident,)*) => {
        /// The counts of a worker. Their names are memcached's, where they mean the same.
        #[derive(Debug, Default)]
        #[repr(align(128))]
        pub struct Counters {
            $($(#[$doc])* pub $name: Counter,)*
        }

        /// The sums of all workers.
        #[derive(Clone, Copy, Debug, Default, PartialEq, Eq)]
        pub struct Sums {
            $(pub $name: u64,)*
        }

        impl Sums {
            /// The sums of these counts.
            pub fn of<'a>(all: impl Iterator<Item = &'a Counters>) -> Sums {
                all.fold(Sums::default(), |sums, one| Sums {
                    $($name: sums.$name + one.$name.get(),)*
                })
            }

            /// Each sum with its name.
            #[must_use]
            pub fn named(&self) -> Vec<(&'static str, u64)> {
                vec![$((stringify!($name), self.$name),)*]
            }
        }

        impl Counters {
            /// Begins at 0 anew.
            pub fn reset(&self) {
                $(self.$name.0.store(0, Relaxed);)*
            }
        }
    };
}

counters! {
    cmd_get,
    cmd_set,
    cmd_flush,
    cmd_touch,
    cmd_meta,
    get_hits,
    get_misses,
    delete_misses,
    delete_hits,
    incr_misses,
    incr_hits,
    decr_misses,
    decr_hits,
    cas_misses,
    cas_hits,
    cas_badval,
    touch_hits,
    touch_misses,
    store_too_large,
    store_no_memory,
    /// Times that a get of many keys let other connections have their turn.
    conn_yields,
    bytes_read,
    bytes_written,
    total_connections,
    rejected_connections,
    idle_kicks,
    /// Connections that were ended because a command or an answer stood still.
    stall_kicks,
    /// Values that weren't answered, or bodies that weren't taken, because too many bytes were in flight.
    in_flight_refused,
    /// Times that a client was told to load a key.
    leases_won,
    /// Times that a client was told that another loads the key.
    leases_taken,
    /// Stores by a cas unique that were refused, since the item had changed or was gone.
    leases_refused,
    /// Bars that were set.
    bars_set,
    /// Bars that ended by their limit.
    bars_ended,
}

#[cfg(test)]
mod tests {
    use super::*;

    #[test]
    fn the_counts_of_all_workers_are_added() {
        let (one, other) = (Counters::default(), Counters::default());
        one.get_hits.add(2);
        other.get_hits.one_or(true, &other.get_misses);
        other.get_hits.one_or(false, &other.get_misses);
        let sums = Sums::of([&one, &other].into_iter());
        assert_eq!((sums.get_hits, sums.get_misses), (3, 1));
        assert!(sums.named().contains(&("get_hits", 3)));
        one.reset();
        assert_eq!(Sums::of([&one, &other].into_iter()).get_hits, 1);
    }
}
