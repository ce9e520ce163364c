//! What all connections share.
use crate::config::Config;
use crate::counters::{Counters, Sums};
use crate::finds::Finds;
use crate::items::Items;
use crate::limits::{has_memory, InFlight, Patience};
use crate::page::history::{History, Sample};
use crate::times::{Histograms, Times};
use kilambosetry::{Closed, HybridCache};
use std::sync::Arc;
use std::time::Instant;
use tokio::sync::Semaphore;

/// The version that clients are told: that of the protocol, and the crate's.
pub const VERSION: &str = concat!("1.6.18-kilambosetry-", env!("CARGO_PKG_VERSION"));

// What a connection takes beside the bytes in flight: its task, and its place in a table of its thread, which doubles.
const OF_A_TASK: usize = 16 * 1024;
const OF_A_PLACE: usize = 320;
// The places of a table's first part.
const PLACES: usize = 32;

/// What all connections share.
#[derive(Debug)]
pub struct Server {
    pub items: Items,
    pub config: Config,
    pub in_flight: Arc<InFlight>,
    pub patience: Patience,
    /// A permit for each connection that may be open.
    pub free_connections: Arc<Semaphore>,
    pub started: Instant,
    /// What its page shows of the last hour.
    pub history: History,
    counters: Vec<Arc<Counters>>,
    times: Vec<Arc<Times>>,
}

/// What the connections of one thread share.
#[derive(Clone, Debug)]
pub struct Worker {
    pub server: Arc<Server>,
    pub counters: Arc<Counters>,
    pub times: Arc<Times>,
}

impl Server {
    #[must_use]
    pub fn new(config: Config, cache: HybridCache) -> Arc<Server> {
        let has_page = config.metrics_port > 0;
        Arc::new(Server {
            items: Items::new(cache, config.flash_wait()),
            in_flight: InFlight::new(config.in_flight_bytes()),
            patience: config.patience(),
            free_connections: Arc::new(Semaphore::new(config.connections as usize)),
            started: Instant::now(),
            history: History::new(has_page),
            counters: (0..config.threads).map(|_| Arc::default()).collect(),
            times: (0..config.threads).map(|_| Arc::new(Times::new(has_page))).collect(),
            config,
        })
    }

    /// Closes the cache, and keeps what it has where that is asked for. No connection is served any more.
    pub fn close(&self) -> Closed {
        let beside = self.items.end();
        self.items.cache().clone().close_with(&beside.bytes())
    }

    /// The workers, one a thread.
    pub fn workers(self: &Arc<Server>) -> impl Iterator<Item = Worker> + '_ {
        self.counters.iter().zip(&self.times).map(|(counters, times)| Worker {
            server: Arc::clone(self),
            counters: Arc::clone(counters),
            times: Arc::clone(times),
        })
    }

    /// The finds of a command's keys.
    pub fn finds<'a, K: Iterator<Item = &'a [u8]>>(&'a self, keys: K) -> Finds<'a, K> {
        Finds::new(&self.items, &self.in_flight, keys)
    }

    /// What all workers counted.
    #[must_use]
    pub fn sums(&self) -> Sums {
        Sums::of(self.counters.iter().map(|counters| &**counters))
    }

    /// What was counted up to now.
    #[must_use]
    pub fn sample(&self) -> Sample {
        Sample {
            at: self.started.elapsed(),
            stats: self.items.cache().stats(),
            sums: self.sums(),
            flushed: self.items.found_flushed(),
            gets: None,
        }
    }

    /// Keeps a sample of now for the page.
    pub fn note(&self) {
        self.history.note(self.sample(), self.times());
    }

    /// How long commands took, of all workers.
    #[must_use]
    pub fn times(&self) -> Histograms {
        let times: Vec<&Times> = self.times.iter().map(|times| &**times).collect();
        Times::of_all(&times)
    }

    /// Counts from 0 on anew.
    pub fn reset_counters(&self) {
        self.counters.iter().for_each(|counters| counters.reset());
    }

    /// Counts a client that wasn't let in.
    pub fn count_rejected(&self) {
        self.counters[0].rejected_connections.one();
    }

    /// Whether there is memory for the last connection that was let in: its thread may have twice as many as others.
    #[must_use]
    pub fn has_memory_for_last(&self) -> bool {
        let of_a_thread = 2 * self.open_connections() / self.counters.len().max(1);
        has_memory(OF_A_TASK.max((of_a_thread + PLACES) * OF_A_PLACE))
    }

    /// Connections that are open.
    #[must_use]
    pub fn open_connections(&self) -> usize {
        (self.config.connections as usize).saturating_sub(self.free_connections.available_permits())
    }
}
