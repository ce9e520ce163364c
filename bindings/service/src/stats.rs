use crate::options::ServiceNumbers;
use crate::service::Service;
use kilambosetry::{Losses, Stats};

/// What a cache did: `kilambosetry_service_stats`.
#[repr(C)]
pub struct ServiceStats {
    hits_from_memory: u64,
    hits_from_flash: u64,
    misses: u64,
    misses_expired: u64,
    misses_by_fault: u64,
    stored: u64,
    deletes: u64,
    leases: u64,
    stale: u64,
    refused_stores: u64,
    load_waits: u64,
    losses: Losses,
    memory_items: u64,
    memory_bytes: u64,
    memory_limit_bytes: u64,
    flash_bytes: u64,
    flash_limit_bytes: u64,
    device_reads: u64,
    device_writes: u64,
    read_failures: u64,
    write_failures: u64,
    lies: u64,
    queue_length: u64,
    shards_behind: u64,
    waiting: u64,
    given_up: u64,
    lock_waits: u64,
    clears: u64,
    cleared_items: u64,
}

impl From<Stats> for ServiceStats {
    fn from(stats: Stats) -> ServiceStats {
        ServiceStats {
            hits_from_memory: stats.hits_from_memory,
            hits_from_flash: stats.hits_from_flash,
            misses: stats.misses(),
            misses_expired: stats.misses_expired,
            misses_by_fault: stats.misses_by_fault,
            stored: stats.stored,
            deletes: stats.deletes,
            leases: stats.loads,
            stale: stats.stale_stores,
            refused_stores: stats.refused_stores,
            load_waits: stats.waits_for_loads,
            losses: stats.losses,
            memory_items: stats.memory_items,
            memory_bytes: stats.memory_bytes,
            memory_limit_bytes: stats.memory_limit_bytes,
            flash_bytes: stats.flash_bytes,
            flash_limit_bytes: stats.flash_limit_bytes,
            device_reads: stats.device.reads,
            device_writes: stats.device.writes,
            read_failures: stats.device.read_failures,
            write_failures: stats.device.write_failures,
            lies: stats.device.lies,
            queue_length: stats.queue_length,
            shards_behind: stats.shards_behind,
            waiting: stats.waiting,
            given_up: stats.given_up,
            lock_waits: stats.lock_waits,
            clears: stats.clears,
            cleared_items: stats.cleared_items,
        }
    }
}

#[no_mangle]
extern "C" fn kilambosetry_service_tell(service: &Service, stats: &mut ServiceStats) {
    service.ask(|cache| *stats = cache.stats().into());
}

#[no_mangle]
extern "C" fn kilambosetry_service_tell_numbers(service: &Service, numbers: &mut ServiceNumbers) {
    service.ask(|cache| *numbers = cache.numbers().into());
}
