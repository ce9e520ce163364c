//! How many file handles the process may have.
use rustix::process::{getrlimit, setrlimit, Resource, Rlimit};

// Handles of a process beside those of its connections: standard ones, listening sockets, the page's clients, the flash.
const BESIDE: u64 = 64;
// Those of an event loop.
const OF_A_THREAD: u64 = 4;

/// Raises the limit of handles to what so many connections and threads want. Fewer connections than these: no more may be had.
#[must_use]
pub fn raised_for(connections: u32, threads: u16) -> u32 {
    let beside = BESIDE + OF_A_THREAD * u64::from(threads);
    let wanted = beside + u64::from(connections);
    let left = raise(wanted).saturating_sub(beside);
    connections.min(u32::try_from(left).unwrap_or(u32::MAX)).max(1)
}

// The handles that the process may have from now on.
fn raise(wanted: u64) -> u64 {
    let Rlimit { current, maximum } = getrlimit(Resource::Nofile);
    let allowed = |limit: Option<u64>| limit.unwrap_or(u64::MAX);
    if wanted <= allowed(current) {
        return allowed(current);
    }
    // (a user with the right to may raise the maximum too)
    let most = Some(wanted.max(allowed(maximum)));
    let limits = [(Some(wanted), most), (Some(wanted.min(allowed(maximum))), maximum)];
    for (current, maximum) in limits {
        if setrlimit(Resource::Nofile, Rlimit { current, maximum }).is_ok() {
            return allowed(current);
        }
    }
    allowed(current)
}
