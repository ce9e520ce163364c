//! What the process has in memory.
use std::fs;

/// Bytes of this process that are in memory; none, where that isn't told as Linux does (/proc/self/status).
#[must_use]
pub fn resident() -> Option<u64> {
    let status = fs::read_to_string("/proc/self/status").ok()?;
    let line = status.lines().find_map(|line| line.strip_prefix("VmRSS:"))?;
    Some(line.trim().trim_end_matches(" kB").parse::<u64>().ok()? * 1024)
}
