//! What `Options` come to on three machines: docs/SIZING.md has what it prints. No cache is opened, and nothing is allocated for one.
use kilambosetry::Options;

const GB: u64 = 1_000_000_000;

// A machine of 1 GB, of whose disk 10 GB are free: values of 1,000 bytes.
fn small() -> Options {
    Options { memory: 450_000_000, flash: 10 * GB, mean_value: 1000, ..Options::default() }
}

// One of 16 GB, and 200 GB of disk: many short values.
fn middle() -> Options {
    Options { memory: 9 * GB, flash: 200 * GB, mean_value: 300, ..Options::default() }
}

// One of 64 GB, and 1 TB of disk: values of 2,000 bytes, of which an index may have more memory than items have.
fn large() -> Options {
    Options { memory: 20 * GB, flash: 1000 * GB, mean_value: 2000, index_memory: Some(34 * GB), ..Options::default() }
}

fn main() {
    for (machine, options) in [("1 GB, 10 GB", small()), ("16 GB, 200 GB", middle()), ("64 GB, 1 TB", large())] {
        println!("{machine}\n{options}\n");
    }
}
