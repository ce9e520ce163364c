//! A server that memcached's clients speak to, over the hybrid cache Kilambosetry.
//!
//! The cache below it is proved; the server is plain Rust, and is tested. What it does beside its program is here so that tests can
//! open it over a device of their own: [`listen::Running`].
#![forbid(unsafe_code)]

mod answers;
mod bars;
mod base64;
mod beside;
mod buffer;
mod changes;
mod classic;
pub mod config;
mod connection;
pub mod counters;
mod finds;
mod flags;
pub mod handles;
pub mod head;
pub mod items;
pub mod limits;
pub mod listen;
mod locks;
mod meta;
mod metrics;
mod moments;
pub mod page;
mod parse;
mod request;
pub mod server;
mod stats;
pub mod times;
mod within;
