//! The service of `kilambosetry_service.h`: its calls, over the [`HybridCache`](kilambosetry::HybridCache) of the Cargo crate. What each
//! does, and what its caller owes, stands in the header. Here pointers become references, answers become statuses, and a panic ends.
#![warn(unsafe_op_in_unsafe_fn)]

mod begun;
mod calls;
mod inside;
mod kept;
mod listening;
mod loads;
mod many;
mod opening;
mod options;
mod pointers;
mod service;
mod signals;
mod stats;
mod status;
mod why;
