//! What the bench and the server show alike: pages with pictures and tables, each one text of HTML, without scripts, and without
//! anything from elsewhere.
#![forbid(unsafe_code)]

pub mod axis;
pub mod bytes;
pub mod page;
pub mod picture;
