//! A second `rehearse`, which shares nothing with the first, and what is needed to compare the
//! two: seeded scripts, and a way to shorten one that shows a difference.

pub mod bytes;
pub mod council;
pub mod entry;
pub mod generate;
pub mod hex;
pub mod message;
pub mod page;
pub mod random;
pub mod script;
pub mod shrink;
pub mod store;
