//! The proved library and p3-goldilocks 0.8.0 side by side: each call is asked of both, and what differs is reported.

mod compare;
mod library;

pub use compare::{compare, compare_fixed};
pub use library::Library;
