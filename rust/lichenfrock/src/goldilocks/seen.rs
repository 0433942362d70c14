//! What is seen of an element by the standard traits: the canonical form, and never the held word.

use super::Goldilocks;
use crate::raw;
use std::cmp::Ordering;
use std::fmt;
use std::hash::{Hash, Hasher};

impl PartialEq for Goldilocks {
    #[inline]
    fn eq(&self, other: &Self) -> bool {
        raw::lichenfrock_eq(self.0, other.0)
    }
}

impl Eq for Goldilocks {}

impl Ord for Goldilocks {
    #[inline]
    fn cmp(&self, other: &Self) -> Ordering {
        raw::lichenfrock_cmp(self.0, other.0).cmp(&0)
    }
}

impl PartialOrd for Goldilocks {
    #[inline]
    fn partial_cmp(&self, other: &Self) -> Option<Ordering> {
        Some(self.cmp(other))
    }
}

impl Hash for Goldilocks {
    fn hash<H: Hasher>(&self, state: &mut H) {
        self.as_canonical_u64().hash(state);
    }
}

impl fmt::Display for Goldilocks {
    fn fmt(&self, f: &mut fmt::Formatter<'_>) -> fmt::Result {
        fmt::Display::fmt(&self.as_canonical_u64(), f)
    }
}

impl fmt::Debug for Goldilocks {
    fn fmt(&self, f: &mut fmt::Formatter<'_>) -> fmt::Result {
        fmt::Debug::fmt(&self.as_canonical_u64(), f)
    }
}
