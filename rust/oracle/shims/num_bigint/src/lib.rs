//! In place of num-bigint: the source only turns a word into a big integer, which nothing here reads.

pub struct BigUint(pub u64);

impl From<u64> for BigUint {
    fn from(word: u64) -> Self {
        Self(word)
    }
}
