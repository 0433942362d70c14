//! What is compared: document 01's operations, in its order, on words. Whoever answers them is asked the same way.

use std::cmp::Ordering;

/// A refusal: document 01's number, and the index beside it.
#[derive(Clone, Copy, Debug, PartialEq, Eq)]
pub struct Refused {
    pub number: u64,
    pub index: usize,
}

impl Refused {
    /// A refusal with no index beside it.
    pub fn by(number: u64) -> Self {
        Self { number, index: 0 }
    }
}

/// A word, or a refusal.
pub type Answer = Result<u64, Refused>;

/// Document 01's operations. Inverse and roots are answered in canonical form.
pub trait Arithmetic {
    fn add(x: u64, y: u64) -> u64;
    fn sub(x: u64, y: u64) -> u64;
    fn neg(x: u64) -> u64;
    fn reduce128(lo: u64, hi: u64) -> u64;
    fn mul(x: u64, y: u64) -> u64;
    fn square(x: u64) -> u64;
    fn halve(x: u64) -> u64;
    fn sum_array(input: &[u64]) -> Answer;
    fn dot_product(lhs: &[u64], rhs: &[u64]) -> Answer;
    fn from_i64(n: i64) -> u64;
    fn from_u128(lo: u64, hi: u64) -> u64;
    fn mul_2exp_u64(x: u64, exp: u64) -> u64;
    fn div_2exp_u64(x: u64, exp: u64) -> u64;
    fn try_inverse(x: u64) -> Answer;
    fn try_sqrt(x: u64) -> Answer;
    fn injective_exp_root_n(x: u64) -> u64;
    fn two_adic_generator(bits: u64) -> Answer;
    fn eq(x: u64, y: u64) -> bool;
    fn cmp(x: u64, y: u64) -> Ordering;
    fn is_zero(x: u64) -> bool;
    fn slot(x: u64, k: u64) -> Answer;
    fn encode(words: &[u64], bytes: &mut [u8]) -> Result<(), Refused>;
    fn decode(bytes: &[u8], words: &mut [u64]) -> Result<(), Refused>;
    fn as_canonical_u64(x: u64) -> u64;
    fn from_canonical_checked_u64(x: u64) -> Answer;
    fn from_canonical_checked_i64(n: i64) -> Answer;
    fn value(held: u64) -> u64;
}
