//! The operations as the source answers them, and document 01's refusals where the source has none.

use crate::arithmetic::{Answer, Arithmetic, Refused};
use crate::goldilocks::{reduce128, Goldilocks};
use crate::wire::Bytes;
use p3_field::integers::QuotientMap;
use p3_field::{Field, PermutationMonomial, PrimeCharacteristicRing, PrimeField64, TwoAdicField};
use serde::{Deserialize, Serialize};
use std::cmp::Ordering;

/// Answers by the source.
pub struct Source;

/// Document 01's limit on the words of a sum and the pairs of a dot product, which the source does not have. It stands apart from coding's, since document 02
/// raises it alone.
const SUM_LIMIT: usize = 4096;

/// Its limit on the words of a coding, which the source does not have either.
const CODING_LIMIT: usize = 4096;

fn of(word: u64) -> Goldilocks {
    Goldilocks::new(word)
}

fn all_of(words: &[u64]) -> &[Goldilocks] {
    // SAFETY: the source's type is a u64, `repr(transparent)`.
    unsafe { core::slice::from_raw_parts(words.as_ptr().cast(), words.len()) }
}

fn limbs(lo: u64, hi: u64) -> u128 {
    u128::from(hi) << 64 | u128::from(lo)
}

fn canonical(found: Option<Goldilocks>, otherwise: u64) -> Answer {
    found.map(|x| x.as_canonical_u64()).ok_or(Refused::by(otherwise))
}

impl Source {
    /// `sum_array` of the source, which has the number of words in its type, and no limit.
    #[inline]
    pub fn sum<const N: usize>(input: &[u64]) -> u64 {
        Goldilocks::sum_array::<N>(all_of(input)).value
    }

    /// `dot_product` of the source, the same way. Its own bound is 2^31 pairs, for which there is an instance,
    ///
    /// ```
    /// let _: fn(&[u64], &[u64]) -> u64 = oracle::Source::dot::<{ 1 << 31 }>;
    /// ```
    ///
    /// and for one more there is none:
    ///
    /// ```compile_fail
    /// let _: fn(&[u64], &[u64]) -> u64 = oracle::Source::dot::<{ (1 << 31) + 1 }>;
    /// ```
    #[inline]
    pub fn dot<const N: usize>(lhs: &[u64], rhs: &[u64]) -> u64 {
        let (lhs, rhs) = (all_of(lhs).try_into(), all_of(rhs).try_into());
        Goldilocks::dot_product::<N>(lhs.expect("as many words as the type says"), rhs.expect("and here")).value
    }

    /// The trait `Sum`, which goes another way than `sum_array` below four words.
    pub fn sum_trait(input: &[u64]) -> u64 {
        all_of(input).iter().copied().sum::<Goldilocks>().value
    }

    /// The source's generator, which panics above 32.
    pub fn generator(bits: usize) -> u64 {
        Goldilocks::two_adic_generator(bits).value
    }

    /// The source's root in the word that it holds.
    pub fn held_root(x: u64) -> Option<u64> {
        of(x).try_sqrt().map(|root| root.value)
    }
}

/// An instance of both for each of these lengths.
macro_rules! instances {
    ($($length:literal)*) => {
        /// The lengths at which sums and dot products can be asked of the source, from the shortest.
        pub const LENGTHS: &[usize] = &[$($length),*];

        fn sum(input: &[u64]) -> u64 {
            match input.len() {
                $($length => Source::sum::<$length>(input),)*
                other => panic!("there is no instance of sum_array for {other} words"),
            }
        }

        fn dot(lhs: &[u64], rhs: &[u64]) -> u64 {
            match lhs.len() {
                $($length => Source::dot::<$length>(lhs, rhs),)*
                other => panic!("there is no instance of dot_product for {other} pairs"),
            }
        }
    };
}

instances!(
    0 1 2 3 4 5 6 7 8 9 10 11 12 13 14 15 16 17 31 32 33 63 64 65 127 128 129 255 256 257 511 512 513 1023 1024 1025 2047 2048 2049 4094 4095 4096 4097
);

/// The lengths at which codings are asked: of the same, those up to one word more than is coded.
pub fn coding_lengths() -> &'static [usize] {
    &LENGTHS[..LENGTHS.partition_point(|&words| words <= CODING_LIMIT + 1)]
}

impl Arithmetic for Source {
    #[inline]
    fn add(x: u64, y: u64) -> u64 {
        (of(x) + of(y)).value
    }

    #[inline]
    fn sub(x: u64, y: u64) -> u64 {
        (of(x) - of(y)).value
    }

    #[inline]
    fn neg(x: u64) -> u64 {
        (-of(x)).value
    }

    #[inline]
    fn reduce128(lo: u64, hi: u64) -> u64 {
        reduce128(limbs(lo, hi)).value
    }

    #[inline]
    fn mul(x: u64, y: u64) -> u64 {
        (of(x) * of(y)).value
    }

    #[inline]
    fn square(x: u64) -> u64 {
        of(x).square().value
    }

    #[inline]
    fn halve(x: u64) -> u64 {
        of(x).halve().value
    }

    fn sum_array(input: &[u64]) -> Answer {
        if input.len() > SUM_LIMIT {
            return Err(Refused::by(5));
        }
        Ok(sum(input))
    }

    fn dot_product(lhs: &[u64], rhs: &[u64]) -> Answer {
        if lhs.len() != rhs.len() {
            return Err(Refused::by(4));
        }
        if lhs.len() > SUM_LIMIT {
            return Err(Refused::by(5));
        }
        Ok(dot(lhs, rhs))
    }

    fn from_i64(n: i64) -> u64 {
        <Goldilocks as QuotientMap<i64>>::from_int(n).value
    }

    fn from_u128(lo: u64, hi: u64) -> u64 {
        <Goldilocks as QuotientMap<u128>>::from_int(limbs(lo, hi)).value
    }

    #[inline]
    fn mul_2exp_u64(x: u64, exp: u64) -> u64 {
        of(x).mul_2exp_u64(exp).value
    }

    #[inline]
    fn div_2exp_u64(x: u64, exp: u64) -> u64 {
        of(x).div_2exp_u64(exp).value
    }

    fn try_inverse(x: u64) -> Answer {
        canonical(of(x).try_inverse(), 2)
    }

    fn try_sqrt(x: u64) -> Answer {
        canonical(of(x).try_sqrt(), 3)
    }

    fn injective_exp_root_n(x: u64) -> u64 {
        of(x).injective_exp_root_n().as_canonical_u64()
    }

    fn two_adic_generator(bits: u64) -> Answer {
        if bits > Goldilocks::TWO_ADICITY as u64 {
            return Err(Refused::by(7));
        }
        Ok(Self::generator(bits as usize))
    }

    fn eq(x: u64, y: u64) -> bool {
        of(x) == of(y)
    }

    fn cmp(x: u64, y: u64) -> Ordering {
        of(x).cmp(&of(y))
    }

    fn is_zero(x: u64) -> bool {
        of(x).is_zero()
    }

    // The source has no slots: document 01's rule, on its canonical form.
    fn slot(x: u64, k: u64) -> Answer {
        if k > 32 {
            return Err(Refused::by(7));
        }
        Ok(of(x).as_canonical_u64() & ((1 << k) - 1))
    }

    // The source codes one element: document 01's list of them, each by the source.
    fn encode(words: &[u64], bytes: &mut [u8]) -> Result<(), Refused> {
        fits(words.len(), bytes.len())?;
        for (x, place) in all_of(words).iter().zip(bytes.chunks_exact_mut(8)) {
            let mut written = Bytes([0; 8]);
            x.serialize(&mut written).expect("a word is written");
            place.copy_from_slice(&written.0);
        }
        Ok(())
    }

    fn decode(bytes: &[u8], words: &mut [u64]) -> Result<(), Refused> {
        fits(words.len(), bytes.len())?;
        let mut read = Vec::with_capacity(words.len());
        for (index, group) in bytes.chunks_exact(8).enumerate() {
            let group = Bytes(group.try_into().expect("eight bytes"));
            read.push(Goldilocks::deserialize(group).map_err(|_| Refused { number: 1, index })?.value);
        }
        words.copy_from_slice(&read);
        Ok(())
    }

    fn as_canonical_u64(x: u64) -> u64 {
        of(x).as_canonical_u64()
    }

    fn from_canonical_checked_u64(x: u64) -> Answer {
        held(<Goldilocks as QuotientMap<u64>>::from_canonical_checked(x))
    }

    fn from_canonical_checked_i64(n: i64) -> Answer {
        held(<Goldilocks as QuotientMap<i64>>::from_canonical_checked(n))
    }

    fn value(held: u64) -> u64 {
        of(held).value
    }
}

fn held(taken: Option<Goldilocks>) -> Answer {
    taken.map(|x| x.value).ok_or(Refused::by(1))
}

/// Document 01's tests on the two lengths of a coding.
fn fits(words: usize, bytes: usize) -> Result<(), Refused> {
    if words > CODING_LIMIT {
        return Err(Refused::by(5));
    }
    if bytes != 8 * words {
        return Err(Refused::by(6));
    }
    Ok(())
}
