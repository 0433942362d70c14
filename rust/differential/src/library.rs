//! The operations as the proved library answers them, asked as its users do: by the Rust crate over the static library.

use lichenfrock::{Goldilocks, Refusal};
use oracle::{Answer, Arithmetic, Refused};
use std::cmp::Ordering;

/// Answers by the library.
pub struct Library;

fn of(word: u64) -> Goldilocks {
    Goldilocks::new(word)
}

fn all_of(words: &[u64]) -> Vec<Goldilocks> {
    words.iter().copied().map(Goldilocks::new).collect()
}

fn limbs(lo: u64, hi: u64) -> u128 {
    u128::from(hi) << 64 | u128::from(lo)
}

fn refused(refusal: Refusal) -> Refused {
    Refused {
        number: refusal.number(),
        index: refusal.index(),
    }
}

fn held(answer: Result<Goldilocks, Refusal>) -> Answer {
    answer.map(Goldilocks::held_word).map_err(refused)
}

impl Arithmetic for Library {
    fn add(x: u64, y: u64) -> u64 {
        (of(x) + of(y)).held_word()
    }

    fn sub(x: u64, y: u64) -> u64 {
        (of(x) - of(y)).held_word()
    }

    fn neg(x: u64) -> u64 {
        (-of(x)).held_word()
    }

    fn reduce128(lo: u64, hi: u64) -> u64 {
        Goldilocks::reduce128(limbs(lo, hi)).held_word()
    }

    fn mul(x: u64, y: u64) -> u64 {
        (of(x) * of(y)).held_word()
    }

    fn square(x: u64) -> u64 {
        of(x).square().held_word()
    }

    fn halve(x: u64) -> u64 {
        of(x).halve().held_word()
    }

    fn sum_array(input: &[u64]) -> Answer {
        held(Goldilocks::sum_array(&all_of(input)))
    }

    fn dot_product(lhs: &[u64], rhs: &[u64]) -> Answer {
        held(Goldilocks::dot_product(&all_of(lhs), &all_of(rhs)))
    }

    fn from_i64(n: i64) -> u64 {
        Goldilocks::from_i64(n).held_word()
    }

    fn from_u128(lo: u64, hi: u64) -> u64 {
        Goldilocks::from_u128(limbs(lo, hi)).held_word()
    }

    fn mul_2exp_u64(x: u64, exp: u64) -> u64 {
        of(x).mul_2exp_u64(exp).held_word()
    }

    fn div_2exp_u64(x: u64, exp: u64) -> u64 {
        of(x).div_2exp_u64(exp).held_word()
    }

    fn try_inverse(x: u64) -> Answer {
        held(of(x).try_inverse())
    }

    fn try_sqrt(x: u64) -> Answer {
        held(of(x).try_sqrt())
    }

    fn injective_exp_root_n(x: u64) -> u64 {
        of(x).injective_exp_root_n().held_word()
    }

    fn two_adic_generator(bits: u64) -> Answer {
        held(Goldilocks::two_adic_generator(bits))
    }

    fn eq(x: u64, y: u64) -> bool {
        of(x) == of(y)
    }

    fn cmp(x: u64, y: u64) -> Ordering {
        of(x).cmp(&of(y))
    }

    fn is_zero(x: u64) -> bool {
        of(x).is_zero()
    }

    fn slot(x: u64, k: u64) -> Answer {
        of(x).slot(k).map_err(refused)
    }

    fn encode(words: &[u64], bytes: &mut [u8]) -> Result<(), Refused> {
        Goldilocks::encode(&all_of(words), bytes).map_err(refused)
    }

    fn decode(bytes: &[u8], words: &mut [u64]) -> Result<(), Refused> {
        let mut lent = all_of(words);
        let answer = Goldilocks::decode(bytes, &mut lent).map_err(refused);
        words.iter_mut().zip(lent).for_each(|(word, x)| *word = x.held_word());
        answer
    }

    fn as_canonical_u64(x: u64) -> u64 {
        of(x).as_canonical_u64()
    }

    fn from_canonical_checked_u64(x: u64) -> Answer {
        held(Goldilocks::from_canonical_checked_u64(x))
    }

    fn from_canonical_checked_i64(n: i64) -> Answer {
        held(Goldilocks::from_canonical_checked_i64(n))
    }

    fn value(held: u64) -> u64 {
        of(held).held_word()
    }
}
