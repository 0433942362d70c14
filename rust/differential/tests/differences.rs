//! The entries of docs/DIFFERENCES.md that can be run, in its order.

use differential::Library;
use lichenfrock::Goldilocks;
use oracle::{edges, Answer, Arithmetic, Random, Refused, Source, P};
use std::panic::catch_unwind;

fn refused(number: u64) -> Answer {
    Err(Refused::by(number))
}

/// All lists of so many edge words, and as many random lists.
fn lists<const N: usize>() -> impl Iterator<Item = [u64; N]> {
    let edges = edges();
    let mut random = Random::from(7);
    let all = edges.len().pow(N as u32);
    let digits = move |number: usize| std::array::from_fn(|place| edges[number / edges.len().pow(place as u32) % edges.len()]);
    (0..all).map(digits).chain((0..all).map(move |_| std::array::from_fn(|_| random.word())))
}

mod intended {
    use super::*;

    #[test]
    fn generator_33() {
        assert!(catch_unwind(|| Source::generator(33)).is_err());
        assert_eq!(Library::two_adic_generator(33), refused(7));
        assert_eq!(Library::two_adic_generator(32), Ok(Source::generator(32)));
    }

    #[test]
    fn sums_of_more_than_4096() {
        let ones = [1; 4097];
        assert_eq!(Source::as_canonical_u64(Source::sum::<4097>(&ones)), 4097);
        assert_eq!(Source::as_canonical_u64(Source::dot::<4097>(&ones, &ones)), 4097);
        assert_eq!(Library::sum_array(&ones), refused(5));
        assert_eq!(Library::dot_product(&ones, &ones), refused(5));
    }

    #[test]
    fn codings_of_more_than_4096() {
        assert_eq!(Library::encode(&[1; 4097], &mut [0; 8 * 4097]), Err(Refused::by(5)));
        assert_eq!(Library::decode(&[0; 8 * 4097], &mut [0; 4097]), Err(Refused::by(5)));
    }

    #[test]
    fn lists_that_do_not_fit() {
        assert_eq!(Library::dot_product(&[1; 4097], &[1]), refused(4));
        assert_eq!(Library::encode(&[1], &mut [0; 7]), Err(Refused::by(6)));
        assert_eq!(Library::decode(&[0; 7], &mut [0]), Err(Refused::by(6)));
    }

    #[test]
    fn the_index_of_the_first_bad_group() {
        let mut bytes = [0; 24];
        bytes[8..16].copy_from_slice(&P.to_le_bytes());
        bytes[16..].fill(0xFF);
        let mut words = [5; 3];
        assert_eq!(Library::decode(&bytes, &mut words), Err(Refused { number: 1, index: 1 }));
        assert_eq!(words, [5; 3]);
    }

    #[test]
    fn root_of_4() {
        assert_eq!(Source::held_root(4), Some(P + 2));
        assert_eq!(Library::try_sqrt(4), Ok(2));
    }

    #[test]
    fn neg_0_is_held_as_p() {
        assert_eq!((Source::neg(0), Library::neg(0)), (P, P));
        assert_eq!(Library::value(Library::neg(0)), P);
    }

    #[test]
    fn slots() {
        assert_eq!(Library::slot(P, 12), Ok(0));
        assert_eq!(Library::slot(P - 1, 32), Ok(0));
        assert_eq!(Library::slot(P + 0x1234, 8), Ok(0x34));
        assert_eq!(Library::slot(0, 33), refused(7));
    }

    /// The source's trait `Sum` and its `sum_array` go two ways below four words, and hold the same word.
    #[test]
    fn sums_below_four_words() {
        assert_eq!(Source::sum_trait(&[]), Source::sum::<0>(&[]));
        lists::<1>().for_each(|words| assert_eq!(Source::sum_trait(&words), Source::sum::<1>(&words), "{words:X?}"));
        lists::<2>().for_each(|words| assert_eq!(Source::sum_trait(&words), Source::sum::<2>(&words), "{words:X?}"));
        lists::<3>().for_each(|words| assert_eq!(Source::sum_trait(&words), Source::sum::<3>(&words), "{words:X?}"));
    }

    /// The Rust crate's `Sum` adds one by one, the source's `Sum` exactly: the same word too.
    #[test]
    fn sums_by_the_trait() {
        let mut random = Random::from(7);
        for length in (0..64).chain([1000, 4097, 100_000]) {
            let words: Vec<u64> = (0..length).map(|_| random.one_of(&[0, 1, P - 1, P, u64::MAX, u64::MAX - 1])).collect();
            let sum: Goldilocks = words.iter().copied().map(Goldilocks::new).sum();
            assert_eq!(sum.held_word(), Source::sum_trait(&words), "{length} words");
        }
    }
}

mod comments {
    use super::*;

    /// "(-(2^63 - 2^31), 2^63 - 2^31)" leaves out both ends.
    #[test]
    fn checked_i64_takes_its_ends() {
        let end = (P / 2) as i64;
        assert_eq!(Source::from_canonical_checked_i64(end), Ok(end as u64));
        assert_eq!(Source::from_canonical_checked_i64(-end), Ok(P - end as u64));
        assert_eq!(Source::from_canonical_checked_i64(end + 1), refused(1));
        assert_eq!(Source::from_canonical_checked_i64(-end - 1), refused(1));
    }

    /// "`None` if the given integer is greater than p".
    #[test]
    fn checked_u64_refuses_p() {
        assert_eq!(Source::from_canonical_checked_u64(P), refused(1));
        assert_eq!(Source::from_canonical_checked_u64(P - 1), Ok(P - 1));
    }

    /// "Fast addition modulo ORDER": of P and 0, the last step of this reduction.
    #[test]
    fn the_last_addition_leaves_p() {
        assert_eq!(Source::reduce128(P, 0), P);
    }

    /// "acc_lo accumulates lo + 2^{96}hi": not beyond 2^128, which two products pass already. The answer is right.
    #[test]
    fn products_pass_2_to_the_128() {
        let product = u128::from(u64::MAX) * u128::from(u64::MAX);
        assert_eq!(product.checked_add(product), None);
        let one = Source::mul(u64::MAX, u64::MAX);
        let three = Source::add(Source::add(one, one), one);
        assert_eq!(
            Source::as_canonical_u64(Source::dot::<3>(&[u64::MAX; 3], &[u64::MAX; 3])),
            Source::as_canonical_u64(three)
        );
    }

    /// `assert!((N as u32) <= (1 << 31))` lets 2^32 pairs through: this instance compiles. One of 2^31 + 1 does not, as `Source::dot` shows.
    #[test]
    fn an_instance_of_2_to_the_32_pairs() {
        let instance: fn(&[u64], &[u64]) -> u64 = Source::dot::<{ 1 << 32 }>;
        assert!(catch_unwind(|| instance(&[], &[])).is_err(), "and wants as many words");
    }

    /// The wasm arm of `mul_wide` adds two carries to the upper product, where the comment speaks of one: both fit.
    #[test]
    fn two_carries_fit() {
        let half = u64::from(u32::MAX);
        assert_eq!((half * half).checked_add(2 * half), Some(u64::MAX));
    }
}
