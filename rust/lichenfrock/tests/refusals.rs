//! Each refusal, with the smallest input that has it: its number, its words and index, and lent buffers as they were.

use lichenfrock::{Goldilocks, Refusal};

const TOO_MANY: &str = "more than 4,096 words or pairs in a sum or dot product, or more than 4,096 words in a coding";
const WRONG_LENGTH: &str = "a lent buffer or list hasn't the length that it must have";

#[track_caller]
fn refused<T: std::fmt::Debug>(answer: Result<T, Refusal>, number: u64, index: usize, words: &str) {
    let refusal: Box<dyn std::error::Error> = answer.unwrap_err().into();
    assert_eq!(refusal.to_string(), words);
    let refusal = refusal.downcast::<Refusal>().unwrap();
    assert_eq!((refusal.number(), refusal.index()), (number, index));
}

#[test]
fn of_numbers() {
    let out_of_range = "not canonical, or i64 out of range";
    refused(Goldilocks::from_canonical_checked_u64(Goldilocks::ORDER_U64), 1, 0, out_of_range);
    refused(Goldilocks::from_canonical_checked_i64(i64::MIN), 1, 0, out_of_range);
    refused(Goldilocks::ZERO.try_inverse(), 2, 0, "inverse of zero");
    refused(Goldilocks::new(Goldilocks::ORDER_U64).try_inverse(), 2, 0, "inverse of zero");
    refused(Goldilocks::new(7).try_sqrt(), 3, 0, "no element squares to the input");
    refused(Goldilocks::two_adic_generator(33), 7, 0, "generator or slot above 32");
    refused(Goldilocks::ONE.slot(33), 7, 0, "generator or slot above 32");
}

#[test]
fn of_lists() {
    let many = [Goldilocks::ONE; 4_097];
    refused(Goldilocks::dot_product(&many[..1], &[]), 4, 0, "dot: the two lengths differ");
    refused(Goldilocks::dot_product(&many, &[]), 4, 0, "dot: the two lengths differ");
    refused(Goldilocks::dot_product(&many, &many), 5, 0, TOO_MANY);
    refused(Goldilocks::sum_array(&many), 5, 0, TOO_MANY);
}

#[test]
fn of_coding() {
    let mut words = [Goldilocks::TWO; 4_097];
    let mut bytes = vec![0xAA; 8 * 4_097];
    let kept = (words, bytes.clone());
    refused(Goldilocks::encode(&words, &mut bytes), 5, 0, TOO_MANY);
    refused(Goldilocks::decode(&bytes, &mut words), 5, 0, TOO_MANY);
    for size in [0, 7, 9, 16] {
        refused(Goldilocks::encode(&words[..1], &mut bytes[..size]), 6, 0, WRONG_LENGTH);
        refused(Goldilocks::decode(&bytes[..size], &mut words[..1]), 6, 0, WRONG_LENGTH);
    }
    assert!(words == kept.0 && bytes == kept.1);
    for first in 0..3 {
        let bad: Vec<u8> = (0..3).flat_map(|i| if i < first { [1; 8] } else { [0xFF; 8] }).collect();
        refused(Goldilocks::decode(&bad, &mut words[..3]), 1, first, "not canonical, or i64 out of range");
        assert!(words == kept.0);
    }
}

#[test]
fn coding_goes_there_and_back() {
    for n in [0, 1, 2, 4_095, 4_096] {
        let words: Vec<Goldilocks> = (0..n).map(|i| Goldilocks::new(u64::MAX - i * i)).collect();
        let mut bytes = vec![0xAA; 8 * words.len()];
        Goldilocks::encode(&words, &mut bytes).unwrap();
        assert_eq!(bytes, words.iter().flat_map(|word| word.as_canonical_u64().to_le_bytes()).collect::<Vec<u8>>());
        let mut read = vec![Goldilocks::NEG_ONE; words.len()];
        Goldilocks::decode(&bytes, &mut read).unwrap();
        assert_eq!(read, words);
    }
}
