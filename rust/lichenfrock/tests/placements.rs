//! Document 01's placements, worked by hand, through the Rust crate: held words, refusals, bytes.

use lichenfrock::{Goldilocks, Refusal};

const P: u64 = Goldilocks::ORDER_U64;
/// 2^63 - 2^31, the end of what the checked i64 reader takes.
const END: i64 = i64::MAX - (1 << 31) + 1;
const MAX: Goldilocks = Goldilocks::new(u64::MAX);

fn word(x: u64) -> Goldilocks {
    Goldilocks::new(x)
}

#[test]
fn held_words() {
    assert_eq!((Goldilocks::NEG_ONE + Goldilocks::ONE).held_word(), P, "W1");
    assert_eq!((MAX + MAX).held_word(), 0x1_FFFF_FFFC, "W2");
    assert_eq!((Goldilocks::ZERO - MAX).held_word(), 0xFFFF_FFFE_0000_0003, "W3");
    assert_eq!((-Goldilocks::ZERO).held_word(), P, "W4");
    assert_eq!((-word(P)).held_word(), P, "W4");
    assert_eq!((Goldilocks::NEG_ONE * Goldilocks::NEG_ONE).held_word(), P + 1, "W5");
    assert_eq!(Goldilocks::NEG_ONE.square().held_word(), P + 1, "W5, as a square");
    assert_eq!((word(1 << 32) * word(1 << 32)).held_word(), 0xFFFF_FFFF, "W6");
    assert_eq!(MAX.halve().held_word(), 0xFFFF_FFFF_8000_0000, "W7");
    assert_eq!(Goldilocks::ONE.div_2exp_u64(32).held_word(), 0xFFFF_FFFE_0000_0002, "W8");
    assert_eq!(Goldilocks::ONE.div_2exp_u64(2).held_word(), 0xBFFF_FFFF_4000_0001, "W8");
    assert_eq!(Goldilocks::ZERO.mul_2exp_u64(96).held_word(), P, "W9");
    assert_eq!(Goldilocks::ONE.mul_2exp_u64(96).held_word(), P - 1, "W9");
    assert_eq!(
        Goldilocks::dot_product(&[MAX; 2], &[MAX; 2]).map(Goldilocks::held_word),
        Ok(0xFFFF_FFF9_0000_0007),
        "W10"
    );
    assert_eq!(Goldilocks::NEG_ONE.try_sqrt().map(Goldilocks::held_word), Ok(1 << 48), "W11");
    assert_eq!(word(P).try_sqrt().map(Goldilocks::held_word), Ok(0), "W11");
    assert_eq!(Goldilocks::from_i64(i64::MIN).held_word(), 0x7FFF_FFFF_0000_0001, "W13");
    assert_eq!(Goldilocks::reduce128(u128::MAX).held_word(), 0xFFFF_FFFE_0000_0000);
    assert_eq!(Goldilocks::reduce128(P.into()).held_word(), P);
    assert_eq!(Goldilocks::from_u128(P.into()).held_word(), 0);
    assert_eq!(Goldilocks::TWO.try_inverse().map(Goldilocks::held_word), Ok(0x7FFF_FFFF_8000_0001));
    assert_eq!(Goldilocks::from_canonical_checked_i64(END).map(Goldilocks::held_word), Ok(END as u64));
    assert_eq!(
        Goldilocks::from_canonical_checked_i64(-END).map(Goldilocks::held_word),
        Ok(0x7FFF_FFFF_8000_0001)
    );
}

#[test]
fn refusals() {
    assert_eq!(word(7).try_sqrt(), Err(Refusal::NoSquareRoot), "W12");
    assert_eq!(Goldilocks::from_canonical_checked_i64(END + 1), Err(Refusal::OutOfRange { index: 0 }));
    assert_eq!(Goldilocks::from_canonical_checked_i64(-END - 1), Err(Refusal::OutOfRange { index: 0 }));
    let many = [Goldilocks::ONE; 4_097];
    assert_eq!(Goldilocks::dot_product(&many[1..], &many[1..]), Ok(word(4_096)));
    assert_eq!(Goldilocks::dot_product(&many, &many), Err(Refusal::TooMany));
    assert_eq!(Goldilocks::dot_product(&many, &many[..1]), Err(Refusal::LengthsDiffer));
}

#[test]
fn bytes() {
    let mut bytes = [0, 0, 0, 0, 0xFF, 0xFF, 0xFF, 0xFF];
    assert_eq!(Goldilocks::from_bytes(bytes), Ok(Goldilocks::NEG_ONE));
    bytes[0] = 1;
    assert_eq!(Goldilocks::from_bytes(bytes), Err(Refusal::OutOfRange { index: 0 }));
}
