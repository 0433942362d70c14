//! What leaves a `Goldilocks` goes by the element: the two words that hold it look alike in every way but the raw word.

use lichenfrock::Goldilocks;
use std::collections::HashSet;

const P: u64 = Goldilocks::ORDER_U64;

#[test]
fn two_words_of_an_element_look_alike() {
    for x in [0, 1, 0x1234, (1 << 31) - 1, (1 << 32) - 2] {
        let (low, high) = (Goldilocks::new(x), Goldilocks::new(x + P));
        assert_ne!(low.held_word(), high.held_word());
        assert_eq!(low, high);
        assert!(low <= high && high <= low);
        assert_eq!(HashSet::from([low, high]).len(), 1);
        assert_eq!(low.as_canonical_u64(), high.as_canonical_u64());
        assert_eq!(low.to_bytes(), high.to_bytes());
        assert_eq!(low.slot(32), high.slot(32));
        assert_eq!(low.is_zero(), high.is_zero());
        assert_eq!((low.to_string(), format!("{low:?}")), (x.to_string(), format!("{x:?}")));
        assert_eq!((high.to_string(), format!("{high:?}")), (x.to_string(), format!("{x:?}")));
        assert_eq!(format!("{high:>24}|{high:<24}"), format!("{x:>24}|{x:<24}"));
    }
}

#[test]
fn order_and_default_are_those_of_the_canonical_form() {
    let mut words = [P + 2, 1, P - 1, P].map(Goldilocks::new);
    words.sort();
    assert_eq!(words.map(Goldilocks::as_canonical_u64), [0, 1, 2, P - 1]);
    assert_eq!(Goldilocks::default(), Goldilocks::ZERO);
}
