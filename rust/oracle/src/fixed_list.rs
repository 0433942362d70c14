//! The calls of the fixed list, `crates/replay/stdin`, in their order.

use crate::call::{Call, Operation, Operation::*};
use crate::inputs::{edges, Random, P};
use crate::source::{coding_lengths, Source, LENGTHS};
use std::fmt::Write;

/// The list, a line for each call with what the source answers.
pub fn fixed_list() -> String {
    let mut list = String::new();
    for call in fixed_calls() {
        writeln!(list, "{call} {}", call.outcome::<Source>()).expect("a string takes every line");
    }
    list
}

/// The calls of the list.
pub fn fixed_calls() -> Vec<Call> {
    let mut random = Random::from(1);
    [
        pairs(),
        singles(&mut random),
        shifts(&mut random),
        counted(),
        sums(&mut random),
        dots(&mut random),
        codings(&mut random),
    ]
    .concat()
}

/// Edge words against edge words.
fn pairs() -> Vec<Call> {
    let mut calls = Vec::new();
    for operation in [Add, Sub, Reduce128, Mul, FromU128, Eq, Cmp] {
        for a in edges() {
            calls.extend(edges().into_iter().map(|b| Call::of(operation, a, b)));
        }
    }
    calls
}

/// Operations on one word: edges, also of signed numbers, small words, and random ones.
fn singles(random: &mut Random) -> Vec<Call> {
    const ALL: [Operation; 12] = [
        Neg,
        Square,
        Halve,
        FromI64,
        TryInverse,
        TrySqrt,
        InjectiveExpRootN,
        IsZero,
        AsCanonicalU64,
        FromCanonicalCheckedU64,
        FromCanonicalCheckedI64,
        Value,
    ];
    let mut words = edges();
    words.extend((-2..=2).map(|step| (P / 2).wrapping_neg().wrapping_add_signed(step)));
    words.extend(3..20);
    words.extend((0..20).map(|_| random.word()));
    ALL.iter()
        .flat_map(|&operation| words.iter().map(move |&a| Call::of(operation, a, 0)))
        .collect()
}

/// Every exponent to 400, the largest, and some between.
fn shifts(random: &mut Random) -> Vec<Call> {
    let words = [1, P - 1, P, u64::MAX, random.word(), random.word()];
    let exponents = (0..=400).chain([1 << 32, (1 << 32) + 1, 1 << 63, u64::MAX - 63, u64::MAX - 1, u64::MAX]);
    let mut calls = Vec::new();
    for operation in [Mul2expU64, Div2expU64] {
        for exponent in exponents.clone() {
            calls.extend(words.iter().map(|&x| Call::of(operation, x, exponent)));
        }
    }
    calls
}

/// Generators and slots by their number of bits, beyond 32 too.
fn counted() -> Vec<Call> {
    let bits = (0..=34).chain([63, 64, 65, 1 << 32, u64::MAX]);
    let mut calls: Vec<Call> = bits.clone().map(|bits| Call::of(TwoAdicGenerator, bits, 0)).collect();
    for word in [0, 1, u64::from(u32::MAX), P - 1, P, P + 1, u64::MAX] {
        calls.extend(bits.clone().map(|k| Call::of(Slot, word, k)));
    }
    calls
}

/// First words and steps of lists: the same word all along, words that fall, and two random lists.
fn lists(random: &mut Random) -> Vec<(u64, u64)> {
    let mut lists = vec![(0, 0), (1, 0), (P - 1, 0), (P, 0), (u64::MAX, 0), (u64::MAX, u64::MAX)];
    lists.extend((0..2).map(|_| (random.word(), random.word())));
    lists
}

fn sums(random: &mut Random) -> Vec<Call> {
    let lists = lists(random);
    let of = |n| lists.iter().map(move |&(a, c)| Call::of(SumArray, a, 0).over(c, n, 0));
    LENGTHS.iter().flat_map(|&n| of(n)).collect()
}

/// The same lists against themselves and the largest word, and lists of unequal length.
fn dots(random: &mut Random) -> Vec<Call> {
    let lists = lists(random);
    let of = |n, m| {
        lists
            .iter()
            .flat_map(move |&(a, c)| [a, u64::MAX].map(|b| Call::of(DotProduct, a, b).over(c, n, m)))
    };
    let equal = LENGTHS.iter().flat_map(|&n| of(n, n));
    let unequal = [(0, 1), (1, 0), (1, 2), (3, 2), (64, 65), (4095, 4096), (4096, 4097), (4097, 1), (0, 4097)];
    equal.chain(unequal.iter().flat_map(|&(n, m)| of(n, m))).collect()
}

/// Every length with a buffer that fits, and with buffers that do not; groups out of range at the first place, the second, a middle one and the last.
fn codings(random: &mut Random) -> Vec<Call> {
    let both = |a, c, words, bytes| [Call::of(Encode, a, 0).over(c, words, bytes), Call::of(Decode, a, 0).over(c, bytes, words)];
    let mut calls = Vec::new();
    for &words in coding_lengths() {
        let bytes = 8 * words;
        calls.extend(lists(random).into_iter().flat_map(|(a, c)| both(a, c, words, bytes)));
        for other in [0, bytes.saturating_sub(8), bytes.saturating_sub(1), bytes + 1] {
            calls.extend(both(random.word(), random.word(), words, other));
        }
        for bad in [0, 1, words / 2, words.saturating_sub(1)] {
            // the list is such that the word at this place is out of range
            let (group, c) = (random.one_of(&[P, P + 1, u64::MAX]), random.word());
            let a = group.wrapping_sub(c.wrapping_mul(bad as u64));
            calls.push(Call::of(Decode, a, 0).over(c, bytes, words));
        }
    }
    calls
}
