//! Calls on which both are asked: those of the fixed list, and random ones.

use crate::library::Library;
use oracle::{coding_lengths, edges, fixed_calls, Arithmetic, Call, Operation, Random, Source, LENGTHS, P};
use std::fmt::Debug;

/// Asks both the calls of the fixed list. Answers how many, and hands over each that differs.
pub fn compare_fixed(mut differs: impl FnMut(String)) -> u64 {
    let calls = fixed_calls();
    for call in &calls {
        if let Err(difference) = same_outcome(call) {
            differs(difference);
        }
    }
    calls.len() as u64
}

/// Asks both `calls` random calls from a seed. Hands over each that differs.
pub fn compare(calls: u64, seed: u64, mut differs: impl FnMut(String)) {
    let mut inputs = Inputs {
        random: Random::from(seed),
        edges: edges(),
    };
    for number in 0..calls {
        if let Err(difference) = inputs.compare_one() {
            differs(format!("call {number} of seed {seed}: {difference}"));
        }
    }
}

/// A line of the fixed list, and what the library answered in place of its end.
fn same_outcome(call: &Call) -> Result<(), String> {
    let (theirs, ours) = (call.outcome::<Source>(), call.outcome::<Library>());
    same(|| call.to_string(), theirs, ours)
}

fn same<T: PartialEq + Debug>(what: impl FnOnce() -> String, theirs: T, ours: T) -> Result<(), String> {
    if theirs == ours {
        return Ok(());
    }
    Err(format!("{}\n    the Rust:    {theirs:X?}\n    the library: {ours:X?}", what()))
}

struct Inputs {
    random: Random,
    edges: Vec<u64>,
}

impl Inputs {
    fn compare_one(&mut self) -> Result<(), String> {
        use Operation::*;
        let operation = self.random.one_of(Operation::ALL);
        match operation {
            SumArray => self.sums(),
            DotProduct => self.dots(),
            Encode => self.encodings(),
            Decode => self.decodings(),
            TryInverse => self.inverses(),
            InjectiveExpRootN => self.seventh_roots(),
            Mul2expU64 | Div2expU64 => same_outcome(&Call::of(operation, self.word(), self.exponent())),
            TwoAdicGenerator => same_outcome(&Call::of(operation, self.exponent(), 0)),
            Slot => same_outcome(&Call::of(operation, self.word(), self.exponent())),
            _ => {
                let x = self.word();
                same_outcome(&Call::of(operation, x, self.beside(x)))
            }
        }
    }

    /// Any word, an edge, a number of any size, or the negative of one.
    fn word(&mut self) -> u64 {
        let size = self.random.below(64);
        match self.random.below(4) {
            0 => self.random.word(),
            1 => self.random.one_of(&self.edges),
            2 => self.random.word() >> size,
            _ => (self.random.word() >> size).wrapping_neg(),
        }
    }

    /// A second word: now and then the first, or the other word of its element.
    fn beside(&mut self, x: u64) -> u64 {
        match self.random.below(8) {
            0 => x,
            1 if x < P => x.checked_add(P).unwrap_or(x),
            1 => x - P,
            _ => self.word(),
        }
    }

    fn words(&mut self, count: usize) -> Vec<u64> {
        (0..count).map(|_| self.word()).collect()
    }

    /// Mostly up to 400, where the rules turn.
    fn exponent(&mut self) -> u64 {
        match self.random.below(8) {
            0 => self.word(),
            1 | 2 => self.random.below(36) as u64,
            _ => self.random.below(401) as u64,
        }
    }

    /// One of these lengths, mostly a short one, since a long one takes as long as a thousand other calls.
    fn length(&mut self, lengths: &[usize]) -> usize {
        let lengths = if self.random.below(16) == 0 { lengths } else { &lengths[..18] };
        self.random.one_of(lengths)
    }

    fn sums(&mut self) -> Result<(), String> {
        let length = self.length(LENGTHS);
        let words = self.words(length);
        same(|| format!("sum_array of {words:X?}"), Source::sum_array(&words), Library::sum_array(&words))
    }

    fn dots(&mut self) -> Result<(), String> {
        let length = self.length(LENGTHS);
        let other = if self.random.below(16) == 0 { self.length(LENGTHS) } else { length };
        let (lhs, rhs) = (self.words(length), self.words(other));
        same(
            || format!("dot_product of {lhs:X?} and {rhs:X?}"),
            Source::dot_product(&lhs, &rhs),
            Library::dot_product(&lhs, &rhs),
        )
    }

    /// A length in bytes for so many words, now and then a wrong one.
    fn bytes_for(&mut self, words: usize) -> usize {
        match self.random.below(16) {
            0 => (8 * words).saturating_sub(1 + self.random.below(9)),
            1 => 8 * words + 1 + self.random.below(9),
            _ => 8 * words,
        }
    }

    /// Answers and buffers, which hold random bytes before.
    fn encodings(&mut self) -> Result<(), String> {
        let length = self.length(coding_lengths());
        let words = self.words(length);
        let mut theirs: Vec<u8> = (0..self.bytes_for(length)).map(|_| self.random.word() as u8).collect();
        let mut ours = theirs.clone();
        let answers = (Source::encode(&words, &mut theirs), Library::encode(&words, &mut ours));
        let bytes = ours.len();
        same(|| format!("encode of {words:X?} in {bytes} bytes"), (answers.0, theirs), (answers.1, ours))
    }

    /// Groups below P, but for one in every second call; now and then any words.
    fn decodings(&mut self) -> Result<(), String> {
        let length = self.length(coding_lengths());
        let mut groups = self.words(length);
        if self.random.below(8) != 0 {
            groups.iter_mut().for_each(|group| *group = Source::as_canonical_u64(*group));
            if length > 0 && self.random.below(2) == 0 {
                let place = self.random.below(length);
                groups[place] = u64::MAX - (self.random.word() >> 32) % 0xFFFF_FFFF;
            }
        }
        let mut bytes: Vec<u8> = groups.into_iter().flat_map(u64::to_le_bytes).collect();
        bytes.resize(self.bytes_for(length), 0xFF);
        let mut theirs = self.words(length);
        let mut ours = theirs.clone();
        let answers = (Source::decode(&bytes, &mut theirs), Library::decode(&bytes, &mut ours));
        same(|| format!("decode of {bytes:X?} in {length} words"), (answers.0, theirs), (answers.1, ours))
    }

    /// The Rust's GCD steps are not at hand, so that its product is asked besides: x times the inverse is 1.
    fn inverses(&mut self) -> Result<(), String> {
        let x = self.word();
        same_outcome(&Call::of(Operation::TryInverse, x, 0))?;
        Library::try_inverse(x).map_or(Ok(()), |inverse| {
            same(|| format!("{x:X} times its inverse"), 1, Source::as_canonical_u64(Source::mul(x, inverse)))
        })
    }

    /// Nor is its chain for the seventh root: the seventh power by its product is x.
    fn seventh_roots(&mut self) -> Result<(), String> {
        let x = self.word();
        same_outcome(&Call::of(Operation::InjectiveExpRootN, x, 0))?;
        let root = Library::injective_exp_root_n(x);
        let cube = Source::mul(Source::square(root), root);
        let seventh = Source::mul(Source::square(cube), root);
        same(
            || format!("the seventh power of the seventh root of {x:X}"),
            Source::as_canonical_u64(x),
            Source::as_canonical_u64(seventh),
        )
    }
}
