//! One call with its inputs, and a line of the fixed list: what `crates/replay` reads, in columns of fixed width.

use crate::arithmetic::{Answer, Arithmetic, Refused};
use std::fmt;

macro_rules! operations {
    ($($Operation:ident $name:literal)*) => {
        /// Document 01's operations, in the order of `crates/goldilocks`.
        #[derive(Clone, Copy, Debug, PartialEq, Eq)]
        pub enum Operation {
            $($Operation),*
        }

        impl Operation {
            pub const ALL: &[Operation] = &[$(Operation::$Operation),*];

            pub fn name(self) -> &'static str {
                match self {
                    $(Operation::$Operation => $name),*
                }
            }
        }
    };
}

operations! {
    Add "add"
    Sub "sub"
    Neg "neg"
    Reduce128 "reduce128"
    Mul "mul"
    Square "square"
    Halve "halve"
    SumArray "sum_array"
    DotProduct "dot_product"
    FromI64 "from_i64"
    FromU128 "from_u128"
    Mul2expU64 "mul_2exp_u64"
    Div2expU64 "div_2exp_u64"
    TryInverse "try_inverse"
    TrySqrt "try_sqrt"
    InjectiveExpRootN "injective_exp_root_n"
    TwoAdicGenerator "two_adic_generator"
    Eq "eq"
    Cmp "cmp"
    IsZero "is_zero"
    Slot "slot"
    Encode "encode"
    Decode "decode"
    AsCanonicalU64 "as_canonical_u64"
    FromCanonicalCheckedU64 "from_canonical_checked_u64"
    FromCanonicalCheckedI64 "from_canonical_checked_i64"
    Value "value"
}

/// An operation and its inputs: two words, of which a signed number is the first by its bits. A list is `n` words from `a` in steps of `c`, modulo
/// 2^64, a second one `m` words from `b`. Coding takes `n` words or bytes and is lent `m` bytes or words.
#[derive(Clone, Copy, Debug, PartialEq, Eq)]
pub struct Call {
    pub operation: Operation,
    pub a: u64,
    pub b: u64,
    pub c: u64,
    pub n: usize,
    pub m: usize,
}

/// What a call answered, in numbers: the refusal and the index beside it, or zeros; the word, 0 where refused. A test answers 0 or 1, an order 0, 1
/// or 2, and coding the digest of what it was lent.
#[derive(Clone, Copy, Debug, PartialEq, Eq)]
pub struct Outcome {
    pub number: u64,
    pub index: usize,
    pub word: u64,
}

impl From<Answer> for Outcome {
    fn from(answer: Answer) -> Self {
        match answer {
            Ok(word) => Self { number: 0, index: 0, word },
            Err(Refused { number, index }) => Self { number, index, word: 0 },
        }
    }
}

/// What lent memory holds before a call, byte for byte.
const LENT: u8 = 0xA5;

impl Call {
    /// An operation on two words.
    pub fn of(operation: Operation, a: u64, b: u64) -> Self {
        let (c, n, m) = (0, 0, 0);
        Self { operation, a, b, c, n, m }
    }

    /// The same on lists, or on a list and a buffer.
    pub fn over(self, c: u64, n: usize, m: usize) -> Self {
        Self { c, n, m, ..self }
    }

    /// Asks it.
    pub fn outcome<A: Arithmetic>(&self) -> Outcome {
        use Operation::*;
        let &Call { operation, a, b, c, n, m } = self;
        let answer = match operation {
            Add => Ok(A::add(a, b)),
            Sub => Ok(A::sub(a, b)),
            Neg => Ok(A::neg(a)),
            Reduce128 => Ok(A::reduce128(a, b)),
            Mul => Ok(A::mul(a, b)),
            Square => Ok(A::square(a)),
            Halve => Ok(A::halve(a)),
            SumArray => A::sum_array(&words(a, c, n)),
            DotProduct => A::dot_product(&words(a, c, n), &words(b, c, m)),
            FromI64 => Ok(A::from_i64(a as i64)),
            FromU128 => Ok(A::from_u128(a, b)),
            Mul2expU64 => Ok(A::mul_2exp_u64(a, b)),
            Div2expU64 => Ok(A::div_2exp_u64(a, b)),
            TryInverse => A::try_inverse(a),
            TrySqrt => A::try_sqrt(a),
            InjectiveExpRootN => Ok(A::injective_exp_root_n(a)),
            TwoAdicGenerator => A::two_adic_generator(a),
            Eq => Ok(A::eq(a, b).into()),
            Cmp => Ok((1 + A::cmp(a, b) as i8) as u64),
            IsZero => Ok(A::is_zero(a).into()),
            Slot => A::slot(a, b),
            Encode | Decode => return self.coded::<A>(),
            AsCanonicalU64 => Ok(A::as_canonical_u64(a)),
            FromCanonicalCheckedU64 => A::from_canonical_checked_u64(a),
            FromCanonicalCheckedI64 => A::from_canonical_checked_i64(a as i64),
            Value => Ok(A::value(a)),
        };
        answer.into()
    }

    /// Asks for a coding. The word is the digest of what was lent, also where it is refused.
    fn coded<A: Arithmetic>(&self) -> Outcome {
        let &Call { operation, a, c, n, m, .. } = self;
        let (answer, word) = if operation == Operation::Encode {
            let mut lent = vec![LENT; m];
            let answer = A::encode(&words(a, c, n), &mut lent);
            (answer, digest(lent.into_iter().map(u64::from)))
        } else {
            let bytes = words(a, c, n.div_ceil(8)).into_iter().flat_map(u64::to_le_bytes).take(n).collect::<Vec<_>>();
            let mut lent = vec![u64::from_le_bytes([LENT; 8]); m];
            let answer = A::decode(&bytes, &mut lent);
            (answer, digest(lent.into_iter()))
        };
        Outcome {
            word,
            ..answer.map(|()| 0).into()
        }
    }
}

/// `count` words from `first` in steps of `step`, modulo 2^64.
fn words(first: u64, step: u64, count: usize) -> Vec<u64> {
    (0..count as u64).map(|i| first.wrapping_add(step.wrapping_mul(i))).collect()
}

/// What was lent, in one word: a step of the generator xorshift64 after each item.
fn digest(items: impl Iterator<Item = u64>) -> u64 {
    items.fold(1, |mut digest, item| {
        digest ^= item;
        digest ^= digest << 13;
        digest ^= digest >> 7;
        digest ^ digest << 17
    })
}

impl fmt::Display for Call {
    fn fmt(&self, f: &mut fmt::Formatter) -> fmt::Result {
        let Call { operation, a, b, c, n, m } = self;
        write!(f, "{:26} {a:016X} {b:016X} {c:016X} {n:04X} {m:04X}", operation.name())
    }
}

impl fmt::Display for Outcome {
    fn fmt(&self, f: &mut fmt::Formatter) -> fmt::Result {
        let Outcome { number, index, word } = self;
        write!(f, "{number:02X} {index:04X} {word:016X}")
    }
}
