use std::fmt;

/// Why an operation was refused, with the paper's number. Its text is the paper's, or says more where several operations share the number.
///
/// A refusal changes nothing: every lent buffer is as it was.
///
/// ```
/// use lichenfrock::{Goldilocks, Refusal};
///
/// let refusal = Goldilocks::ZERO.try_inverse().unwrap_err();
/// assert_eq!(refusal, Refusal::InverseOfZero);
/// assert_eq!(refusal.number(), 2);
/// assert_eq!(refusal.to_string(), "inverse of zero");
/// ```
#[derive(Clone, Copy, Debug, PartialEq, Eq, Hash)]
#[non_exhaustive]
pub enum Refusal {
    /// 1: not canonical, or i64 out of range.
    OutOfRange {
        /// The first group of bytes that is not canonical, counted from 0; 0 where no bytes were read.
        index: usize,
    },
    /// 2: inverse of zero.
    InverseOfZero,
    /// 3: no element squares to the input.
    NoSquareRoot,
    /// 4: dot: the two lengths differ.
    LengthsDiffer,
    /// 5: more words or pairs than the operation takes; the text says how many each takes.
    TooMany,
    /// 6: a lent buffer or list hasn't the length that it must have. In a coding: byte buffer isn't 8 times the word count.
    WrongLength,
    /// 7: generator or slot above 32.
    Above32,
}

impl Refusal {
    /// The paper's number, from 1.
    ///
    /// ```
    /// use lichenfrock::Goldilocks;
    ///
    /// assert_eq!(Goldilocks::new(7).try_sqrt().unwrap_err().number(), 3);
    /// ```
    pub fn number(self) -> u64 {
        match self {
            Refusal::OutOfRange { .. } => 1,
            Refusal::InverseOfZero => 2,
            Refusal::NoSquareRoot => 3,
            Refusal::LengthsDiffer => 4,
            Refusal::TooMany => 5,
            Refusal::WrongLength => 6,
            Refusal::Above32 => 7,
        }
    }

    /// The index of the first group of bytes that is not canonical, 0 for every other refusal.
    ///
    /// ```
    /// use lichenfrock::Goldilocks;
    ///
    /// let mut bytes = [0; 24];
    /// bytes[16..].fill(0xFF);
    /// let refusal = Goldilocks::decode(&bytes, &mut [Goldilocks::ZERO; 3]).unwrap_err();
    /// assert_eq!(refusal.index(), 2);
    /// ```
    pub fn index(self) -> usize {
        match self {
            Refusal::OutOfRange { index } => index,
            _ => 0,
        }
    }

    /// What the library's number and index say: nothing is refused at 0.
    pub(crate) fn told(number: u64, index: u64) -> Result<(), Refusal> {
        Err(match number {
            0 => return Ok(()),
            1 => Refusal::OutOfRange { index: index as usize },
            2 => Refusal::InverseOfZero,
            3 => Refusal::NoSquareRoot,
            4 => Refusal::LengthsDiffer,
            5 => Refusal::TooMany,
            6 => Refusal::WrongLength,
            7 => Refusal::Above32,
            _ => unreachable!("it is proved that no operation is refused {number}"),
        })
    }
}

impl fmt::Display for Refusal {
    fn fmt(&self, f: &mut fmt::Formatter<'_>) -> fmt::Result {
        f.write_str(match self {
            Refusal::OutOfRange { .. } => "not canonical, or i64 out of range",
            Refusal::InverseOfZero => "inverse of zero",
            Refusal::NoSquareRoot => "no element squares to the input",
            Refusal::LengthsDiffer => "dot: the two lengths differ",
            Refusal::TooMany => "more than 4,096 words or pairs in a sum or dot product, or more than 4,096 words in a coding",
            Refusal::WrongLength => "a lent buffer or list hasn't the length that it must have",
            Refusal::Above32 => "generator or slot above 32",
        })
    }
}

impl std::error::Error for Refusal {}
