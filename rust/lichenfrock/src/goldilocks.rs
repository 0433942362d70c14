mod operators;
mod seen;

use crate::raw;
use crate::Refusal;

/// An element: a whole number modulo P = 2^64 - 2^32 + 1.
///
/// Equality, order, hashes, `Display` and `Debug` are those of the canonical form, the number below P.
///
/// ```
/// use lichenfrock::Goldilocks;
///
/// let zero = Goldilocks::new(Goldilocks::ORDER_U64);
/// assert_eq!(zero, Goldilocks::ZERO);
/// assert!(zero < Goldilocks::ONE);
/// assert_eq!(format!("{zero} {zero:?}"), "0 0");
/// ```
///
/// `+`, `-`, `*`, `+=`, `-=`, `*=` and the negative are the field's, and so are the sum and the product of an iterator.
///
/// ```
/// use lichenfrock::Goldilocks;
///
/// let mut place = Goldilocks::TWO - Goldilocks::new(5);
/// assert_eq!(place, -Goldilocks::new(3));
/// place *= place;
/// place += Goldilocks::ONE;
/// assert_eq!(place, (1..=4).map(Goldilocks::new).sum());
/// ```
#[derive(Clone, Copy, Default)]
#[repr(transparent)] // So that a slice of elements is a slice of words, and is lent as it stands.
pub struct Goldilocks(u64);

/// The answer that a refusable operation leaves.
#[inline]
fn answered(ask: impl FnOnce(&mut u64) -> u64) -> Result<u64, Refusal> {
    let mut word = 0;
    let number = ask(&mut word);
    Refusal::told(number, 0).map(|()| word)
}

/// The low and the high limb.
#[inline]
fn limbs(int: u128) -> (u64, u64) {
    (int as u64, (int >> 64) as u64)
}

impl Goldilocks {
    /// P, 2^64 - 2^32 + 1.
    pub const ORDER_U64: u64 = 0xFFFF_FFFF_0000_0001;
    /// The element 0.
    pub const ZERO: Self = Self(0);
    /// The element 1.
    pub const ONE: Self = Self(1);
    /// The element 2.
    pub const TWO: Self = Self(2);
    /// The element P - 1.
    pub const NEG_ONE: Self = Self(Self::ORDER_U64 - 1);

    /// The element that any word stands for, its remainder by P.
    ///
    /// ```
    /// use lichenfrock::Goldilocks;
    ///
    /// assert_eq!(Goldilocks::new(u64::MAX).as_canonical_u64(), 0xFFFF_FFFE);
    /// ```
    pub const fn new(word: u64) -> Self {
        Self(word)
    }

    /// The element of a number of 128 bits, held in one word that need not be canonical.
    ///
    /// ```
    /// use lichenfrock::Goldilocks;
    ///
    /// assert_eq!(Goldilocks::reduce128(u128::MAX), Goldilocks::from_u128(u128::MAX));
    /// ```
    #[inline]
    pub fn reduce128(x: u128) -> Self {
        let (lo, hi) = limbs(x);
        Self(raw::lichenfrock_reduce128(lo, hi))
    }

    /// The square of the element.
    ///
    /// ```
    /// use lichenfrock::Goldilocks;
    ///
    /// assert_eq!(Goldilocks::new(1 << 48).square(), Goldilocks::NEG_ONE);
    /// ```
    #[inline]
    pub fn square(self) -> Self {
        Self(raw::lichenfrock_square(self.0))
    }

    /// Half of the element: twice the answer is the element.
    ///
    /// ```
    /// use lichenfrock::Goldilocks;
    ///
    /// assert_eq!(Goldilocks::ONE.halve() + Goldilocks::ONE.halve(), Goldilocks::ONE);
    /// ```
    #[inline]
    pub fn halve(self) -> Self {
        Self(raw::lichenfrock_halve(self.0))
    }

    /// The sum of up to 4,096 elements, which are lent as they stand. More are refused 5; `Sum` adds any number of them.
    ///
    /// ```
    /// use lichenfrock::{Goldilocks, Refusal};
    ///
    /// let shard = vec![Goldilocks::TWO; 4_097];
    /// assert_eq!(Goldilocks::sum_array(&shard[1..]), Ok(Goldilocks::new(8_192)));
    /// assert_eq!(Goldilocks::sum_array(&shard), Err(Refusal::TooMany));
    /// ```
    #[inline]
    pub fn sum_array(input: &[Self]) -> Result<Self, Refusal> {
        // SAFETY: the pointer and the length are those of a slice of words.
        answered(|word| unsafe { raw::lichenfrock_sum_array(input.as_ptr().cast(), input.len(), word) }).map(Self)
    }

    /// The sum of the products of up to 4,096 pairs, which are lent as they stand. Different lengths are refused 4, then more pairs 5.
    ///
    /// ```
    /// use lichenfrock::{Goldilocks, Refusal};
    ///
    /// let weights = [Goldilocks::TWO, Goldilocks::NEG_ONE];
    /// let words = [Goldilocks::new(30), Goldilocks::new(18)];
    /// assert_eq!(Goldilocks::dot_product(&weights, &words), Ok(Goldilocks::new(42)));
    /// assert_eq!(Goldilocks::dot_product(&weights, &words[1..]), Err(Refusal::LengthsDiffer));
    /// ```
    #[inline]
    pub fn dot_product(lhs: &[Self], rhs: &[Self]) -> Result<Self, Refusal> {
        // SAFETY: each pointer and the length after it are those of a slice of words.
        answered(|word| unsafe { raw::lichenfrock_dot_product(lhs.as_ptr().cast(), lhs.len(), rhs.as_ptr().cast(), rhs.len(), word) }).map(Self)
    }

    /// The element of a signed number.
    ///
    /// ```
    /// use lichenfrock::Goldilocks;
    ///
    /// assert_eq!(Goldilocks::from_i64(-1), Goldilocks::NEG_ONE);
    /// ```
    #[inline]
    pub fn from_i64(n: i64) -> Self {
        Self(raw::lichenfrock_from_i64(n))
    }

    /// The element of a number of 128 bits, held canonical.
    ///
    /// ```
    /// use lichenfrock::Goldilocks;
    ///
    /// assert_eq!(Goldilocks::from_u128(1 << 96), Goldilocks::NEG_ONE);
    /// ```
    #[inline]
    pub fn from_u128(int: u128) -> Self {
        let (lo, hi) = limbs(int);
        Self(raw::lichenfrock_from_u128(lo, hi))
    }

    /// The element times 2^exp, for any exponent.
    ///
    /// ```
    /// use lichenfrock::Goldilocks;
    ///
    /// assert_eq!(Goldilocks::ONE.mul_2exp_u64(96), Goldilocks::NEG_ONE);
    /// assert_eq!(Goldilocks::ONE.mul_2exp_u64(192), Goldilocks::ONE);
    /// ```
    #[inline]
    pub fn mul_2exp_u64(self, exp: u64) -> Self {
        Self(raw::lichenfrock_mul_2exp_u64(self.0, exp))
    }

    /// The element divided by 2^exp, for any exponent.
    ///
    /// ```
    /// use lichenfrock::Goldilocks;
    ///
    /// assert_eq!(Goldilocks::new(40).div_2exp_u64(3), Goldilocks::new(5));
    /// ```
    #[inline]
    pub fn div_2exp_u64(self, exp: u64) -> Self {
        Self(raw::lichenfrock_div_2exp_u64(self.0, exp))
    }

    /// The element whose product with this one is 1. Zero has none, and is refused 2.
    ///
    /// ```
    /// use lichenfrock::{Goldilocks, Refusal};
    ///
    /// let third = Goldilocks::new(3).try_inverse()?;
    /// assert_eq!(third * Goldilocks::new(3), Goldilocks::ONE);
    /// assert_eq!(Goldilocks::ZERO.try_inverse(), Err(Refusal::InverseOfZero));
    /// # Ok::<(), Refusal>(())
    /// ```
    #[inline]
    pub fn try_inverse(self) -> Result<Self, Refusal> {
        answered(|word| raw::lichenfrock_try_inverse(self.0, word)).map(Self)
    }

    /// A square root, the one that the Rust finds. Where no element squares to this one it is refused 3.
    ///
    /// ```
    /// use lichenfrock::{Goldilocks, Refusal};
    ///
    /// assert_eq!(Goldilocks::NEG_ONE.try_sqrt(), Ok(Goldilocks::new(1 << 48)));
    /// assert_eq!(Goldilocks::new(7).try_sqrt(), Err(Refusal::NoSquareRoot));
    /// ```
    #[inline]
    pub fn try_sqrt(self) -> Result<Self, Refusal> {
        answered(|word| raw::lichenfrock_try_sqrt(self.0, word)).map(Self)
    }

    /// The seventh root, which every element has.
    ///
    /// ```
    /// use lichenfrock::Goldilocks;
    ///
    /// let root = Goldilocks::TWO.injective_exp_root_n();
    /// assert_eq!(root.square().square() * root.square() * root, Goldilocks::TWO);
    /// ```
    #[inline]
    pub fn injective_exp_root_n(self) -> Self {
        Self(raw::lichenfrock_injective_exp_root_n(self.0))
    }

    /// The generator of the group of 2^bits elements. Above 32 it is refused 7.
    ///
    /// ```
    /// use lichenfrock::{Goldilocks, Refusal};
    ///
    /// assert_eq!(Goldilocks::two_adic_generator(1), Ok(Goldilocks::NEG_ONE));
    /// assert_eq!(Goldilocks::two_adic_generator(33), Err(Refusal::Above32));
    /// ```
    #[inline]
    pub fn two_adic_generator(bits: u64) -> Result<Self, Refusal> {
        answered(|word| raw::lichenfrock_two_adic_generator(bits, word)).map(Self)
    }

    /// Whether the element is 0, which may be held as 0 and as P.
    ///
    /// ```
    /// use lichenfrock::Goldilocks;
    ///
    /// assert!((-Goldilocks::ZERO).is_zero());
    /// ```
    #[inline]
    pub fn is_zero(self) -> bool {
        raw::lichenfrock_is_zero(self.0)
    }

    /// The slot of k bits: the low k bits of the canonical form. Above 32 it is refused 7.
    ///
    /// ```
    /// use lichenfrock::{Goldilocks, Refusal};
    ///
    /// assert_eq!(Goldilocks::NEG_ONE.slot(32), Ok(0));
    /// assert_eq!(Goldilocks::new(0x1234).slot(8), Ok(0x34));
    /// assert_eq!(Goldilocks::ONE.slot(33), Err(Refusal::Above32));
    /// ```
    #[inline]
    pub fn slot(self, k: u64) -> Result<u64, Refusal> {
        answered(|word| raw::lichenfrock_slot(self.0, k, word))
    }

    /// Writes each element as 8 bytes, canonical and little-endian, into a buffer of exactly that size. More than 4,096 elements are refused 5, then a
    /// buffer of another size 6.
    ///
    /// ```
    /// use lichenfrock::{Goldilocks, Refusal};
    ///
    /// let mut bytes = [0; 16];
    /// Goldilocks::encode(&[Goldilocks::ONE, Goldilocks::NEG_ONE], &mut bytes)?;
    /// assert_eq!(bytes, [1, 0, 0, 0, 0, 0, 0, 0, 0, 0, 0, 0, 0xFF, 0xFF, 0xFF, 0xFF]);
    /// assert_eq!(Goldilocks::encode(&[Goldilocks::ONE], &mut bytes), Err(Refusal::WrongLength));
    /// # Ok::<(), Refusal>(())
    /// ```
    #[inline]
    pub fn encode(words: &[Self], bytes: &mut [u8]) -> Result<(), Refusal> {
        let mut index = 0;
        // SAFETY: each pointer and the length after it are those of a slice, and only one borrow may write to the second.
        let number = unsafe { raw::lichenfrock_encode(words.as_ptr().cast(), words.len(), bytes.as_mut_ptr(), bytes.len(), &mut index) };
        Refusal::told(number, index)
    }

    /// Reads the elements of such a buffer. It is refused as [`Goldilocks::encode`] is, then 1 where a group of 8 bytes is P or more, with the index of the
    /// first such group; the words are then as they were.
    ///
    /// ```
    /// use lichenfrock::{Goldilocks, Refusal};
    ///
    /// let mut words = [Goldilocks::TWO; 2];
    /// let mut bytes = [0; 16];
    /// bytes[8..].fill(0xFF);
    /// assert_eq!(Goldilocks::decode(&bytes, &mut words), Err(Refusal::OutOfRange { index: 1 }));
    /// assert_eq!(words, [Goldilocks::TWO; 2]);
    /// ```
    #[inline]
    pub fn decode(bytes: &[u8], words: &mut [Self]) -> Result<(), Refusal> {
        let mut index = 0;
        // SAFETY: each pointer and the length after it are those of a slice, and only one borrow may write to the second.
        let number = unsafe { raw::lichenfrock_decode(bytes.as_ptr(), bytes.len(), words.as_mut_ptr().cast(), words.len(), &mut index) };
        Refusal::told(number, index)
    }

    /// The element as 8 bytes, canonical and little-endian.
    ///
    /// ```
    /// use lichenfrock::Goldilocks;
    ///
    /// assert_eq!(Goldilocks::new(Goldilocks::ORDER_U64).to_bytes(), [0; 8]);
    /// ```
    #[inline]
    pub fn to_bytes(self) -> [u8; 8] {
        let mut bytes = [0; 8];
        Self::encode(&[self], &mut bytes).expect("one word takes 8 bytes");
        bytes
    }

    /// The element of 8 bytes. Where they are not canonical it is refused 1.
    ///
    /// ```
    /// use lichenfrock::Goldilocks;
    ///
    /// assert_eq!(Goldilocks::from_bytes([7, 0, 0, 0, 0, 0, 0, 0]), Ok(Goldilocks::new(7)));
    /// assert_eq!(Goldilocks::from_bytes([0xFF; 8]).unwrap_err().number(), 1);
    /// ```
    #[inline]
    pub fn from_bytes(bytes: [u8; 8]) -> Result<Self, Refusal> {
        let mut words = [Self::ZERO];
        Self::decode(&bytes, &mut words).map(|()| words[0])
    }

    /// The canonical form, the number below P: what seeds, files and other programs are to see.
    ///
    /// ```
    /// use lichenfrock::Goldilocks;
    ///
    /// assert_eq!((-Goldilocks::ZERO).as_canonical_u64(), 0);
    /// ```
    #[inline]
    pub fn as_canonical_u64(self) -> u64 {
        raw::lichenfrock_as_canonical_u64(self.0)
    }

    /// The element of a word below P. Any other word is refused 1.
    ///
    /// ```
    /// use lichenfrock::{Goldilocks, Refusal};
    ///
    /// assert_eq!(Goldilocks::from_canonical_checked_u64(5), Ok(Goldilocks::new(5)));
    /// assert_eq!(Goldilocks::from_canonical_checked_u64(Goldilocks::ORDER_U64), Err(Refusal::OutOfRange { index: 0 }));
    /// ```
    #[inline]
    pub fn from_canonical_checked_u64(x: u64) -> Result<Self, Refusal> {
        answered(|word| raw::lichenfrock_from_canonical_checked_u64(x, word)).map(Self)
    }

    /// The element of a number from -(2^63 - 2^31) to 2^63 - 2^31, both included. Any other number is refused 1.
    ///
    /// ```
    /// use lichenfrock::{Goldilocks, Refusal};
    ///
    /// assert_eq!(Goldilocks::from_canonical_checked_i64(-1), Ok(Goldilocks::NEG_ONE));
    /// assert_eq!(Goldilocks::from_canonical_checked_i64(i64::MAX), Err(Refusal::OutOfRange { index: 0 }));
    /// ```
    #[inline]
    pub fn from_canonical_checked_i64(n: i64) -> Result<Self, Refusal> {
        answered(|word| raw::lichenfrock_from_canonical_checked_i64(n, word)).map(Self)
    }

    /// The raw word that holds the element now: x or x + P, as the operations before it left it. Equal elements may show different words, so it must not
    /// seed, place or name anything; [`Goldilocks::as_canonical_u64`] is for that.
    ///
    /// ```
    /// use lichenfrock::Goldilocks;
    ///
    /// let zero = -Goldilocks::ZERO;
    /// assert_eq!(zero, Goldilocks::ZERO);
    /// assert_eq!(zero.held_word(), Goldilocks::ORDER_U64);
    /// ```
    #[inline]
    pub fn held_word(self) -> u64 {
        raw::lichenfrock_value(self.0)
    }
}
