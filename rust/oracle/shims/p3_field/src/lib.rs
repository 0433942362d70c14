//! In place of p3-field: the traits that the source implements, with the items that it gives them, and the macros that it calls.
//!
//! What an answer depends on here: `square`, `exp_power_of_2` and `*=` for the square root, `exp_10540996611094048183` for the seventh root.

use core::ops::{Add, Mul, Neg, Sub};
use num_bigint::BigUint;

pub trait Packable {}

pub trait RawDataSerializable {}

pub trait PrimeCharacteristicRing: Copy + Add<Output = Self> + Sub<Output = Self> + Mul<Output = Self> + Neg<Output = Self> {
    type PrimeSubfield;

    const ZERO: Self;
    const ONE: Self;
    const TWO: Self;
    const NEG_ONE: Self;

    fn from_prime_subfield(f: Self::PrimeSubfield) -> Self;
    fn from_bool(b: bool) -> Self;
    fn halve(&self) -> Self;
    fn mul_2exp_u64(&self, exp: u64) -> Self;
    fn div_2exp_u64(&self, exp: u64) -> Self;
    fn sum_array<const N: usize>(input: &[Self]) -> Self;
    fn dot_product<const N: usize>(lhs: &[Self; N], rhs: &[Self; N]) -> Self;
    fn zero_vec(len: usize) -> Vec<Self>;

    /// The product of the element with itself.
    #[inline]
    fn square(&self) -> Self {
        *self * *self
    }

    /// The element squared so many times.
    #[inline]
    fn exp_power_of_2(&self, power_log: usize) -> Self {
        (0..power_log).fold(*self, |x, _| x.square())
    }
}

pub trait InjectiveMonomial<const N: u64> {}

pub trait PermutationMonomial<const N: u64>: InjectiveMonomial<N> {
    fn injective_exp_root_n(&self) -> Self;
}

pub trait Field: Sized {
    type Packing;

    const GENERATOR: Self;
    const BENEFITS_FROM_LOCKSTEP_EVALUATION: bool;

    fn is_zero(&self) -> bool;
    fn try_inverse(&self) -> Option<Self>;
    fn order() -> BigUint;
    fn try_sqrt(&self) -> Option<Self>;
}

pub trait PrimeField {
    fn as_canonical_biguint(&self) -> BigUint;
}

pub trait PrimeField64 {
    const ORDER_U64: u64;

    fn as_canonical_u64(&self) -> u64;
}

pub trait TwoAdicField {
    const TWO_ADICITY: usize;

    fn two_adic_generator(bits: usize) -> Self;
}

pub trait UniformSamplingField {
    const MAX_SINGLE_SAMPLE_BITS: usize;
    const SAMPLING_BITS_M: [u64; 64];
}

pub mod integers {
    pub trait QuotientMap<Int>: Sized {
        fn from_int(int: Int) -> Self;
        fn from_canonical_checked(int: Int) -> Option<Self>;
        /// # Safety
        /// As the source says of each.
        unsafe fn from_canonical_unchecked(int: Int) -> Self;
    }
}

pub mod exponentiation {
    use super::PrimeCharacteristicRing;

    /// The power by its exponent's bits. The source at hand does not have it: a chain of its own may hold another word of the same element.
    pub fn exp_10540996611094048183<R: PrimeCharacteristicRing>(x: R) -> R {
        (0..64).rev().fold(R::ONE, |power, bit| {
            let squared = power.square();
            if (10540996611094048183_u64 >> bit) & 1 == 1 {
                squared * x
            } else {
                squared
            }
        })
    }
}

/// `*=` by `*`, for one type.
#[macro_export]
macro_rules! impl_mul_methods {
    ($Element:ty) => {
        impl MulAssign for $Element {
            #[inline]
            fn mul_assign(&mut self, rhs: Self) {
                *self = *self * rhs;
            }
        }
    };
}

/// Macros whose methods nothing here calls.
#[macro_export]
macro_rules! nothing {
    ($($anything:tt)*) => {};
}

pub use nothing as impl_raw_serializable_primefield64;
pub use nothing as quotient_map_large_iint;
pub use nothing as quotient_map_small_int;

pub mod op_assign_macros {
    pub use crate::impl_mul_methods;
    pub use crate::nothing as impl_add_assign;
    pub use crate::nothing as impl_div_methods;
    pub use crate::nothing as impl_sub_assign;
}
