//! The operators: `+`, `-`, `*`, the negative, their assigning forms, and the sum and the product of an iterator.

use super::Goldilocks;
use crate::raw;
use std::iter::{Product, Sum};
use std::ops::{Add, AddAssign, Mul, MulAssign, Neg, Sub, SubAssign};

/// An operator and its assigning form, by a function of the library.
macro_rules! operator {
    ($Operator:ident $operator:ident, $Assigning:ident $assigning:ident, $function:ident) => {
        impl $Operator for Goldilocks {
            type Output = Self;

            #[inline]
            fn $operator(self, rhs: Self) -> Self {
                Self(raw::$function(self.0, rhs.0))
            }
        }

        impl $Assigning for Goldilocks {
            #[inline]
            fn $assigning(&mut self, rhs: Self) {
                *self = $Operator::$operator(*self, rhs);
            }
        }
    };
}

operator!(Add add, AddAssign add_assign, lichenfrock_add);
operator!(Sub sub, SubAssign sub_assign, lichenfrock_sub);
operator!(Mul mul, MulAssign mul_assign, lichenfrock_mul);

impl Neg for Goldilocks {
    type Output = Self;

    #[inline]
    fn neg(self) -> Self {
        Self(raw::lichenfrock_neg(self.0))
    }
}

/// The sum or the product of an iterator, one by one, so that there is no limit and no refusal.
macro_rules! fold {
    ($Fold:ident $fold:ident, $start:ident, $operator:path) => {
        impl $Fold for Goldilocks {
            fn $fold<I: Iterator<Item = Self>>(iter: I) -> Self {
                iter.fold(Self::$start, $operator)
            }
        }

        impl<'a> $Fold<&'a Goldilocks> for Goldilocks {
            fn $fold<I: Iterator<Item = &'a Self>>(iter: I) -> Self {
                iter.copied().fold(Self::$start, $operator)
            }
        }
    };
}

fold!(Sum sum, ZERO, Add::add);
fold!(Product product, ONE, Mul::mul);
