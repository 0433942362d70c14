//! Proved arithmetic modulo the prime P = 2^64 - 2^32 + 1, for Rust.
//!
//! [`Goldilocks`] is an element, a whole number modulo P. What its operations answer is proved, for every input, of the code that the archive under this
//! crate was compiled from; this crate only passes words to it and answers back.
//!
//! An element may be held as two words, x and x + P. Nothing that leaves a `Goldilocks` shows which: the canonical form, bytes, equality, order, hashes,
//! slots, `Display` and `Debug` go by the element. The one exception has a name that says so, [`Goldilocks::held_word`].
//!
//! Nothing panics and nothing asks anything of its caller: what cannot be answered is a [`Refusal`].
//!
//! ```
//! use lichenfrock::{Goldilocks, Refusal};
//!
//! # fn main() -> Result<(), Refusal> {
//! let key = Goldilocks::new(0xFEED_5EED);
//! let seed = Goldilocks::from_i64(-3);
//! let place = key * seed + Goldilocks::ONE;
//! assert_eq!(place.slot(12)?, 0x33B);
//! assert_eq!((place - Goldilocks::ONE) * seed.try_inverse()?, key);
//! # Ok(())
//! # }
//! ```
//!
//! # The archive
//!
//! The build links `liblichenfrock.a`. It takes it from the folder that the variable `LICHENFROCK_LIB_DIR` names; without the variable, `rt` of the Rattle
//! kit proves and compiles it; and without `rt`, the one that was made earlier in this repository serves, with a warning.

mod goldilocks;
mod raw;
mod refusal;

pub use goldilocks::Goldilocks;
pub use refusal::Refusal;
