//! The scalar arithmetic of p3-goldilocks 0.8.0, to compare with: `src/goldilocks.rs` byte for byte, as a module of this crate, over the shims
//! beside it. Nothing of it is in this repository; the build script finds it and tests its sum.
//!
//! [`Arithmetic`] is what is compared, document 01's operations on words; [`Source`] answers by the source. [`Call`] is one call with its inputs,
//! and a line of the fixed list that `crates/replay` reads.
//!
//! The functions outside the source on which an answer depends:
//!
//! | Function | Where | What depends on it |
//! |---|---|---|
//! | `square`, `exp_power_of_2`, `*=` | shims/p3_field | square root |
//! | `exp_10540996611094048183` | shims/p3_field | seventh root; compared in canonical form, by which it is fixed whatever the chain |
//! | `gcd_inner` | shims/p3_util | inverse; compared in canonical form |
//! | `Bytes`, and `[u8; 8]` as a value of serde | src/wire.rs, shims/serde | coding: eight bytes as they are, in place of a format |
//! | the refusals 4 to 7 | src/source.rs | where document 01 refuses what the source takes, panics at, or cannot be asked |

extern crate alloc;

mod arithmetic;
mod call;
mod fixed_list;
mod inputs;
mod source;
mod wire;

include!(concat!(env!("OUT_DIR"), "/source.rs"));

pub use arithmetic::{Answer, Arithmetic, Refused};
pub use call::{Call, Operation, Outcome};
pub use fixed_list::{fixed_calls, fixed_list};
pub use inputs::{edges, Random, P};
pub use source::{coding_lengths, Source, LENGTHS};

// The source's packed lanes are out: where it names one of these as its `Packing`, it gets the scalar type.
#[allow(unused_imports)]
use goldilocks::{Goldilocks as PackedGoldilocksAVX2, Goldilocks as PackedGoldilocksAVX512, Goldilocks as PackedGoldilocksNeon};
