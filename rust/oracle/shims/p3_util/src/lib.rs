//! In place of p3-util.

/// Asks the compiler for a branch where it would choose a conditional move. It answers nothing.
#[inline(always)]
pub fn branch_hint() {
    // SAFETY: there is no instruction in it.
    unsafe { core::arch::asm!("", options(nomem, nostack, preserves_flags)) }
}

/// Asked for by `zero_vec`, which nothing here calls.
///
/// # Safety
/// It never answers.
pub unsafe fn flatten_to_base<Base, Element>(_: Vec<Base>) -> Vec<Element> {
    unimplemented!("zero_vec is not compared")
}

/// `ROUNDS` steps of the binary GCD on any `a` and an odd `b`. The answer is (f0, g0, f1, g1) such that 2^`ROUNDS` times the `a` that is left is
/// f0 times the first `a` plus g0 times the first `b`, and the same of the `b` that is left with f1 and g1. A factor of 2^63 goes out as -2^63.
///
/// The source at hand does not have it: these are the usual steps of a binary GCD that does what `gcd_inversion` and document 02 say of it. So an inverse of the oracle is the
/// source's in its frame only, and no evidence on the held word of one.
#[inline]
pub fn gcd_inner<const ROUNDS: usize>(a: &mut u64, b: &mut u64) -> (i64, i64, i64, i64) {
    let (mut f0, mut g0, mut f1, mut g1) = (1_i64, 0_i64, 0_i64, 1_i64);
    for _ in 0..ROUNDS {
        if *a & 1 == 1 {
            if *a < *b {
                core::mem::swap(a, b);
                (f0, g0, f1, g1) = (f1, g1, f0, g0);
            }
            *a -= *b;
            f0 -= f1;
            g0 -= g1;
        }
        *a >>= 1;
        f1 <<= 1;
        g1 <<= 1;
    }
    (f0, g0, f1, g1)
}
