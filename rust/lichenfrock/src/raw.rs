//! The functions of the archive, as `include/lichenfrock.h` declares them, in its order. Their contracts are in `crates/lichenfrock/src`; none
//! asks anything of its caller but what a pointer and a length say, so those without such a pair are safe to call.

unsafe extern "C" {
    pub safe fn lichenfrock_add(x: u64, y: u64) -> u64;
    pub safe fn lichenfrock_sub(x: u64, y: u64) -> u64;
    pub safe fn lichenfrock_neg(x: u64) -> u64;
    pub safe fn lichenfrock_reduce128(lo: u64, hi: u64) -> u64;
    pub safe fn lichenfrock_mul(x: u64, y: u64) -> u64;
    pub safe fn lichenfrock_square(x: u64) -> u64;
    pub safe fn lichenfrock_halve(x: u64) -> u64;
    pub fn lichenfrock_sum_array(input: *const u64, input_len: usize, word: &mut u64) -> u64;
    pub fn lichenfrock_dot_product(lhs: *const u64, lhs_len: usize, rhs: *const u64, rhs_len: usize, word: &mut u64) -> u64;
    pub safe fn lichenfrock_from_i64(n: i64) -> u64;
    pub safe fn lichenfrock_from_u128(lo: u64, hi: u64) -> u64;
    pub safe fn lichenfrock_mul_2exp_u64(x: u64, exp: u64) -> u64;
    pub safe fn lichenfrock_div_2exp_u64(x: u64, exp: u64) -> u64;
    pub safe fn lichenfrock_try_inverse(x: u64, word: &mut u64) -> u64;
    pub safe fn lichenfrock_try_sqrt(x: u64, word: &mut u64) -> u64;
    pub safe fn lichenfrock_injective_exp_root_n(x: u64) -> u64;
    pub safe fn lichenfrock_two_adic_generator(bits: u64, word: &mut u64) -> u64;
    pub safe fn lichenfrock_eq(x: u64, y: u64) -> bool;
    pub safe fn lichenfrock_cmp(x: u64, y: u64) -> i32;
    pub safe fn lichenfrock_is_zero(x: u64) -> bool;
    pub safe fn lichenfrock_slot(x: u64, k: u64, word: &mut u64) -> u64;
    pub fn lichenfrock_encode(words: *const u64, words_len: usize, bytes: *mut u8, bytes_len: usize, index: &mut u64) -> u64;
    pub fn lichenfrock_decode(bytes: *const u8, bytes_len: usize, words: *mut u64, words_len: usize, index: &mut u64) -> u64;
    pub safe fn lichenfrock_as_canonical_u64(x: u64) -> u64;
    pub safe fn lichenfrock_from_canonical_checked_u64(x: u64, word: &mut u64) -> u64;
    pub safe fn lichenfrock_from_canonical_checked_i64(n: i64, word: &mut u64) -> u64;
    pub safe fn lichenfrock_value(held: u64) -> u64;
}
