/* Lichenfrock: arithmetic modulo the prime P = 2^64 - 2^32 + 1, proved.
 *
 * A word is any uint64_t and stands for the element x mod P; x and x + P are the same element. What an operation answers is the held word, which
 * need not be below P: take lichenfrock_as_canonical_u64 of it, or its 8 bytes, before it leaves the program or seeds anything.
 *
 * Every function takes any numbers and any lengths. Where it can be refused, the result is the number of the refusal (0 for none) and the word or the
 * index goes out by the last pointer: the word is 0 with a refusal, and the index is 0 but where a group of bytes is not canonical. A refusal leaves
 * every lent buffer as it was. What C has to see to is that each pointer is not NULL, even where its length is 0, is aligned for its type, points to
 * as many values as its length says, and that nothing which is written to overlaps anything else that is handed over.
 *
 * Order and words are those of document 01; crates/lichenfrock/src has the contract of each function.
 */
#ifndef LICHENFROCK_H
#define LICHENFROCK_H

#include <stdbool.h>
#include <stddef.h>
#include <stdint.h>

#ifdef __cplusplus
extern "C" {
#endif

/* P. */
#define LICHENFROCK_ORDER_U64 UINT64_C(0xFFFFFFFF00000001)

/* The numbers of the refusals. */
#define LICHENFROCK_NOT_REFUSED 0     /* none: the answer stands */
#define LICHENFROCK_OUT_OF_RANGE 1    /* not canonical, or i64 out of range */
#define LICHENFROCK_INVERSE_OF_ZERO 2 /* inverse of zero */
#define LICHENFROCK_NO_SQUARE_ROOT 3  /* no element squares to the input */
#define LICHENFROCK_LENGTHS_DIFFER 4  /* dot: the two lengths differ */
#define LICHENFROCK_TOO_MANY 5        /* more than 4,096 words or pairs */
#define LICHENFROCK_WRONG_BUFFER 6    /* byte buffer isn't 8 times the word count */
#define LICHENFROCK_ABOVE_32 7        /* generator or slot above 32 */

/* The sum: x + y, less P the fewest times that bring it below 2^64. */
uint64_t lichenfrock_add(uint64_t x, uint64_t y);

/* The difference: x - y, plus P the fewest times that bring it to 0 or more. */
uint64_t lichenfrock_sub(uint64_t x, uint64_t y);

/* The negative: P minus canonical x, so zero gives P. */
uint64_t lichenfrock_neg(uint64_t x);

/* The number of two limbs, lo + 2^64 * hi, in one word. */
uint64_t lichenfrock_reduce128(uint64_t lo, uint64_t hi);

/* The product: lichenfrock_reduce128 of the full product. */
uint64_t lichenfrock_mul(uint64_t x, uint64_t y);

/* The product of x with itself. */
uint64_t lichenfrock_square(uint64_t x);

/* Half of x: the element whose double is x. */
uint64_t lichenfrock_halve(uint64_t x);

/* The sum of up to 4,096 words; more are refused 5. */
uint64_t lichenfrock_sum_array(const uint64_t *input, size_t input_len, uint64_t *word);

/* The sum of the products of up to 4,096 pairs; different lengths are refused 4, more pairs 5. */
uint64_t lichenfrock_dot_product(const uint64_t *lhs, size_t lhs_len, const uint64_t *rhs, size_t rhs_len, uint64_t *word);

/* A signed number: itself from 0 up, else P plus it. */
uint64_t lichenfrock_from_i64(int64_t n);

/* The number of two limbs, lo + 2^64 * hi, canonical. */
uint64_t lichenfrock_from_u128(uint64_t lo, uint64_t hi);

/* x times 2^exp. */
uint64_t lichenfrock_mul_2exp_u64(uint64_t x, uint64_t exp);

/* x divided by 2^exp. */
uint64_t lichenfrock_div_2exp_u64(uint64_t x, uint64_t exp);

/* The inverse, canonical: its product with x is 1; zero is refused 2. */
uint64_t lichenfrock_try_inverse(uint64_t x, uint64_t *word);

/* The square root, canonical; refused 3 where no element squares to x. */
uint64_t lichenfrock_try_sqrt(uint64_t x, uint64_t *word);

/* The seventh root, canonical: its seventh power is x. */
uint64_t lichenfrock_injective_exp_root_n(uint64_t x);

/* The generator of the group of 2^bits elements; bits above 32 are refused 7. */
uint64_t lichenfrock_two_adic_generator(uint64_t bits, uint64_t *word);

/* Whether x and y are the same element. */
bool lichenfrock_eq(uint64_t x, uint64_t y);

/* How the canonical form of x compares with that of y: -1, 0 or 1. */
int32_t lichenfrock_cmp(uint64_t x, uint64_t y);

/* Whether x is zero, as 0 and P are. */
bool lichenfrock_is_zero(uint64_t x);

/* The slot of k bits: the low k bits of the canonical form; k above 32 is refused 7. */
uint64_t lichenfrock_slot(uint64_t x, uint64_t k, uint64_t *word);

/* Writes the words, 8 bytes each, canonical and little-endian; more than 4,096 are refused 5, a buffer of another size 6. */
uint64_t lichenfrock_encode(const uint64_t *words, size_t words_len, uint8_t *bytes, size_t bytes_len, uint64_t *index);

/* Reads such a buffer; refused as above, and 1 with the index of the first group that is P or more. */
uint64_t lichenfrock_decode(const uint8_t *bytes, size_t bytes_len, uint64_t *words, size_t words_len, uint64_t *index);

/* The canonical form, below P. */
uint64_t lichenfrock_as_canonical_u64(uint64_t x);

/* The word x, if it is below P; any other is refused 1. */
uint64_t lichenfrock_from_canonical_checked_u64(uint64_t x, uint64_t *word);

/* A signed number from -(2^63 - 2^31) to 2^63 - 2^31, both included; any other is refused 1. */
uint64_t lichenfrock_from_canonical_checked_i64(int64_t n, uint64_t *word);

/* The raw word, as it is held: not for seeds. */
uint64_t lichenfrock_value(uint64_t held);

#ifdef __cplusplus
}
#endif

#endif
