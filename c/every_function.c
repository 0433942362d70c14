/* Calls every function of lichenfrock.h and compares each answer with the one that document 01 works out or that follows from its rules. */
#include "lichenfrock.h"

#include <inttypes.h>
#include <stdio.h>
#include <string.h>

#define P LICHENFROCK_ORDER_U64
#define MAX UINT64_MAX

/* One more than the most words or pairs of a sum or a dot product, and than the most words of a coding. */
#define MANY_SUMMED 4097
#define MANY_CODED 4097

static unsigned checks, failures;

static void check(int line, uint64_t answer, uint64_t expected)
{
    checks++;
    if (answer != expected) {
        failures++;
        printf("line %d: %016" PRIX64 ", expected %016" PRIX64 "\n", line, answer, expected);
    }
}

#define CHECK(answer, expected) check(__LINE__, (answer), (expected))

/* What a refusable call answers: its number, and what it leaves in `out`, which starts as something else than any expected value. */
#define CHECK_OUT(call, number, expected) \
    do {                                  \
        out = 0xDEADBEEF;                 \
        CHECK(call, number);              \
        CHECK(out, expected);             \
    } while (0)

static void words(void)
{
    CHECK(lichenfrock_add(P - 1, 1), P);
    CHECK(lichenfrock_add(MAX, MAX), UINT64_C(0x1FFFFFFFC));
    CHECK(lichenfrock_sub(0, MAX), UINT64_C(0xFFFFFFFE00000003));
    CHECK(lichenfrock_sub(7, 2), 5);
    CHECK(lichenfrock_neg(0), P);
    CHECK(lichenfrock_neg(P), P);
    CHECK(lichenfrock_reduce128(MAX, MAX), UINT64_C(0xFFFFFFFE00000000));
    CHECK(lichenfrock_reduce128(P, 0), P);
    CHECK(lichenfrock_mul(P - 1, P - 1), P + 1);
    CHECK(lichenfrock_mul(UINT64_C(1) << 32, UINT64_C(1) << 32), UINT64_C(0xFFFFFFFF));
    CHECK(lichenfrock_square(P - 1), P + 1);
    CHECK(lichenfrock_halve(MAX), UINT64_C(0xFFFFFFFF80000000));
    CHECK(lichenfrock_from_i64(INT64_MIN), UINT64_C(0x7FFFFFFF00000001));
    CHECK(lichenfrock_from_i64(-1), P - 1);
    CHECK(lichenfrock_from_u128(P, 0), 0);
    CHECK(lichenfrock_from_u128(0, UINT64_C(1) << 32), P - 1);
    CHECK(lichenfrock_mul_2exp_u64(0, 96), P);
    CHECK(lichenfrock_mul_2exp_u64(1, 96), P - 1);
    CHECK(lichenfrock_div_2exp_u64(1, 32), UINT64_C(0xFFFFFFFE00000002));
    CHECK(lichenfrock_div_2exp_u64(1, 2), UINT64_C(0xBFFFFFFF40000001));
    CHECK(lichenfrock_injective_exp_root_n(128), 2);
    CHECK(lichenfrock_as_canonical_u64(P), 0);
    CHECK(lichenfrock_as_canonical_u64(P - 1), P - 1);
    CHECK(lichenfrock_value(P), P);
}

static void seen(void)
{
    CHECK(lichenfrock_eq(0, P), true);
    CHECK(lichenfrock_eq(0, 1), false);
    CHECK(lichenfrock_cmp(P, 1) == -1, true);
    CHECK(lichenfrock_cmp(0, P) == 0, true);
    CHECK(lichenfrock_cmp(P - 1, P) == 1, true);
    CHECK(lichenfrock_is_zero(P), true);
    CHECK(lichenfrock_is_zero(P + 1), false);
}

static void refusable(void)
{
    const int64_t end = INT64_MAX - INT64_C(0x7FFFFFFF);
    uint64_t out;
    CHECK_OUT(lichenfrock_try_inverse(2, &out), LICHENFROCK_NOT_REFUSED, UINT64_C(0x7FFFFFFF80000001));
    CHECK_OUT(lichenfrock_try_inverse(P + 1, &out), LICHENFROCK_NOT_REFUSED, 1);
    CHECK_OUT(lichenfrock_try_inverse(P, &out), LICHENFROCK_INVERSE_OF_ZERO, 0);
    CHECK_OUT(lichenfrock_try_sqrt(P - 1, &out), LICHENFROCK_NOT_REFUSED, UINT64_C(1) << 48);
    CHECK_OUT(lichenfrock_try_sqrt(P, &out), LICHENFROCK_NOT_REFUSED, 0);
    CHECK_OUT(lichenfrock_try_sqrt(7, &out), LICHENFROCK_NO_SQUARE_ROOT, 0);
    CHECK_OUT(lichenfrock_two_adic_generator(1, &out), LICHENFROCK_NOT_REFUSED, P - 1);
    CHECK_OUT(lichenfrock_two_adic_generator(33, &out), LICHENFROCK_ABOVE_32, 0);
    CHECK_OUT(lichenfrock_slot(P + 0x1234, 8, &out), LICHENFROCK_NOT_REFUSED, 0x34);
    CHECK_OUT(lichenfrock_slot(1, 33, &out), LICHENFROCK_ABOVE_32, 0);
    CHECK_OUT(lichenfrock_from_canonical_checked_u64(P - 1, &out), LICHENFROCK_NOT_REFUSED, P - 1);
    CHECK_OUT(lichenfrock_from_canonical_checked_u64(P, &out), LICHENFROCK_OUT_OF_RANGE, 0);
    CHECK_OUT(lichenfrock_from_canonical_checked_i64(end, &out), LICHENFROCK_NOT_REFUSED, (uint64_t)end);
    CHECK_OUT(lichenfrock_from_canonical_checked_i64(-end, &out), LICHENFROCK_NOT_REFUSED, UINT64_C(0x7FFFFFFF80000001));
    CHECK_OUT(lichenfrock_from_canonical_checked_i64(end + 1, &out), LICHENFROCK_OUT_OF_RANGE, 0);
}

static void lists(void)
{
    static uint64_t ones[MANY_SUMMED];
    const uint64_t large[2] = {MAX, MAX};
    uint64_t out;
    for (size_t i = 0; i < MANY_SUMMED; i++) {
        ones[i] = 1;
    }
    CHECK_OUT(lichenfrock_sum_array(ones, 0, &out), LICHENFROCK_NOT_REFUSED, 0);
    CHECK_OUT(lichenfrock_sum_array(large, 2, &out), LICHENFROCK_NOT_REFUSED, UINT64_C(0x1FFFFFFFC));
    CHECK_OUT(lichenfrock_sum_array(ones, MANY_SUMMED - 1, &out), LICHENFROCK_NOT_REFUSED, MANY_SUMMED - 1);
    CHECK_OUT(lichenfrock_sum_array(ones, MANY_SUMMED, &out), LICHENFROCK_TOO_MANY, 0);
    CHECK_OUT(lichenfrock_dot_product(large, 2, large, 2, &out), LICHENFROCK_NOT_REFUSED, UINT64_C(0xFFFFFFF900000007));
    CHECK_OUT(lichenfrock_dot_product(ones, MANY_SUMMED - 1, ones, MANY_SUMMED - 1, &out), LICHENFROCK_NOT_REFUSED, P + MANY_SUMMED - 1);
    CHECK_OUT(lichenfrock_dot_product(ones, MANY_SUMMED, ones, MANY_SUMMED, &out), LICHENFROCK_TOO_MANY, 0);
    CHECK_OUT(lichenfrock_dot_product(ones, MANY_SUMMED, ones, 1, &out), LICHENFROCK_LENGTHS_DIFFER, 0);
}

static void coding(void)
{
    static const uint8_t written[16] = {1, 0, 0, 0, 0, 0, 0, 0, 0, 0, 0, 0, 0xFF, 0xFF, 0xFF, 0xFF};
    static uint8_t many_bytes[8 * MANY_CODED];
    static uint64_t many[MANY_CODED];
    uint64_t two[2] = {P + 1, P - 1}, read[2] = {5, 5}, out;
    uint8_t bytes[16] = {0}, kept[16];

    CHECK_OUT(lichenfrock_encode(two, 2, bytes, 16, &out), LICHENFROCK_NOT_REFUSED, 0);
    CHECK(memcmp(bytes, written, 16) == 0, true);
    CHECK_OUT(lichenfrock_encode(two, 1, bytes, 16, &out), LICHENFROCK_WRONG_BUFFER, 0);
    CHECK_OUT(lichenfrock_encode(many, MANY_CODED, many_bytes, sizeof many_bytes, &out), LICHENFROCK_TOO_MANY, 0);
    CHECK(memcmp(bytes, written, 16) == 0, true);

    bytes[8] = 1;
    memcpy(kept, bytes, 16);
    CHECK_OUT(lichenfrock_decode(bytes, 16, read, 2, &out), LICHENFROCK_OUT_OF_RANGE, 1);
    CHECK_OUT(lichenfrock_decode(bytes, 15, read, 2, &out), LICHENFROCK_WRONG_BUFFER, 0);
    CHECK_OUT(lichenfrock_decode(many_bytes, sizeof many_bytes, many, MANY_CODED, &out), LICHENFROCK_TOO_MANY, 0);
    CHECK(read[0], 5);
    CHECK(read[1], 5);
    CHECK_OUT(lichenfrock_decode(written, 16, read, 2, &out), LICHENFROCK_NOT_REFUSED, 0);
    CHECK(read[0], 1);
    CHECK(read[1], P - 1);
    CHECK(memcmp(bytes, kept, 16) == 0, true);
}

int main(void)
{
    words();
    seen();
    refusable();
    lists();
    coding();
    printf("%u comparisons, %u failed\n", checks, failures);
    return failures != 0;
}
