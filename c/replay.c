/* Replays the fixed list from C: reads lines of crates/replay/stdin, makes each call with the functions of lichenfrock.h, and writes what the program
 * of crates/replay writes: each line that does not agree, with what was got, and last how many do and do not. The exit status is 0 where all agree. */
#include "lichenfrock.h"

#include <inttypes.h>
#include <stdio.h>
#include <string.h>

/* The bytes of a line, the last of them its end, those of its name, and the most words or bytes that a list may have. */
#define LINE 113
#define NAME 26
#define MOST 32777

/* What buffers hold before they are written, in every byte; and words and indices, so that a function which leaves them out is detected. */
#define UNTOUCHED UINT64_C(0xA5A5A5A5A5A5A5A5)

/* What a line asks: two words, a step, and two lengths. */
struct asked {
    uint64_t a, b, c, n, m;
};

/* What a call gives: the refusal's number, the index beside it, and the word. */
struct outcome {
    uint64_t number, index, word;
};

static uint64_t words[MOST], others[MOST];
static uint8_t bytes[MOST];

/* The signed number whose two's complement is a word. */
static int64_t signed_of(uint64_t word)
{
    return word <= INT64_MAX ? (int64_t)word : -(int64_t)(UINT64_MAX - word) - 1;
}

/* The first n words become first, first + step, first + 2 * step and so on, modulo 2^64. */
static void fill_words(uint64_t *list, uint64_t n, uint64_t first, uint64_t step)
{
    for (uint64_t i = 0; i < n; i++) {
        list[i] = first + i * step;
    }
}

/* The first n bytes become those of such words, 8 for each, little-endian; the last word may be cut. */
static void fill_bytes(uint64_t n, uint64_t first, uint64_t step)
{
    for (uint64_t i = 0; i < n; i++) {
        bytes[i] = (uint8_t)((first + i / 8 * step) >> 8 * (i % 8));
    }
}

/* The digest of a list after one item more; 1 is that of none. */
static uint64_t mixed(uint64_t digest, uint64_t item)
{
    digest ^= item;
    digest ^= digest << 13;
    digest ^= digest >> 7;
    return digest ^ digest << 17;
}

static uint64_t digest_of_words(uint64_t n)
{
    uint64_t digest = 1;
    for (uint64_t i = 0; i < n; i++) {
        digest = mixed(digest, words[i]);
    }
    return digest;
}

static uint64_t digest_of_bytes(uint64_t n)
{
    uint64_t digest = 1;
    for (uint64_t i = 0; i < n; i++) {
        digest = mixed(digest, bytes[i]);
    }
    return digest;
}

/* Whether the name of a line, with spaces behind it to the end of its column, is this one. */
static bool named(const char *line, const char *name)
{
    char column[NAME + 1];
    snprintf(column, sizeof column, "%-*s", NAME, name);
    return memcmp(line, column, NAME) == 0;
}

/* The order, sums, and coding: what takes more than the words of a line. False where the line has another name. */
static bool call_with_more(const char *line, struct asked x, struct outcome *got)
{
    if (named(line, "cmp")) {
        got->word = (uint64_t)(lichenfrock_cmp(x.a, x.b) + 1);
    } else if (named(line, "sum_array")) {
        fill_words(words, x.n, x.a, x.c);
        got->number = lichenfrock_sum_array(words, x.n, &got->word);
    } else if (named(line, "dot_product")) {
        fill_words(words, x.n, x.a, x.c);
        fill_words(others, x.m, x.b, x.c);
        got->number = lichenfrock_dot_product(words, x.n, others, x.m, &got->word);
    } else if (named(line, "encode")) {
        fill_words(words, x.n, x.a, x.c);
        fill_bytes(x.m, UNTOUCHED, 0);
        got->index = UNTOUCHED;
        got->number = lichenfrock_encode(words, x.n, bytes, x.m, &got->index);
        got->word = digest_of_bytes(x.m);
    } else if (named(line, "decode")) {
        fill_bytes(x.n, x.a, x.c);
        fill_words(words, x.m, UNTOUCHED, 0);
        got->index = UNTOUCHED;
        got->number = lichenfrock_decode(bytes, x.n, words, x.m, &got->index);
        got->word = digest_of_words(x.m);
    } else {
        return false;
    }
    return true;
}

/* The call that a line asks for, and what it gives. False where no function has the line's name. */
static bool call(const char *line, struct asked x, struct outcome *got)
{
#define WORD(operation, ...)                              \
    if (named(line, #operation)) {                        \
        got->word = lichenfrock_##operation(__VA_ARGS__); \
        return true;                                      \
    }
#define REFUSABLE(operation, ...)                                       \
    if (named(line, #operation)) {                                      \
        got->number = lichenfrock_##operation(__VA_ARGS__, &got->word); \
        return true;                                                    \
    }
    WORD(add, x.a, x.b)
    WORD(sub, x.a, x.b)
    WORD(neg, x.a)
    WORD(reduce128, x.a, x.b)
    WORD(mul, x.a, x.b)
    WORD(square, x.a)
    WORD(halve, x.a)
    WORD(from_i64, signed_of(x.a))
    WORD(from_u128, x.a, x.b)
    WORD(mul_2exp_u64, x.a, x.b)
    WORD(div_2exp_u64, x.a, x.b)
    REFUSABLE(try_inverse, x.a)
    REFUSABLE(try_sqrt, x.a)
    WORD(injective_exp_root_n, x.a)
    REFUSABLE(two_adic_generator, x.a)
    WORD(eq, x.a, x.b)
    WORD(is_zero, x.a)
    REFUSABLE(slot, x.a, x.b)
    WORD(as_canonical_u64, x.a)
    REFUSABLE(from_canonical_checked_u64, x.a)
    REFUSABLE(from_canonical_checked_i64, signed_of(x.a))
    WORD(value, x.a)
    return call_with_more(line, x, got);
}

/* The number in a column: a space at a place of the line, and hex digits up to an end. */
static bool read_column(const char *line, size_t at, size_t end, uint64_t *number)
{
    static const char digits[] = "0123456789ABCDEF";
    *number = 0;
    for (size_t i = at + 1; i < end; i++) {
        const char *digit = memchr(digits, line[i], 16);
        if (digit == NULL) {
            return false;
        }
        *number = *number << 4 | (uint64_t)(digit - digits);
    }
    return line[at] == ' ';
}

/* The columns behind the name: what is asked, and what the Rust answered. False where a byte is out of place. */
static bool read_line(const char *line, struct asked *x, struct outcome *expected)
{
    return read_column(line, 26, 43, &x->a) && read_column(line, 43, 60, &x->b) && read_column(line, 60, 77, &x->c)
        && read_column(line, 77, 82, &x->n) && x->n <= MOST && read_column(line, 82, 87, &x->m) && x->m <= MOST
        && read_column(line, 87, 90, &expected->number) && read_column(line, 90, 95, &expected->index)
        && read_column(line, 95, 112, &expected->word) && line[LINE - 1] == '\n';
}

/* How many of a line's n bytes stand before its end: never the last of a whole line, where the end belongs. */
static size_t before_end(const char *line, size_t n)
{
    const char *end = memchr(line, '\n', n);
    return end != NULL ? (size_t)(end - line) : n < LINE ? n : LINE - 1;
}

/* Makes the call of a line of n bytes, and answers whether it agrees; writes the line if not. */
static bool agrees(const char *line, size_t n)
{
    struct asked x;
    struct outcome expected, got = {0, 0, UNTOUCHED};
    bool readable = n == LINE && read_line(line, &x, &expected) && call(line, x, &got);
    if (readable && got.number == expected.number && got.index == expected.index && got.word == expected.word) {
        return true;
    }
    fwrite(line, 1, before_end(line, n), stdout);
    if (readable) {
        printf(" got %02" PRIX64 " %04" PRIX64 " %016" PRIX64 "\n", got.number, got.index, got.word);
    } else {
        printf(" unreadable\n");
    }
    return false;
}

int main(void)
{
    char line[LINE];
    size_t n;
    uint64_t agree = 0, differ = 0;
    while ((n = fread(line, 1, LINE, stdin)) > 0) {
        if (agrees(line, n)) {
            agree++;
        } else {
            differ++;
        }
    }
    if (ferror(stdin)) {
        perror("replay: standard input");
        return 2;
    }
    printf("%" PRIu64 " agree, %" PRIu64 " do not\n", agree, differ);
    if (fflush(stdout) != 0) {
        perror("replay: standard output");
        return 2;
    }
    return differ != 0;
}
