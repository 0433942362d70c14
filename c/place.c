/* Places a key: `place KEY BITS` writes the slot of BITS bits that the word KEY stands in. Numbers are decimal, or hexadecimal after 0x. */
#include "lichenfrock.h"

#include <errno.h>
#include <inttypes.h>
#include <stdio.h>
#include <stdlib.h>
#include <string.h>

/* Whether the text is a number of 64 bits, which is then in *value. */
static bool number(const char *text, uint64_t *value)
{
    char *end;
    errno = 0;
    *value = strtoull(text, &end, strncmp(text, "0x", 2) == 0 ? 16 : 10);
    return text[0] >= '0' && text[0] <= '9' && *end == '\0' && errno == 0;
}

int main(int argc, char **argv)
{
    uint64_t key, bits, slot;
    if (argc != 3 || !number(argv[1], &key) || !number(argv[2], &bits)) {
        fprintf(stderr, "usage: place KEY BITS\n");
        return 2;
    }
    uint64_t refusal = lichenfrock_slot(key, bits, &slot);
    if (refusal != 0) {
        fprintf(stderr, "refused %" PRIu64 "\n", refusal);
        return 1;
    }
    printf("key %" PRIu64 ": slot %" PRIu64 " of %" PRIu64 "\n", lichenfrock_as_canonical_u64(key), slot, UINT64_C(1) << bits);
    return 0;
}
