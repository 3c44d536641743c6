/* Reads stores of words, each behind the number of its words, and tells of each whether it is sound: a line 1 or 0.
 * Numbers are 32 bits, the lowest byte first. It is here to hold the checker to that of the second program. */
#include <stdio.h>

#include "store.h"

enum { MOST_WORDS = 1 << 15 };

static uint32_t words[MOST_WORDS];
static uint8_t scratch[SCRATCH];

static uint32_t little_end(const uint8_t *b) {
    return (uint32_t)b[3] << 24 | (uint32_t)b[2] << 16 | (uint32_t)b[1] << 8 | b[0];
}

static bool read_word(uint32_t *word) {
    uint8_t bytes[4];
    bool whole = fread(bytes, 1, sizeof bytes, stdin) == sizeof bytes;
    *word = whole ? little_end(bytes) : 0;
    return whole;
}

static bool read_store(uint32_t *length) {
    if (!read_word(length) || *length > MOST_WORDS) {
        return false;
    }
    for (uint32_t i = 0; i < *length; i++) {
        if (!read_word(words + i)) {
            return false;
        }
    }
    return true;
}

int main(void) {
    uint32_t length;
    while (read_store(&length)) {
        printf("%d\n", sound(words, length, scratch));
    }
    return 0;
}
