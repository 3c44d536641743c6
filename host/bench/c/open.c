/* Open: a fresh store in words of any content. */
#include <string.h>

#include "store.h"

/* Chains `count` cells of this width from index `at` on: 1, 2, 3 to the last. */
static void chain_free(uint32_t *words, size_t at, size_t width, uint32_t count) {
    for (uint32_t cell = 1; cell < count; cell++) {
        words[at + width * (cell - 1) + NEXT] = cell + 1;
    }
}

static void set_header(uint32_t *words, uint32_t cards, uint32_t faults, struct bounds bounds) {
    words[FORMAT_WORD] = FORMAT;
    words[CARD_LIMIT] = cards;
    words[FAULT_LIMIT] = faults;
    words[MAXP] = LEAST_BUCKETS;
    words[FREE_CARD] = 1;
    words[FREE_FAULT] = 1;
    words[DIRECTORY_AT] = DIRECTORY;
    words[SEGMENTS_AT] = SEGMENTS;
    words[CARDS_AT] = CARDS;
    words[FAULTS_AT] = (uint32_t)faults_begin(cards);
    words[LENGTH] = (uint32_t)length_for(cards, faults);
    words[BOUNDS] = bounds_word(bounds);
}

uint32_t open_store(uint32_t *words, size_t length, uint32_t cards, uint32_t faults, struct bounds bounds) {
    if (cards < 1 || MOST_CARDS < cards || faults < 1 || MOST_FAULTS < faults) {
        return 1;
    }
    if (!bounds_ok(bounds)) {
        return 15;
    }
    if (length != length_for(cards, faults)) {
        return 2;
    }
    memset(words, 0, length * sizeof *words);
    set_header(words, cards, faults, bounds);
    words[DIRECTORY] = SEGMENTS;
    chain_free(words, CARDS, CARD_WORDS, cards);
    chain_free(words, faults_begin(cards), FAULT_WORDS, faults);
    return 0;
}
