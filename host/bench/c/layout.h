/* The words of a store: which word is what, and where the cells stand. */
#ifndef LAYOUT_H
#define LAYOUT_H

#include <stddef.h>
#include <stdint.h>

#include "rules.h"

enum { MOST_CARDS = 1024, MOST_FAULTS = 2048 };

/* The format that Open makes, which has the load bounds in a word, the upper one UPPER_UNIT times; and the first format, which has
 * no word for its own. */
enum { FORMAT = 2, UPPER_UNIT = 256, FIRST_FORMAT = 1, FIRST_UPPER = 4, FIRST_LOWER = 2 };

/* The header. */
enum {
    FORMAT_WORD,
    CARD_LIMIT,
    FAULT_LIMIT,
    MAXP,
    P,
    CARDS_HELD,
    FAULTS_HELD,
    FREE_CARD,
    FREE_FAULT,
    DIRECTORY_AT,
    SEGMENTS_AT,
    CARDS_AT,
    FAULTS_AT,
    LENGTH,
    BOUNDS,
    HEADER_REST
};

/* Where the parts begin. A bucket's word is SEGMENTS + bucket, since segment k stands at SEGMENTS + 16k. */
enum { DIRECTORY = 16, SEGMENTS = 32, CARDS = 288, SEGMENT_COUNT = 16, SEGMENT_WORDS = 16 };

/* A cell's first word is the next cell of its chain, or 0. */
enum { NEXT = 0 };

/* A card cell. */
enum { SERIAL_LENGTH = 1, SERIAL = 2, SERIAL_WORDS = 4, FIRST_FAULT = 6, LAST_FAULT, FAULT_COUNT, CARD_WORDS };

/* A fault cell. */
enum { DAY = 1, CODE, FAULT_WORDS };

static inline size_t faults_begin(uint32_t cards) {
    return CARDS + (size_t)CARD_WORDS * cards;
}

static inline size_t length_for(uint32_t cards, uint32_t faults) {
    return faults_begin(cards) + (size_t)FAULT_WORDS * faults;
}

static inline uint32_t buckets_of(const uint32_t *words) {
    return words[MAXP] + words[P];
}

static inline struct bounds bounds_of(const uint32_t *words) {
    if (words[FORMAT_WORD] == FIRST_FORMAT) {
        return (struct bounds){FIRST_UPPER, FIRST_LOWER};
    }
    return (struct bounds){words[BOUNDS] / UPPER_UNIT, words[BOUNDS] % UPPER_UNIT};
}

static inline uint32_t bounds_word(struct bounds bounds) {
    return UPPER_UNIT * bounds.upper + bounds.lower;
}

/* The index of a cell's first word. Cells count from 1. */
static inline size_t card_at(uint32_t cell) {
    return CARDS + (size_t)CARD_WORDS * (cell - 1);
}

static inline size_t fault_at(const uint32_t *words, uint32_t cell) {
    return words[FAULTS_AT] + (size_t)FAULT_WORDS * (cell - 1);
}

/* The index of the word that points on behind the card `before` of a bucket, or to the bucket's first card if it is 0. */
static inline size_t link_behind(uint32_t bucket, uint32_t before) {
    return before == 0 ? SEGMENTS + (size_t)bucket : card_at(before) + NEXT;
}

#endif
