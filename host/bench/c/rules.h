/* The serial code, the address rule and the load rules. */
#ifndef RULES_H
#define RULES_H

#include <stdbool.h>
#include <stddef.h>
#include <stdint.h>

enum {
    LEAST_BUCKETS = 16,
    MOST_BUCKETS = 256,
    LEAST_UPPER = 2,
    MOST_UPPER = 10
};

/* The load bounds, in cards a bucket: above the upper one the table grows, below the lower one it contracts. */
struct bounds {
    uint32_t upper, lower;
};

/* The lower bound is at least 1 and at most half of the upper one. Twice a bound might not fit a word. */
static inline bool bounds_ok(struct bounds bounds) {
    return LEAST_UPPER <= bounds.upper && bounds.upper <= MOST_UPPER && 1 <= bounds.lower &&
           bounds.lower <= bounds.upper / 2;
}

static inline uint32_t code_of(const uint8_t *bytes, size_t length) {
    uint32_t code = 0;
    for (size_t i = 0; i < length; i++) {
        code = 33 * code + bytes[i];
    }
    return code;
}

static inline bool state_ok(uint32_t maxp, uint32_t p) {
    bool power = LEAST_BUCKETS <= maxp && maxp <= MOST_BUCKETS && (maxp & (maxp - 1)) == 0;
    return power && p < maxp && maxp + p <= MOST_BUCKETS;
}

/* maxp is a power of two, so a mask gives the remainder. */
static inline uint32_t address_of(uint32_t code, uint32_t maxp, uint32_t p) {
    uint32_t address = code & (maxp - 1);
    return address < p ? code & (2 * maxp - 1) : address;
}

/* Whether the split of bucket p takes a card of that bucket to the new one. */
static inline bool moves(uint32_t code, uint32_t maxp, uint32_t p) {
    return (code & (2 * maxp - 1)) == maxp + p;
}

/* With all buckets there the table does not grow, however many cards it holds. */
static inline bool must_split(struct bounds bounds, uint32_t cards, uint32_t buckets) {
    return cards > bounds.upper * buckets && buckets < MOST_BUCKETS;
}

static inline bool must_contract(struct bounds bounds, uint32_t cards, uint32_t buckets) {
    return cards < bounds.lower * buckets && buckets > LEAST_BUCKETS;
}

#endif
