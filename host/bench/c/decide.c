/* The answers, read off a sound store before anything changes. */
#include "store.h"

static struct plan refused(uint32_t number) {
    return (struct plan){{number, 0, 0, 0}, {0, 0, 0, 0}};
}

/* An answer after the search. */
static struct plan answered(struct spot spot, uint32_t number, uint32_t scanned, uint32_t faults) {
    return (struct plan){{number, spot.place, scanned, faults}, spot};
}

static uint32_t chain_length(const uint32_t *words, uint32_t bucket) {
    uint32_t length = 0;
    for (uint32_t cell = words[SEGMENTS + bucket]; cell != 0; cell = words[card_at(cell) + NEXT]) {
        length++;
    }
    return length;
}

/* What a split will scan once the new card stands in this bucket. */
static uint32_t split_scans(const uint32_t *words, uint32_t bucket) {
    if (!must_split(bounds_of(words), words[CARDS_HELD] + 1, buckets_of(words))) {
        return 0;
    }
    return chain_length(words, words[P]) + (bucket == words[P]);
}

/* What a contraction will scan once the card of this bucket has left: the last bucket is the one that goes. */
static uint32_t contraction_scans(const uint32_t *words, uint32_t bucket) {
    uint32_t buckets = buckets_of(words);
    if (!must_contract(bounds_of(words), words[CARDS_HELD] - 1, buckets)) {
        return 0;
    }
    return chain_length(words, buckets - 1) - (bucket == buckets - 1);
}

static struct plan decide_enter(const uint32_t *words, struct spot spot) {
    if (spot.cell != 0) {
        return answered(spot, 6, 0, 0);
    }
    if (words[CARDS_HELD] == words[CARD_LIMIT]) {
        return answered(spot, 8, 0, 0);
    }
    return answered(spot, 0, split_scans(words, spot.bucket), 0);
}

/* For a card that is held. */
static struct plan decide_file(const uint32_t *words, struct spot spot) {
    if (words[FAULTS_HELD] == words[FAULT_LIMIT]) {
        return answered(spot, 9, 0, 0);
    }
    return answered(spot, 0, 0, words[card_at(spot.cell) + FAULT_COUNT] + 1);
}

struct plan decide(const uint32_t *words, const struct request *request) {
    if (!valid_serial(&request->serial)) {
        return refused(4);
    }
    if (request->operation == FILE_FAULT && !valid_fault(request->day, request->code)) {
        return refused(5);
    }
    struct spot spot = search(words, &request->serial);
    if (request->operation == ENTER) {
        return decide_enter(words, spot);
    }
    if (spot.cell == 0) {
        return answered(spot, 7, 0, 0);
    }
    if (request->operation == FILE_FAULT) {
        return decide_file(words, spot);
    }
    uint32_t scanned = request->operation == WITHDRAW ? contraction_scans(words, spot.bucket) : 0;
    return answered(spot, 0, scanned, words[card_at(spot.cell) + FAULT_COUNT]);
}
