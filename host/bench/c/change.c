/* The changes: what an accepted operation does to a sound store. */
#include <string.h>

#include "store.h"

/* ---- entries */

/* A new card takes the first free cell and stands at the end of its bucket's chain. */
static void place(uint32_t *words, const struct serial *serial, const struct spot *spot) {
    uint32_t cell = words[FREE_CARD];
    uint32_t *card = words + card_at(cell);
    words[FREE_CARD] = card[NEXT];
    card[NEXT] = 0;
    card[SERIAL_LENGTH] = (uint32_t)serial->length;
    pack(serial, card + SERIAL);
    words[link_behind(spot->bucket, spot->before)] = cell;
    words[CARDS_HELD]++;
}

/* Sends the cards of bucket p to bucket p or to the new one, each behind those sent there before. */
static void deal_out(uint32_t *words, uint32_t maxp, uint32_t p) {
    uint32_t cell = words[SEGMENTS + p];
    size_t stay = SEGMENTS + p, move = SEGMENTS + maxp + p;
    while (cell != 0) {
        size_t at = card_at(cell);
        struct serial serial = unpack(words + at);
        size_t *link = moves(serial_code(&serial), maxp, p) ? &move : &stay;
        words[*link] = cell;
        *link = at + NEXT;
        cell = words[at + NEXT];
    }
    words[stay] = 0;
    words[move] = 0;
}

static void split(uint32_t *words) {
    uint32_t maxp = words[MAXP], p = words[P], bucket = maxp + p;
    if (bucket % SEGMENT_WORDS == 0) {
        words[DIRECTORY + bucket / SEGMENT_WORDS] = SEGMENTS + bucket;
    }
    deal_out(words, maxp, p);
    bool doubled = p + 1 == maxp;
    words[MAXP] = doubled ? 2 * maxp : maxp;
    words[P] = doubled ? 0 : p + 1;
}

static void enter(uint32_t *words, const struct serial *serial, const struct spot *spot) {
    place(words, serial, spot);
    if (must_split(bounds_of(words), words[CARDS_HELD], buckets_of(words))) {
        split(words);
    }
}

/* ---- filings */

static void file_fault(uint32_t *words, uint32_t card_cell, uint32_t day, uint32_t code) {
    uint32_t cell = words[FREE_FAULT];
    uint32_t *fault = words + fault_at(words, cell);
    uint32_t *card = words + card_at(card_cell);
    words[FREE_FAULT] = fault[NEXT];
    fault[NEXT] = 0;
    fault[DAY] = day;
    fault[CODE] = code;
    if (card[FIRST_FAULT] == 0) {
        card[FIRST_FAULT] = cell;
    } else {
        words[fault_at(words, card[LAST_FAULT]) + NEXT] = cell;
    }
    card[LAST_FAULT] = cell;
    card[FAULT_COUNT]++;
    words[FAULTS_HELD]++;
}

/* ---- withdrawals */

/* A card's fault cells go in their order to the front of the free chain. */
static void free_history(uint32_t *words, const uint32_t *card) {
    if (card[FIRST_FAULT] == 0) {
        return;
    }
    for (uint32_t cell = card[FIRST_FAULT]; cell != 0; cell = words[fault_at(words, cell) + NEXT]) {
        uint32_t *fault = words + fault_at(words, cell);
        fault[DAY] = 0;
        fault[CODE] = 0;
    }
    words[fault_at(words, card[LAST_FAULT]) + NEXT] = words[FREE_FAULT];
    words[FREE_FAULT] = card[FIRST_FAULT];
    words[FAULTS_HELD] -= card[FAULT_COUNT];
}

static void take_out(uint32_t *words, const struct spot *spot) {
    uint32_t *card = words + card_at(spot->cell);
    words[link_behind(spot->bucket, spot->before)] = card[NEXT];
    free_history(words, card);
    memset(card, 0, CARD_WORDS * sizeof *card);
    card[NEXT] = words[FREE_CARD];
    words[FREE_CARD] = spot->cell;
    words[CARDS_HELD]--;
}

/* Puts the chain of one bucket behind that of another. */
static void join(uint32_t *words, uint32_t bucket, uint32_t behind) {
    size_t link = SEGMENTS + behind;
    while (words[link] != 0) {
        link = card_at(words[link]) + NEXT;
    }
    words[link] = words[SEGMENTS + bucket];
    words[SEGMENTS + bucket] = 0;
}

static void contract(uint32_t *words) {
    bool halved = words[P] == 0;
    uint32_t maxp = halved ? words[MAXP] / 2 : words[MAXP];
    uint32_t p = (halved ? maxp : words[P]) - 1;
    uint32_t bucket = maxp + p;
    words[MAXP] = maxp;
    words[P] = p;
    join(words, bucket, p);
    if (bucket % SEGMENT_WORDS == 0) {
        words[DIRECTORY + bucket / SEGMENT_WORDS] = 0;
    }
}

static void withdraw(uint32_t *words, const struct spot *spot) {
    take_out(words, spot);
    if (must_contract(bounds_of(words), words[CARDS_HELD], buckets_of(words))) {
        contract(words);
    }
}

void change(uint32_t *words, const struct request *request, const struct spot *spot) {
    switch (request->operation) {
    case ENTER:
        enter(words, &request->serial, spot);
        break;
    case FILE_FAULT:
        file_fault(words, spot->cell, request->day, request->code);
        break;
    case WITHDRAW:
        withdraw(words, spot);
        break;
    case SHOW:
        break;
    }
}
