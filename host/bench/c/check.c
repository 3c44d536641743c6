/* The checker: whether words of any length and content are those of a sound store. It follows every chain, and a mark for
 * each cell tells a cell that is met a second time, so a walk ends and no cell stands in two chains. */
#include <string.h>

#include "store.h"

/* ---- the words before the cells */

static bool all_zero(const uint32_t *words, size_t count) {
    for (size_t i = 0; i < count; i++) {
        if (words[i] != 0) {
            return false;
        }
    }
    return true;
}

/* The first format leaves the word of the bounds 0. */
static bool format_sound(const uint32_t *words, struct bounds bounds) {
    if (words[FORMAT_WORD] == FIRST_FORMAT) {
        return words[BOUNDS] == 0;
    }
    return words[FORMAT_WORD] == FORMAT && bounds_ok(bounds);
}

static bool limits_sound(const uint32_t *words, size_t length) {
    uint32_t cards = words[CARD_LIMIT], faults = words[FAULT_LIMIT];
    bool in_range = 1 <= cards && cards <= MOST_CARDS && 1 <= faults && faults <= MOST_FAULTS;
    return in_range && length == length_for(cards, faults);
}

static bool offsets_sound(const uint32_t *words, size_t length) {
    return words[DIRECTORY_AT] == DIRECTORY && words[SEGMENTS_AT] == SEGMENTS && words[CARDS_AT] == CARDS &&
           words[FAULTS_AT] == faults_begin(words[CARD_LIMIT]) && words[LENGTH] == length &&
           all_zero(words + HEADER_REST, DIRECTORY - HEADER_REST);
}

static bool load_sound(const uint32_t *words, struct bounds bounds) {
    uint32_t cards = words[CARDS_HELD], buckets = buckets_of(words);
    return !must_split(bounds, cards, buckets) && !must_contract(bounds, cards, buckets);
}

/* A segment is in use when its first bucket is there. */
static bool directory_sound(const uint32_t *words) {
    for (uint32_t k = 0; k < SEGMENT_COUNT; k++) {
        uint32_t first = SEGMENT_WORDS * k;
        if (words[DIRECTORY + k] != (first < buckets_of(words) ? SEGMENTS + first : 0)) {
            return false;
        }
    }
    return true;
}

static bool front_sound(const uint32_t *words, size_t length) {
    if (length < CARDS) {
        return false;
    }
    struct bounds bounds = bounds_of(words);
    if (!format_sound(words, bounds) || !limits_sound(words, length) || !state_ok(words[MAXP], words[P])) {
        return false;
    }
    uint32_t buckets = buckets_of(words);
    return offsets_sound(words, length) && load_sound(words, bounds) && directory_sound(words) &&
           all_zero(words + SEGMENTS + buckets, MOST_BUCKETS - buckets);
}

/* ---- marks */

/* Sets mark k, and tells whether it was not set before. */
static bool mark(uint8_t *marks, uint32_t k) {
    uint8_t bit = (uint8_t)(1u << k % 8);
    bool first_time = (marks[k / 8] & bit) == 0;
    marks[k / 8] |= bit;
    return first_time;
}

static bool new_card(const uint32_t *words, uint8_t *marks, uint32_t cell) {
    return cell <= words[CARD_LIMIT] && mark(marks, cell - 1);
}

static bool new_fault(const uint32_t *words, uint8_t *marks, uint32_t cell) {
    return cell <= words[FAULT_LIMIT] && mark(marks, words[CARD_LIMIT] + cell - 1);
}

/* ---- chains */

/* How many cells were met: of cards and faults that are held, and free ones. */
struct met {
    uint32_t cards, faults, free_cards, free_faults;
};

static bool same_serial(const uint32_t *a, const uint32_t *b) {
    size_t last = last_word(b[SERIAL_LENGTH]);
    return a[SERIAL + last] == b[SERIAL + last] && has_key(a, b[SERIAL_LENGTH], b + SERIAL);
}

/* Whether no card before this one on its chain has its serial. */
static bool serial_is_new(const uint32_t *words, uint32_t bucket, uint32_t card) {
    for (uint32_t cell = words[SEGMENTS + bucket]; cell != card; cell = words[card_at(cell) + NEXT]) {
        if (same_serial(words + card_at(cell), words + card_at(card))) {
            return false;
        }
    }
    return true;
}

/* A card of this bucket: a valid serial that belongs there. */
static bool card_sound(const uint32_t *words, uint32_t bucket, uint32_t cell) {
    struct serial serial = unpack(words + card_at(cell));
    return valid_serial(&serial) && address_of(serial_code(&serial), words[MAXP], words[P]) == bucket &&
           serial_is_new(words, bucket, cell);
}

/* A card's history: valid faults, and the last fault and the count that the card's cell tells. */
static bool history_sound(const uint32_t *words, uint8_t *marks, const uint32_t *card, struct met *met) {
    uint32_t last = 0, count = 0;
    for (uint32_t cell = card[FIRST_FAULT]; cell != 0; cell = words[fault_at(words, cell) + NEXT]) {
        if (!new_fault(words, marks, cell)) {
            return false;
        }
        const uint32_t *fault = words + fault_at(words, cell);
        if (!valid_fault(fault[DAY], fault[CODE])) {
            return false;
        }
        last = cell;
        count++;
    }
    met->faults += count;
    return last == card[LAST_FAULT] && count == card[FAULT_COUNT];
}

static bool bucket_sound(const uint32_t *words, uint8_t *marks, uint32_t bucket, struct met *met) {
    for (uint32_t cell = words[SEGMENTS + bucket]; cell != 0; cell = words[card_at(cell) + NEXT]) {
        if (!new_card(words, marks, cell) || !card_sound(words, bucket, cell) ||
            !history_sound(words, marks, words + card_at(cell), met)) {
            return false;
        }
        met->cards++;
    }
    return true;
}

/* A free cell is zero but for its next word. */
static bool free_cards_sound(const uint32_t *words, uint8_t *marks, struct met *met) {
    for (uint32_t cell = words[FREE_CARD]; cell != 0; cell = words[card_at(cell) + NEXT]) {
        if (!new_card(words, marks, cell) || !all_zero(words + card_at(cell) + 1, CARD_WORDS - 1)) {
            return false;
        }
        met->free_cards++;
    }
    return true;
}

static bool free_faults_sound(const uint32_t *words, uint8_t *marks, struct met *met) {
    for (uint32_t cell = words[FREE_FAULT]; cell != 0; cell = words[fault_at(words, cell) + NEXT]) {
        if (!new_fault(words, marks, cell) || !all_zero(words + fault_at(words, cell) + 1, FAULT_WORDS - 1)) {
            return false;
        }
        met->free_faults++;
    }
    return true;
}

/* ---- the whole */

static bool counts_sound(const uint32_t *words, const struct met *met) {
    return met->cards == words[CARDS_HELD] && met->cards + met->free_cards == words[CARD_LIMIT] &&
           met->faults == words[FAULTS_HELD] && met->faults + met->free_faults == words[FAULT_LIMIT];
}

static bool cells_sound(const uint32_t *words, uint8_t *marks) {
    struct met met = {0, 0, 0, 0};
    for (uint32_t bucket = 0; bucket < buckets_of(words); bucket++) {
        if (!bucket_sound(words, marks, bucket, &met)) {
            return false;
        }
    }
    return free_cards_sound(words, marks, &met) && free_faults_sound(words, marks, &met) && counts_sound(words, &met);
}

bool sound(const uint32_t *words, size_t length, uint8_t *scratch) {
    memset(scratch, 0, SCRATCH);
    bool answer = front_sound(words, length) && cells_sound(words, scratch);
    memset(scratch, 0, SCRATCH);
    return answer;
}
