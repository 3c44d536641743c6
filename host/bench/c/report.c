/* The report: one pass over the faults into a row for each code, one over the rows for the length of the text and one for the text. */
#include "report.h"

#include <string.h>

#include "store.h"

/* A code: its entries, the cards that have it, the earliest and the latest day, and the last card counted. */
struct row {
    uint32_t entries, cards, earliest, latest, seen;
};

struct totals {
    uint32_t cards, entries;
};

/* ---- the faults */

/* Without a branch: a processor could not foresee which way it goes. */
static void note(struct row *row, uint32_t card, uint32_t day) {
    uint32_t earlier = day < row->earliest ? day : row->earliest;
    row->earliest = row->entries == 0 ? day : earlier;
    row->latest = row->latest < day ? day : row->latest;
    row->cards += row->seen != card;
    row->seen = card;
    row->entries++;
}

static void note_history(const uint32_t *faults, uint32_t first, struct row *rows, uint32_t card) {
    for (uint32_t cell = first; cell != 0;) {
        const uint32_t *fault = faults + (size_t)FAULT_WORDS * (cell - 1);
        note(rows + fault[CODE], card, fault[DAY]);
        cell = fault[NEXT];
    }
}

/* Cards are numbered from 1 on, over all stores. */
static void note_store(const uint32_t *words, struct row *rows, struct totals *totals) {
    const uint32_t *faults = words + words[FAULTS_AT];
    uint32_t buckets = buckets_of(words), number = totals->cards;
    for (uint32_t bucket = 0; bucket < buckets; bucket++) {
        for (uint32_t cell = words[SEGMENTS + bucket]; cell != 0;) {
            const uint32_t *card = words + card_at(cell);
            note_history(faults, card[FIRST_FAULT], rows, ++number);
            cell = card[NEXT];
        }
    }
    totals->cards = number;
    totals->entries += words[FAULTS_HELD];
}

static struct totals note_all(const struct run *run, struct row *rows) {
    struct totals totals = {0, 0};
    const uint32_t *words = run->words;
    for (size_t i = 0; i < run->stores; i++) {
        note_store(words, rows, &totals);
        words += run->lengths[i];
    }
    return totals;
}

/* ---- the text */

static inline size_t digits_of(uint32_t n) {
    if (n < 10) {
        return 1;
    }
    if (n < 100) {
        return 2;
    }
    if (n < 1000) {
        return 3;
    }
    if (n < 10000) {
        return 4;
    }
    if (n < 100000) {
        return 5;
    }
    return n < 1000000 ? 6 : n < 10000000 ? 7 : n < 100000000 ? 8 : n < 1000000000 ? 9 : 10;
}

/* Writes a number and the byte behind it, and gives the place behind both. */
static uint8_t *write_number(uint8_t *out, uint32_t number, uint8_t behind) {
    uint8_t *end = out + digits_of(number), *at = end;
    do {
        *--at = (uint8_t)('0' + number % 10);
        number /= 10;
    } while (number != 0);
    *end = behind;
    return end + 1;
}

static size_t row_length(uint32_t code, const struct row *row) {
    return digits_of(code) + digits_of(row->entries) + digits_of(row->cards) + digits_of(row->earliest) +
           digits_of(row->latest) + 5;
}

static uint8_t *write_row(uint8_t *out, uint32_t code, const struct row *row) {
    out = write_number(out, code, ' ');
    out = write_number(out, row->entries, ' ');
    out = write_number(out, row->cards, ' ');
    out = write_number(out, row->earliest, ' ');
    return write_number(out, row->latest, '\n');
}

static size_t totals_length(struct totals totals) {
    size_t length = digits_of(totals.cards) + digits_of(totals.entries) + 2;
    if (totals.cards != 0) {
        uint32_t thousand = 1000 * totals.entries;
        length += digits_of(thousand / totals.cards) + digits_of(thousand % totals.cards) + 2;
    }
    return length;
}

static uint8_t *write_totals(uint8_t *out, struct totals totals) {
    out = write_number(out, totals.cards, '\n');
    out = write_number(out, totals.entries, '\n');
    if (totals.cards != 0) {
        uint32_t thousand = 1000 * totals.entries;
        out = write_number(out, thousand / totals.cards, ' ');
        out = write_number(out, thousand % totals.cards, '\n');
    }
    return out;
}

static size_t text_length(const struct row *rows, struct totals totals) {
    size_t length = totals_length(totals);
    for (uint32_t code = 1; code <= MOST_CODE; code++) {
        if (rows[code].entries != 0) {
            length += row_length(code, rows + code);
        }
    }
    return length;
}

static void write_text(uint8_t *out, const struct row *rows, struct totals totals) {
    for (uint32_t code = 1; code <= MOST_CODE; code++) {
        if (rows[code].entries != 0) {
            out = write_row(out, code, rows + code);
        }
    }
    write_totals(out, totals);
}

/* ---- the whole */

static bool all_sound(const struct run *run, uint8_t *scratch) {
    size_t at = 0;
    for (size_t i = 0; i < run->stores; i++) {
        size_t length = run->lengths[i];
        if (run->count - at < length || !sound(run->words + at, length, scratch)) {
            return false;
        }
        at += length;
    }
    return at == run->count;
}

struct wrote report_sound(const struct run *run, uint8_t *out, size_t room) {
    struct row rows[MOST_CODE + 1];
    memset(rows, 0, sizeof rows);
    struct totals totals = note_all(run, rows);
    size_t length = text_length(rows, totals);
    if (room < length) {
        return (struct wrote){10, 0};
    }
    write_text(out, rows, totals);
    return (struct wrote){0, (uint32_t)length};
}

struct wrote report(const struct run *run, uint8_t *scratch, uint8_t *out, size_t room) {
    if (run->stores < 1 || MOST_STORES < run->stores) {
        return (struct wrote){14, 0};
    }
    if (!all_sound(run, scratch)) {
        return (struct wrote){3, 0};
    }
    return report_sound(run, out, room);
}
