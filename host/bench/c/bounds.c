/* What load bounds cost: one workload, the same for each pair of bounds, on a store of 1,024 cards, and a table of what it
 * counted. No clock is read, so the table is the same on every machine. ../README.md says how to read it. */
#include <inttypes.h>
#include <stdio.h>
#include <stdlib.h>

#include "store.h"

enum { FEW = 100, FAULTS = 1, WORDS = CARDS + CARD_WORDS * MOST_CARDS + FAULT_WORDS * FAULTS };

static const struct bounds pairs[] = {{2, 1}, {4, 2}, {6, 3}, {8, 4}, {10, 5}, {10, 1}};

/* The numbers of cards at which the chains are looked at, on the way up. */
enum { STOPS = 3 };
static const uint32_t stops[STOPS] = {256, 512, MOST_CARDS};

static uint32_t words[WORDS];
static uint8_t scratch[SCRATCH];
static struct pair list[FAULTS];

/* The buckets of a table, and the cards of its longest chain. */
struct chains {
    uint32_t buckets, longest;
};

/* `few` is the number of buckets once the store is down to few cards. Comparisons are those of all lookups at the top. */
struct counts {
    struct chains chains[STOPS];
    uint32_t few, held, missing, splits, contractions, scanned, most;
};

static void fail(const char *why) {
    fprintf(stderr, "bounds: %s\n", why);
    exit(2);
}

/* ---- serials and calls */

/* Serials of one maker: `TG-` and a running number of six digits. */
static struct serial numbered(uint32_t number) {
    struct serial serial = {"TG-", 9};
    for (size_t at = serial.length; at > 3; at--) {
        serial.bytes[at - 1] = (uint8_t)('0' + number % 10);
        number /= 10;
    }
    return serial;
}

static void count_change(uint32_t before, uint32_t scanned, struct counts *counts) {
    uint32_t after = buckets_of(words);
    counts->splits += before < after;
    counts->contractions += after < before;
    counts->scanned += scanned;
    counts->most = counts->most < scanned ? scanned : counts->most;
}

/* One checked call, so that soundness is tested before every call. Gives the comparisons. */
static uint32_t call_on(enum operation operation, uint32_t number, uint32_t expected, struct counts *counts) {
    struct request request = {operation, numbered(number), 0, 0};
    uint32_t before = buckets_of(words);
    struct answer answer = call(words, WORDS, scratch, SCRATCH, &request, list, FAULTS);
    if (answer.number != expected) {
        fail("a call was answered by another number than it should");
    }
    count_change(before, answer.scanned, counts);
    return answer.comparisons;
}

/* ---- the workload */

static struct chains chains_now(void) {
    struct chains chains = {buckets_of(words), 0};
    for (uint32_t bucket = 0; bucket < chains.buckets; bucket++) {
        uint32_t length = 0;
        for (uint32_t cell = words[SEGMENTS + bucket]; cell != 0; cell = words[card_at(cell) + NEXT]) {
            length++;
        }
        chains.longest = chains.longest < length ? length : chains.longest;
    }
    return chains;
}

static void fill(struct counts *counts) {
    for (uint32_t stop = 0; stop < STOPS; stop++) {
        while (words[CARDS_HELD] < stops[stop]) {
            call_on(ENTER, words[CARDS_HELD] + 1, 0, counts);
        }
        counts->chains[stop] = chains_now();
    }
}

/* Every card, and as many serials behind the last. */
static void look_up(struct counts *counts) {
    for (uint32_t number = 1; number <= MOST_CARDS; number++) {
        counts->held += call_on(SHOW, number, 0, counts);
        counts->missing += call_on(SHOW, MOST_CARDS + number, 7, counts);
    }
}

/* Down to the last few cards, and up again with those that were withdrawn. */
static void down_and_up(struct counts *counts) {
    for (uint32_t number = 1; number <= MOST_CARDS - FEW; number++) {
        call_on(WITHDRAW, number, 0, counts);
    }
    counts->few = buckets_of(words);
    for (uint32_t number = 1; number <= MOST_CARDS - FEW; number++) {
        call_on(ENTER, number, 0, counts);
    }
}

static struct counts work(struct bounds bounds) {
    struct counts counts = {{{0, 0}}, 0, 0, 0, 0, 0, 0, 0};
    if (open_store(words, WORDS, MOST_CARDS, FAULTS, bounds) != 0) {
        fail("the store is not opened");
    }
    fill(&counts);
    look_up(&counts);
    down_and_up(&counts);
    if (!sound(words, WORDS, scratch)) {
        fail("the store is not sound at the end");
    }
    return counts;
}

/* ---- the tables */

static double average(const struct counts *counts, uint32_t stop) {
    return (double)stops[stop] / counts->chains[stop].buckets;
}

static double each(uint32_t comparisons) {
    return (double)comparisons / MOST_CARDS;
}

static void print_head(void) {
    printf("           buckets at     average chain at      longest chain at       comparisons");
    printf("             contrac-   cards scanned\n");
    printf("  U, L  1,024   100    256    512  1,024     256   512 1,024     held  not held");
    printf("  splits     tions   in all   most\n");
}

static void print_line(struct bounds bounds, const struct counts *c) {
    const struct chains *at = c->chains;
    printf("%3" PRIu32 ",%2" PRIu32 "%7" PRIu32 "%6" PRIu32, bounds.upper, bounds.lower, at[STOPS - 1].buckets, c->few);
    printf("%7.2f%7.2f%7.2f", average(c, 0), average(c, 1), average(c, 2));
    printf("%8" PRIu32 "%6" PRIu32 "%6" PRIu32, at[0].longest, at[1].longest, at[2].longest);
    printf("%9.2f%10.2f%8" PRIu32 "%10" PRIu32, each(c->held), each(c->missing), c->splits, c->contractions);
    printf("%9" PRIu32 "%7" PRIu32 "\n", c->scanned, c->most);
}

static void print_cell(uint32_t number) {
    if (number < 1000) {
        printf(" %" PRIu32 " |", number);
    } else {
        printf(" %" PRIu32 ",%03" PRIu32 " |", number / 1000, number % 1000);
    }
}

/* The same as a row of a table in a text. */
static void print_row(struct bounds bounds, const struct counts *c) {
    printf("| %" PRIu32 ", %" PRIu32 " |", bounds.upper, bounds.lower);
    print_cell(c->chains[STOPS - 1].buckets);
    print_cell(c->few);
    for (uint32_t stop = 0; stop < STOPS; stop++) {
        printf(" %.2f, %" PRIu32 " |", average(c, stop), c->chains[stop].longest);
    }
    printf(" %.2f | %.2f |", each(c->held), each(c->missing));
    print_cell(c->splits);
    print_cell(c->contractions);
    print_cell(c->scanned);
    print_cell(c->most);
    printf("\n");
}

int main(void) {
    enum { PAIRS = sizeof pairs / sizeof *pairs };
    struct counts counts[PAIRS];
    print_head();
    for (size_t i = 0; i < PAIRS; i++) {
        counts[i] = work(pairs[i]);
        print_line(pairs[i], &counts[i]);
    }
    printf("\n");
    for (size_t i = 0; i < PAIRS; i++) {
        print_row(pairs[i], &counts[i]);
    }
    return 0;
}
