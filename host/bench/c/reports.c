/* Makes reports over the stores of standard input, and ends with the line of sums. ../README.md says what the input is. */
#include <inttypes.h>
#include <stdio.h>
#include <stdlib.h>

#include "report.h"
#include "store.h"

enum { MOST_INPUT = 524288, MOST_WORDS = MOST_INPUT / 4, OUT = 524288 };

/* The head, and the kind that makes a second report of each group, on stores known to be sound. */
enum { KIND, WRITTEN, TURNS, GROUP, STORES, HEAD };
enum { TWICE = 2 };

static uint8_t input[MOST_INPUT], out[OUT], scratch[SCRATCH];
static uint32_t words[MOST_WORDS];

struct sums {
    uint64_t numbers, reports, bytes;
    uint32_t last;
};

static void fail(const char *why) {
    fprintf(stderr, "bench_c: %s\n", why);
    exit(2);
}

static uint32_t little_end(const uint8_t *b) {
    return (uint32_t)b[3] << 24 | (uint32_t)b[2] << 16 | (uint32_t)b[1] << 8 | b[0];
}

static size_t read_words(void) {
    size_t count = fread(input, 1, MOST_INPUT, stdin) / 4;
    for (size_t i = 0; i < count; i++) {
        words[i] = little_end(input + 4 * i);
    }
    return count;
}

static void add(struct sums *sums, struct wrote wrote) {
    sums->numbers += wrote.number;
    sums->reports += 1;
    sums->bytes += wrote.bytes;
    sums->last = wrote.bytes;
}

static void run_group(const struct run *run, struct sums *sums) {
    struct wrote wrote = report(run, scratch, out, OUT);
    add(sums, wrote);
    if (wrote.number == 0 && words[KIND] == TWICE) {
        add(sums, report_sound(run, out, OUT));
    }
}

static size_t words_of(const uint32_t *lengths, size_t stores) {
    size_t sum = 0;
    for (size_t i = 0; i < stores; i++) {
        sum += lengths[i];
    }
    return sum;
}

/* Each group in turn. */
static void run_groups(const struct run *all, struct sums *sums) {
    size_t at = 0, left = all->stores;
    for (const uint32_t *lengths = all->lengths; left > 0;) {
        size_t stores = left < words[GROUP] ? left : words[GROUP], count = words_of(lengths, stores);
        struct run run = {all->words + at, lengths, count < all->count - at ? count : all->count - at, stores};
        run_group(&run, sums);
        at += run.count;
        lengths += stores;
        left -= stores;
    }
}

/* One turn before all others, and so many more. */
static struct sums run_turns(const struct run *run) {
    struct sums sums = {0, 0, 0, 0};
    run_groups(run, &sums);
    for (uint32_t turn = 0; turn < words[TURNS]; turn++) {
        run_groups(run, &sums);
    }
    return sums;
}

/* A sum over all bytes of a text, in which their order counts. */
static uint32_t sum_of(const uint8_t *text, size_t length) {
    uint32_t sum = 0;
    for (size_t i = 0; i < length; i++) {
        sum = 3 * sum + text[i];
    }
    return sum;
}

int main(void) {
    size_t count = read_words();
    if (count < HEAD || words[GROUP] < 1 || count - HEAD < words[STORES]) {
        fail("an input that is cut short, or groups of none");
    }
    size_t stores = words[STORES], start = HEAD + stores;
    struct run run = {words + start, words + HEAD, count - start, stores};
    struct sums sums = run_turns(&run);
    if (words[WRITTEN] != 0) {
        fwrite(out, 1, sums.last, stdout);
    }
    printf("sum %" PRIu64 " %" PRIu64 " %" PRIu64 " %" PRIu32 "\n", sums.numbers, sums.reports, sums.bytes,
           sum_of(out, sums.last));
    return 0;
}
