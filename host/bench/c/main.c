/* Runs the frames of standard input on one store, and ends with the line of sums. ../README.md says what a frame is. */
#include <inttypes.h>
#include <stdio.h>
#include <stdlib.h>
#include <string.h>

#include "job.h"

enum { MOST_INPUT = 262144, OUT = 65536, HEAD = 11, DIGITS = 9 };
enum { WORDS = CARDS + CARD_WORDS * MOST_CARDS + FAULT_WORDS * MOST_FAULTS };

/* The load bounds that the store is opened with. */
enum { UPPER = 4, LOWER = 2 };

static uint8_t input[MOST_INPUT], out[OUT], scratch[SCRATCH];
static uint32_t words[WORDS];
static struct pair list[MOST_FAULTS];

struct sums {
    uint64_t numbers, lines, bytes;
    struct tally tally;
};

/* A frame: its kind, the number in its head, and the text behind the head. */
struct frame {
    uint8_t kind;
    size_t number;
    struct text text;
};

static void fail(const char *why) {
    fprintf(stderr, "bench_c: %s\n", why);
    exit(2);
}

static size_t nine_digits(const uint8_t *digits) {
    size_t number = 0;
    for (size_t i = 0; i < DIGITS; i++) {
        if (digits[i] < '0' || '9' < digits[i]) {
            fail("a head without nine digits");
        }
        number = 10 * number + (digits[i] - '0');
    }
    return number;
}

static bool has_text(uint8_t kind) {
    return kind == 'J' || kind == 'W' || kind == 'S';
}

static struct frame frame_at(const uint8_t *head, size_t rest) {
    if (rest < HEAD || head[HEAD - 1] != '\n') {
        fail("a head that is cut short");
    }
    struct frame frame = {head[0], nine_digits(head + 1), {head + HEAD, 0}};
    frame.text.length = has_text(frame.kind) ? frame.number : 0;
    if (rest - HEAD < frame.text.length) {
        fail("a text that is cut short");
    }
    return frame;
}

static void job(struct text text, bool written, struct sums *sums) {
    struct room marks = {scratch, SCRATCH}, room = {out, OUT};
    struct done done = run_job(words, WORDS, marks, text, room, &sums->tally);
    sums->numbers += done.number;
    sums->lines += done.lines;
    sums->bytes += done.bytes;
    if (written) {
        fwrite(out, 1, done.bytes, stdout);
    }
}

/* One checked Show. */
static void show(struct text text, struct sums *sums) {
    struct request request = {SHOW, {{0}, text.length}, 0, 0};
    memcpy(request.serial.bytes, text.bytes, text.length < SERIAL_BYTES ? text.length : SERIAL_BYTES);
    struct answer answer = call(words, WORDS, scratch, SCRATCH, &request, list, MOST_FAULTS);
    sums->numbers += answer.number;
    sums->lines += 1;
    sums->bytes += sizeof *list * answer.faults;
}

static void check(struct sums *sums) {
    sums->numbers += sound(words, WORDS, scratch) ? 0 : 3;
    sums->lines += 1;
}

static void run_frame(struct frame frame, struct sums *sums) {
    switch (frame.kind) {
    case 'O':
        sums->numbers += open_store(words, WORDS, MOST_CARDS, MOST_FAULTS, (struct bounds){UPPER, LOWER});
        break;
    case 'J':
        job(frame.text, false, sums);
        break;
    case 'W':
        job(frame.text, true, sums);
        break;
    case 'S':
        show(frame.text, sums);
        break;
    case 'C':
        check(sums);
        break;
    default:
        fail("a frame of no known kind");
    }
}

/* Runs the frames from `at` on, up to the end or to an R frame, and gives where it stopped. */
static size_t run_frames(size_t at, size_t end, struct sums *sums) {
    while (at < end && input[at] != 'R') {
        struct frame frame = frame_at(input + at, end - at);
        run_frame(frame, sums);
        at += HEAD + frame.text.length;
    }
    return at;
}

static void run_input(size_t end, struct sums *sums) {
    size_t at = run_frames(0, end, sums);
    if (at == end) {
        return;
    }
    size_t turns = frame_at(input + at, end - at).number;
    for (size_t turn = 0; turn < turns; turn++) {
        run_frames(at + HEAD, end, sums);
    }
}

int main(void) {
    struct sums sums = {0, 0, 0, {0, 0, 0, 0, 0, 0}};
    size_t end = fread(input, 1, MOST_INPUT, stdin);
    run_input(end, &sums);
    struct tally *t = &sums.tally;
    printf("sum %" PRIu64 " %" PRIu64 " %" PRIu64, sums.numbers, sums.lines, sums.bytes);
    printf(" %" PRIu64 " %" PRIu64 " %" PRIu64, t->entries, t->withdrawals, t->filings);
    printf(" %" PRIu64 " %" PRIu64 " %" PRIu64 "\n", t->splits, t->contractions, t->comparisons);
    return 0;
}
