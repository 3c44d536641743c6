/*
 * How deep the stack gets: every function runs on a stack that was painted, on a full store, and the lowest byte that lost
 * its paint tells. No more than the figures of reader.h, and no less than half of them, or the paint or the figure is wrong.
 */
#define _XOPEN_SOURCE 700
#include <stdio.h>
#include <string.h>
#include <ucontext.h>

#include "reader.h"

#define COUNT(array) (sizeof(array) / sizeof((array)[0]))
#define PAINT 0xA5

static uint32_t words[READER_MOST_WORDS];
static uint8_t scratch[READER_SCRATCH];
static uint32_t room[READER_ROOM(READER_MOST_FAULTS)];
static uint8_t out[READER_MOST_REPORT];
static const uint32_t lengths[] = {READER_MOST_WORDS};
static reader_tally tally;
static reader_serial serial;
static const uint8_t label[] = "TG-0000000000001";
static char text[READER_MOST_TEXT];

/* ---- the painted stack */

static uint8_t stack[READER_STACK_REPORT + 65536];
static ucontext_t here, there;
static void (*body)(void);
static uint8_t *volatile top;

static void enter_body(void) {
    top = (uint8_t *)__builtin_frame_address(0);
    body();
}

/* The bytes of stack that it took, with those of `call` itself. */
static size_t depth_of(void (*call)(void)) {
    size_t low = 0;
    memset(stack, PAINT, sizeof stack);
    getcontext(&there);
    there.uc_stack.ss_sp = stack;
    there.uc_stack.ss_size = sizeof stack;
    there.uc_link = &here;
    body = call;
    makecontext(&there, enter_body, 0);
    swapcontext(&here, &there);
    while (stack[low] == PAINT) low++;
    return (size_t)(top - stack) - low;
}

/* ---- what runs on it */

static uint32_t number;

static void open_it(void) {
    number = reader_open(words, COUNT(words), READER_MOST_CARDS, READER_MOST_FAULTS, 4, 2);
}

static void check_it(void) {
    number = reader_check(words, COUNT(words), scratch, COUNT(scratch));
}

static void pad_it(void) {
    reader_pad(label, READER_SERIAL_BYTES, &serial);
    number = READER_DONE;
}

static void rules_it(void) {
    const uint32_t address = reader_address(reader_code(label, READER_SERIAL_BYTES), 16, 8);
    number = address == READER_NO_ADDRESS ? READER_NOT_SOUND : READER_DONE;
}

static void enter_it(void) {
    number = reader_enter(words, COUNT(words), scratch, COUNT(scratch), &serial, READER_SERIAL_BYTES).number;
}

static void file_it(void) {
    number = reader_file(words, COUNT(words), scratch, COUNT(scratch), &serial, READER_SERIAL_BYTES, 65535, 9999).number;
}

static void show_it(void) {
    number = reader_show(words, COUNT(words), scratch, COUNT(scratch), &serial, READER_SERIAL_BYTES, room, COUNT(room))
                 .number;
}

static void withdraw_it(void) {
    number = reader_withdraw(words, COUNT(words), scratch, COUNT(scratch), &serial, READER_SERIAL_BYTES, room,
                             COUNT(room))
                 .number;
}

static void job_it(void) {
    number = reader_job(words, COUNT(words), scratch, COUNT(scratch), (const uint8_t *)text, strlen(text), out,
                        COUNT(out), &tally)
                 .number;
}

static void report_it(void) {
    number = reader_report(words, COUNT(words), lengths, COUNT(lengths), scratch, COUNT(scratch), out, COUNT(out)).number;
}

/* ---- the figures */

static int failed;

static size_t deeper(size_t most, const char *name, void (*call)(void)) {
    const size_t depth = depth_of(call);
    if (number != READER_DONE) {
        printf("%s is refused by %u\n", name, (unsigned)number);
        failed = 1;
    }
    return depth > most ? depth : most;
}

static void hold(const char *what, size_t depth, size_t figure) {
    printf("%s: %lu bytes of stack, %lu are stated\n", what, (unsigned long)depth, (unsigned long)figure);
    if (depth > figure || depth < figure / 2) failed = 1;
}

/* Jobs that enter all cards but one, whose serials run on, with two faults each. */
static int fill(void) {
    unsigned card;
    for (card = 2; card <= READER_MOST_CARDS; card++) {
        sprintf(text, "E TG-%013u\nF TG-%013u 65535 %u\nF TG-%013u 1 9999\n", card, card, card, card);
        job_it();
        if (number != READER_DONE) return 0;
    }
    return 1;
}

int main(void) {
    size_t calls = deeper(0, "open", open_it);
    size_t jobs;
    if (!fill()) return 1;
    calls = deeper(calls, "the code and the address", rules_it);
    calls = deeper(calls, "pad", pad_it);
    calls = deeper(calls, "enter", enter_it);
    calls = deeper(calls, "file", file_it);
    calls = deeper(calls, "show", show_it);
    calls = deeper(calls, "check", check_it);
    calls = deeper(calls, "withdraw", withdraw_it);
    hold("a call", calls, READER_STACK_CALL);
    strcpy(text, "E 7\nF 7 65535 9999\nS 7\nW 7\nE 8\nE a\nbad\n");
    jobs = deeper(0, "job", job_it);
    hold("a job", jobs, READER_STACK_JOB);
    hold("a report", deeper(0, "report", report_it), READER_STACK_REPORT);
    return failed;
}
