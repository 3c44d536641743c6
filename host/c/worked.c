/* Document 01's worked job, call by call in place of text: each answer is printed as the job answers the line. */
#include <inttypes.h>
#include <stdio.h>
#include <string.h>

#include "reader.h"

#define CARDS 256
#define FAULTS 512
#define COUNT(array) (sizeof(array) / sizeof((array)[0]))

static uint32_t words[READER_WORDS(CARDS, FAULTS)];
static uint8_t scratch[READER_SCRATCH];
static uint32_t room[READER_ROOM(FAULTS)];

static reader_serial serial;

/* The serial of a label; gives its length. */
static size_t scan(const char *label) {
    reader_pad((const uint8_t *)label, strlen(label), &serial);
    return strlen(label);
}

/* The answer, with as many pairs of the room behind it. */
static void print(reader_answer a, uint32_t pairs) {
    uint32_t k;
    printf("%" PRIu32 " %" PRIu32 " %" PRIu32 " %" PRIu32, a.number, a.comparisons, a.scanned, a.faults);
    for (k = 0; k < pairs; k++) printf(" %" PRIu32 ":%" PRIu32, room[2 * k], room[2 * k + 1]);
    printf("\n");
}

static void enter(const char *label) {
    const size_t length = scan(label);
    print(reader_enter(words, COUNT(words), scratch, COUNT(scratch), &serial, length), 0);
}

static void file(const char *label, uint32_t day, uint32_t code) {
    const size_t length = scan(label);
    print(reader_file(words, COUNT(words), scratch, COUNT(scratch), &serial, length, day, code), 0);
}

static void show(const char *label) {
    const size_t length = scan(label);
    const reader_answer a =
        reader_show(words, COUNT(words), scratch, COUNT(scratch), &serial, length, room, COUNT(room));
    print(a, a.number == READER_DONE ? a.faults : 0);
}

static void withdraw(const char *label) {
    const size_t length = scan(label);
    const reader_answer a =
        reader_withdraw(words, COUNT(words), scratch, COUNT(scratch), &serial, length, room, COUNT(room));
    print(a, a.number == READER_DONE ? a.faults : 0);
}

int main(void) {
    if (reader_open(words, COUNT(words), CARDS, FAULTS, 4, 2) != READER_DONE) return 1;
    enter("7");
    enter("007");
    file("007", 100, 12);
    show("7");
    show("007");
    enter("7");
    withdraw("007");
    show("007");
    file("7", 0, 5);
    return 0;
}
