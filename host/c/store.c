/* A card store in a C program, to copy from: every call, what it needs, and what to do where it is refused. */
#include <inttypes.h>
#include <stdio.h>
#include <string.h>

#include "reader.h"

#define COUNT(array) (sizeof(array) / sizeof((array)[0]))

/* The limits are chosen once, and the sizes of all buffers follow from them. 4 and 2 are the load bounds to take
   without a wish of one's own. */
#define CARDS 256
#define FAULTS 512
#define UPPER 4
#define LOWER 2

/* All memory that there is: the store, and what the calls are lent beside it. The scratch, the room and the output can
   serve several stores, one call after another. */
static uint32_t words[READER_WORDS(CARDS, FAULTS)];
static uint8_t scratch[READER_SCRATCH];
static uint32_t room[READER_ROOM(FAULTS)];
static uint8_t out[READER_REPORT(FAULTS)];
static reader_tally tally;

/* The numbers in words, for a display or a log. */
static const char *word_for(uint32_t number) {
    static const char *const list[] = {
        "done",
        "limits out of range",
        "wrong number of words",
        "store not sound",
        "serial not valid",
        "day or code out of range",
        "already held",
        "not held",
        "no card fits any more",
        "no fault fits any more",
        "room too short",
        "scratch too short",
        "line not well formed",
        "text too long",
        "no store, or more than eight",
        "load bounds out of range",
    };
    return number < COUNT(list) ? list[number] : "unknown";
}

/* A label as it was scanned: the serial that travels, and its length. Zeros in front are part of it. */
typedef struct label {
    reader_serial serial;
    size_t length;
} label;

static label label_of(const char *text) {
    label l;
    l.length = strlen(text);
    reader_pad((const uint8_t *)text, l.length, &l.serial);
    return l;
}

/* ---- one function a call, with the answer told */

static void tell(const char *call, const char *text, reader_answer a) {
    printf("%s %s: %s (%" PRIu32 "), %" PRIu32 " compared", call, text, word_for(a.number), a.number, a.comparisons);
    printf(", %" PRIu32 " scanned, %" PRIu32 " faults\n", a.scanned, a.faults);
}

static uint32_t enter(const char *text) {
    const label l = label_of(text);
    const reader_answer a = reader_enter(words, COUNT(words), scratch, COUNT(scratch), &l.serial, l.length);
    tell("enter", text, a);
    return a.number;
}

static uint32_t file(const char *text, uint32_t day, uint32_t code) {
    const label l = label_of(text);
    const reader_answer a = reader_file(words, COUNT(words), scratch, COUNT(scratch), &l.serial, l.length, day, code);
    tell("file", text, a);
    return a.number;
}

/* The room has the faults of the card once the number is 0, and under every other number what it had before. */
static void tell_faults(reader_answer a) {
    uint32_t k;
    if (a.number != READER_DONE) return;
    for (k = 0; k < a.faults; k++) printf("    day %" PRIu32 ", code %" PRIu32 "\n", room[2 * k], room[2 * k + 1]);
}

static uint32_t show(const char *text, size_t room_length) {
    const label l = label_of(text);
    const reader_answer a =
        reader_show(words, COUNT(words), scratch, COUNT(scratch), &l.serial, l.length, room, room_length);
    tell("show", text, a);
    tell_faults(a);
    return a.number;
}

static uint32_t withdraw(const char *text) {
    const label l = label_of(text);
    const reader_answer a =
        reader_withdraw(words, COUNT(words), scratch, COUNT(scratch), &l.serial, l.length, room, COUNT(room));
    tell("withdraw", text, a);
    tell_faults(a);
    return a.number;
}

/* ---- a job in parts: each goes on with the first line that has no answer yet */

/* Where the line behind the next `lines` lines begins. */
static size_t behind(const char *text, uint32_t lines) {
    size_t at = 0;
    while (lines > 0 && text[at] != '\0') {
        if (text[at] == '\n') lines--;
        at++;
    }
    return at;
}

/* An output for one answer is enough: what does not fit comes with the next part. */
static uint32_t job(const char *text, size_t out_length) {
    reader_done d;
    do {
        d = reader_job(words, COUNT(words), scratch, COUNT(scratch), (const uint8_t *)text, strlen(text), out, out_length,
                       &tally);
        printf("job: %s (%" PRIu32 "), %" PRIu32 " lines, %" PRIu32 " bytes\n", word_for(d.number), d.number, d.lines,
               d.bytes);
        printf("%.*s", (int)d.bytes, (const char *)out);
        text += behind(text, d.lines);
    } while (d.number == READER_SHORT_ROOM && d.lines > 0);
    return d.number;
}

static void tell_tally(void) {
    printf("tally: %" PRIu64 " entries, %" PRIu64 " withdrawals, %" PRIu64 " filings", tally.entries, tally.withdrawals,
           tally.filings);
    printf(", %" PRIu64 " splits, %" PRIu64 " contractions, %" PRIu64 " comparisons\n", tally.splits,
           tally.contractions, tally.comparisons);
}

/* Up to eight stores that stand one behind another; here there is one. */
static uint32_t report(void) {
    static const uint32_t lengths[] = {READER_WORDS(CARDS, FAULTS)};
    const reader_wrote w =
        reader_report(words, COUNT(words), lengths, COUNT(lengths), scratch, COUNT(scratch), out, COUNT(out));
    printf("report: %s (%" PRIu32 "), %" PRIu32 " bytes\n", word_for(w.number), w.number, w.count);
    printf("%.*s", (int)w.count, (const char *)out);
    return w.number;
}

static uint32_t open_store(uint32_t cards, uint32_t faults) {
    const uint32_t number = reader_open(words, COUNT(words), cards, faults, UPPER, LOWER);
    printf("open for %" PRIu32 " cards: %s (%" PRIu32 ")\n", cards, word_for(number), number);
    return number;
}

/* Words that come from elsewhere are tested before they are used; a store that is not sound is kept, not opened anew,
   since that would make it empty. */
static uint32_t check(void) {
    const uint32_t number = reader_check(words, COUNT(words), scratch, COUNT(scratch));
    printf("check: %s (%" PRIu32 ")\n", word_for(number), number);
    return number;
}

int main(void) {
    /* A store for more cards wants more words: this is refused, and no word has changed. */
    open_store(CARDS + 1, FAULTS);
    if (open_store(CARDS, FAULTS) != READER_DONE) return 1;

    /* 7 and 007 are two cards, each with its own faults. */
    enter("7");
    enter("007");
    file("007", 140, 4021);
    file("007", 152, 17);
    file("007", 118, 310); /* a slip that comes in late is listed by its day */
    file("7", 200, 5);
    show("007", COUNT(room));
    show("7", COUNT(room));

    /* What is refused changes nothing. */
    enter("7");
    enter("seven");
    enter("12345678901234567"); /* seventeen bytes */
    file("7", 0, 5);
    show("07", COUNT(room));
    if (show("007", 4) == READER_SHORT_ROOM) printf("    two words a fault are wanted, and the room had four\n");

    /* A withdrawal lists the faults as it takes them away; entered again, a card starts without. */
    withdraw("007");
    show("007", COUNT(room));
    enter("007");
    show("007", COUNT(room));

    /* The same as text. The output that is lent here is short, so the job comes in parts. */
    if (job("E A-1\nF A-1 90 12\nF 007 91 12\nS A-1\nE A 1\nW 007\n", READER_ANSWER(1)) != READER_DONE) return 1;
    tell_tally();
    if (report() != READER_DONE) return 1;

    /* A word changed from outside is found, by every call. */
    if (check() != READER_DONE) return 1;
    words[5] += 1;
    check();
    show("7", COUNT(room));
    words[5] -= 1;
    return check() == READER_DONE ? 0 : 1;
}
