/*
 * The card store for C and C++. Link target/staticlib/libcard_store.a, which `tools/staticlib
 * card_store` writes. It is x86-64 code with the calling convention of Linux, and of the linker it
 * wants memcpy and memset alone. docs/C.md is the page on it; docs/RULES.md has the rules.
 *
 * A store is one run of 32-bit words that the caller lends. reader_open makes it; reader_enter,
 * reader_file, reader_show and reader_withdraw work on it; reader_job runs text lines against it;
 * reader_report sums up the faults of several. Every function is proved against the written rules,
 * for every input. It always returns, keeps nothing from one call to the next, and has no heap, no
 * lock, no input and no output. Any number of threads may call at once, each with its own buffers.
 *
 *
 * WHAT THE CALLER MUST KEEP
 *
 * The functions cannot see these, and believe them.
 *
 * - No pointer is NULL, not even where its length is 0.
 * - Each pointer has as many elements behind it as the length says that follows it: 32-bit words for
 *   `words`, `room` and `lengths`, bytes for all others. A serial has all sixteen bytes, whatever
 *   its length is.
 * - `words`, `room` and `lengths` stand at multiples of 4, a tally at a multiple of 8. Variables of
 *   the types below do.
 * - Buffers lent to one call do not overlap. Two that it only reads may.
 * - Until a call returns, nobody else (a thread, a signal handler) writes to what it was lent, or
 *   looks at what it may write: words that are not const, scratch, room, out, a tally, a serial
 *   that is being made.
 * - The stack is deep enough: READER_STACK_CALL bytes, READER_STACK_JOB for reader_job and
 *   READER_STACK_REPORT for reader_report. What memcpy and memset take comes on top.
 *
 *
 * WHAT THEY MAY HOLD
 *
 * Anything. Words of any content and number, serials and labels of any bytes and any length, days,
 * codes, limits and bounds of any value, scratch, room, out and tally of any content, text of any
 * bytes: the function returns with a number, and has touched no memory but what it was lent.
 * Nothing need be zero beforehand.
 *
 * A refused call changes no word of a store, of a room or of an output. Only a job that is stopped
 * by READER_SHORT_ROOM has done the lines before, and answered them.
 *
 * Scratch is 384 bytes for the work of one call; several stores can share it, one call after
 * another. After READER_SHORT_SCRATCH all of it is as it was. After every other number its first 384
 * bytes are zero and the rest is as it was.
 */
#ifndef READER_H
#define READER_H

#include <stddef.h>
#include <stdint.h>

#ifdef __cplusplus
extern "C" {
#endif

/* ---- the version ------------------------------------------------------------------------------ */

/*
 * The version of this interface, for #if: 1000 times its major part and its minor part, so 1.0 is
 * 1000. It rises where the interface changes, and only there. Where functions, types or macros are
 * added, the minor part rises by one. Where a program that was right before would be wrong, the major
 * part rises by one and the minor part goes to 0. The Rust crate and card_store.pc have the same
 * version.
 */
#define READER_VERSION 1000

/* ---- the numbers ------------------------------------------------------------------------------ */

/*
 * What a call gives. The first that applies is given, in this order: 11, 13, 14, 3, 12, 4, 5, 6 or
 * 7, 8 or 9, 10; of reader_open 1, 15, 2. Which of them a function gives, and when, stands with it.
 */
enum reader_number {
    READER_DONE = 0,           /* it was done */
    READER_BAD_LIMITS = 1,     /* open: the card limit or the fault limit is out of range */
    READER_BAD_LENGTH = 2,     /* open: not as many words as the limits ask for */
    READER_NOT_SOUND = 3,      /* the words are not those of a sound store */
    READER_BAD_SERIAL = 4,     /* the serial is not valid */
    READER_BAD_FAULT = 5,      /* the day or the code of a fault is out of range */
    READER_ALREADY_HELD = 6,   /* a card with this serial is held */
    READER_NOT_HELD = 7,       /* no card with this serial is held */
    READER_CARDS_FULL = 8,     /* as many cards are held as the limit allows */
    READER_FAULTS_FULL = 9,    /* as many faults are held as the limit allows */
    READER_SHORT_ROOM = 10,    /* the room, or the output, is too short for the answer */
    READER_SHORT_SCRATCH = 11, /* the scratch has fewer than 384 bytes */
    READER_BAD_LINE = 12,      /* a line of a job is not well formed; it stands in an answer only */
    READER_LONG_TEXT = 13,     /* job: the text has more than 16,384 bytes */
    READER_BAD_STORES = 14,    /* report: no store, or more than eight */
    READER_BAD_BOUNDS = 15     /* open: the load bounds are out of range */
};

/* ---- the sizes -------------------------------------------------------------------------------- */

/* All of these are whole numbers without a cast: for array sizes, and for #if. */

/* The highest card limit and fault limit. The lowest is 1. */
#define READER_MOST_CARDS 1024
#define READER_MOST_FAULTS 2048

/* The words of a store with these limits, exactly; of the largest store, 15,648. */
#define READER_WORDS(cards, faults) (288 + 9 * (cards) + 3 * (faults))
#define READER_MOST_WORDS READER_WORDS(READER_MOST_CARDS, READER_MOST_FAULTS)

/* The bytes of scratch, for every call and every store: one bit for each cell of the largest. */
#define READER_SCRATCH 384

/* The words of room for the listing of a card with so many faults. A card has at most as many faults
   as its store may hold, so READER_ROOM of the fault limit is always enough. */
#define READER_ROOM(faults) (2 * (faults))

/* The bytes of the longest text of a job. */
#define READER_MOST_TEXT 16384

/* The bytes that one answer of a job takes at most, with its LF, where the card has so many faults.
   The number has at most two digits; comparisons, scanned and faults at most four each, since no
   store has more than 1,024 cards or 2,048 faults; with three spaces and LF that is 18. A fault is a
   space, a day of at most five digits, a colon and a code of at most four: 11. */
#define READER_ANSWER(faults) (18 + 11 * (faults))

/* The most stores of one report. */
#define READER_MOST_STORES 8

/* The bytes that a report takes at most where so many codes occur, and where all 9,999 do: 549,989.
   No more codes can occur than faults are held. */
#define READER_REPORT(codes) (44 + 55 * (codes))
#define READER_MOST_REPORT READER_REPORT(9999)

/* The bytes in which a serial travels. */
#define READER_SERIAL_BYTES 16

/* The bytes of stack that a call takes at most, memcpy and memset left out: any function but the two
   named, reader_job, and reader_report. Measured in the library and rounded up. */
#define READER_STACK_CALL 1024
#define READER_STACK_JOB 18432
#define READER_STACK_REPORT 204800

/* What reader_address returns where maxp and p are no state of a table. No bucket has this number. */
#define READER_NO_ADDRESS UINT32_C(4294967295)

/* ---- what goes in and comes back -------------------------------------------------------------- */

/*
 * A serial as it travels: sixteen bytes, the unused ones zero. Its length goes beside it. A serial is
 * valid if its length is 1 to 16, each of its bytes is a digit, a capital letter or a hyphen, and all
 * bytes behind it are zero. Two serials are equal if their lengths and all their bytes are: `7`, `07`
 * and `007` are three cards. reader_pad makes one from a label.
 */
typedef struct reader_serial {
    uint8_t bytes[READER_SERIAL_BYTES];
} reader_serial;

/* What enter, file, show and withdraw give. */
typedef struct reader_answer {
    uint32_t number;      /* one of the numbers above */
    uint32_t comparisons; /* the cards that were compared in the search */
    uint32_t scanned;     /* the cards that a split or a contraction went through */
    uint32_t faults;      /* the faults of the card */
} reader_answer;

/* What a job gives. */
typedef struct reader_done {
    uint32_t number; /* 0 if every line was answered */
    uint32_t lines;  /* the lines done, each with its answer */
    uint32_t bytes;  /* the bytes of these answers, from the front of the output on */
} reader_done;

/* What a report gives. */
typedef struct reader_wrote {
    uint32_t number; /* one of the numbers above */
    uint32_t count;  /* the bytes written from the front of the output on, 0 where it was refused */
} reader_wrote;

/* What jobs count, each number held at its top instead of passing it. Set it to zero to begin. */
typedef struct reader_tally {
    uint64_t entries;      /* accepted entries */
    uint64_t withdrawals;  /* accepted withdrawals */
    uint64_t filings;      /* accepted filings */
    uint64_t splits;       /* splits of a bucket */
    uint64_t contractions; /* contractions of the table */
    uint64_t comparisons;  /* the comparisons of all answered lines */
} reader_tally;

/* ---- a store ---------------------------------------------------------------------------------- */

/*
 * Makes the words a fresh store, whatever they were: no cards, no faults. `cards` and `faults` are
 * its limits, `upper` and `lower` its load bounds in cards a bucket; if you have no wish, take 4 and
 * 2. All four stay for the store's life.
 *
 * Gives, the first that applies:
 *      1  cards is not 1 to 1,024, or faults is not 1 to 2,048
 *     15  upper is not 2 to 10, or lower is 0, or 2 * lower is more than upper
 *      2  words_length is not READER_WORDS(cards, faults)
 *      0  done
 *
 * Leaves:
 *     words    0: all of them those of the fresh store
 *              1, 15, 2: as they were
 */
uint32_t reader_open(uint32_t *words, size_t words_length, uint32_t cards, uint32_t faults,
                     uint32_t upper, uint32_t lower);

/*
 * Tests whether the words are those of a sound store, as every function below does by itself. For
 * words that come from elsewhere, and to find the store that made a report give 3.
 *
 * Gives, the first that applies:
 *     11  scratch_length is under 384
 *      3  the words are not those of a sound store
 *      0  they are
 *
 * Leaves:
 *     words    as they were
 *     scratch  11: as it was
 *              3, 0: the first 384 bytes zero, the rest as it was
 */
uint32_t reader_check(const uint32_t *words, size_t words_length, uint8_t *scratch,
                      size_t scratch_length);

/* ---- the calls -------------------------------------------------------------------------------- */

/*
 * Makes a serial from a label: its bytes, and zeros up to sixteen. Of more than sixteen bytes it
 * takes the first sixteen; give the label's own length to the call, which then refuses it by 4. A
 * label is not judged here.
 *
 * Leaves:
 *     label    as it was
 *     serial   all sixteen bytes written
 */
void reader_pad(const uint8_t *label, size_t label_length, reader_serial *serial);

/*
 * Enters a card, without faults, at the end of its bucket's chain. A split of one bucket may follow.
 *
 * Gives, the first that applies:
 *     11  scratch_length is under 384
 *      3  the words are not those of a sound store
 *      4  the serial is not valid
 *      6  a card with this serial is held
 *      8  as many cards are held as the card limit
 *      0  done
 * with
 *     comparisons  11, 3, 4: 0. 6: the card's place in its bucket's chain, from 1. 8, 0: the length
 *                  of the chain where it would stand, as it was before
 *     scanned      0, with a split: the cards of the bucket that was split, just before it, the new
 *                  card too if it went there. Else 0
 *     faults       0
 *
 * Leaves:
 *     words    0: the store with the card
 *              else as they were
 *     scratch  11: as it was
 *              else the first 384 bytes zero, the rest as it was
 *     serial   as it was
 */
reader_answer reader_enter(uint32_t *words, size_t words_length, uint8_t *scratch,
                           size_t scratch_length, const reader_serial *serial,
                           size_t serial_length);

/*
 * Files a fault against a card: a day, 1 to 65,535, and a code, 1 to 9,999. It goes to the end of the
 * card's history, whatever its day is.
 *
 * Gives, the first that applies:
 *     11  scratch_length is under 384
 *      3  the words are not those of a sound store
 *      4  the serial is not valid
 *      5  day is not 1 to 65,535, or code is not 1 to 9,999
 *      7  no card with this serial is held
 *      9  as many faults are held as the fault limit
 *      0  done
 * with
 *     comparisons  11, 3, 4, 5: 0. 7: the length of the chain where the card would stand. 9, 0: the
 *                  card's place in its bucket's chain, from 1
 *     scanned      0
 *     faults       0: the faults that the card has now. Else 0
 *
 * Leaves:
 *     words    0: the store with the fault
 *              else as they were
 *     scratch  11: as it was
 *              else the first 384 bytes zero, the rest as it was
 *     serial   as it was
 */
reader_answer reader_file(uint32_t *words, size_t words_length, uint8_t *scratch,
                          size_t scratch_length, const reader_serial *serial, size_t serial_length,
                          uint32_t day, uint32_t code);

/*
 * Lists the faults of a card in the room, as day, code, day, code, from its first word on: by rising
 * day, those of one day in the order of filing.
 *
 * Gives, the first that applies:
 *     11  scratch_length is under 384
 *      3  the words are not those of a sound store
 *      4  the serial is not valid
 *      7  no card with this serial is held
 *     10  room_length is under 2 words for each fault of the card
 *      0  done
 * with
 *     comparisons  11, 3, 4: 0. 7: the length of the chain where the card would stand. 10, 0: the
 *                  card's place in its bucket's chain, from 1
 *     scanned      0
 *     faults       10, 0: the faults of the card. Else 0
 *
 * Leaves:
 *     words    as they were
 *     scratch  11: as it was
 *              else the first 384 bytes zero, the rest as it was
 *     serial   as it was
 *     room     0: the listing in the first 2 * faults words, the rest as it was
 *              else as it was
 */
reader_answer reader_show(const uint32_t *words, size_t words_length, uint8_t *scratch,
                          size_t scratch_length, const reader_serial *serial, size_t serial_length,
                          uint32_t *room, size_t room_length);

/*
 * Lists the faults of a card as reader_show does and removes it with them. A contraction of the table
 * may follow. Entered again, a card starts without faults.
 *
 * Gives, the first that applies:
 *     11  scratch_length is under 384
 *      3  the words are not those of a sound store
 *      4  the serial is not valid
 *      7  no card with this serial is held
 *     10  room_length is under 2 words for each fault of the card, which stays
 *      0  done
 * with
 *     comparisons  11, 3, 4: 0. 7: the length of the chain where the card would stand. 10, 0: the
 *                  card's place in its bucket's chain, from 1, as it was before
 *     scanned      0, with a contraction: the cards of the bucket that goes, the withdrawn card no
 *                  longer among them. Else 0
 *     faults       10, 0: the faults of the card. Else 0
 *
 * Leaves:
 *     words    0: the store without the card
 *              else as they were
 *     scratch  11: as it was
 *              else the first 384 bytes zero, the rest as it was
 *     serial   as it was
 *     room     0: the listing in the first 2 * faults words, the rest as it was
 *              else as it was
 */
reader_answer reader_withdraw(uint32_t *words, size_t words_length, uint8_t *scratch,
                              size_t scratch_length, const reader_serial *serial,
                              size_t serial_length, uint32_t *room, size_t room_length);

/* ---- a job ------------------------------------------------------------------------------------ */

/*
 * Runs a text of lines against a store: `E serial`, `F serial day code`, `S serial`, `W serial`, each
 * ended by LF, the last one with or without. docs/JOB.md has the text and its answers. Each line is
 * answered by one line of number, comparisons, scanned and faults, behind a done S or W ` day:code`
 * for each fault, and LF. A line that is refused changes nothing and the next is run; its number, 12,
 * 4, 5, 6, 7, 8 or 9, stands in its answer and not here.
 *
 * Gives, the first that applies:
 *     11  scratch_length is under 384
 *     13  text_length is over 16,384
 *      3  the words are not those of a sound store; tested once, before the first line
 *     10  the answer of a line, with its LF, is longer than the output left. That line is not done
 *         and not counted, nor is any behind it; the lines before it are
 *      0  every line is answered
 * with
 *     lines  11, 13, 3: 0. 10, 0: the lines done
 *     bytes  11, 13, 3: 0. 10, 0: the bytes of their answers
 *
 * Leaves:
 *     words    11, 13, 3: as they were
 *              10, 0: the store after the lines done
 *     scratch  11: as it was
 *              else the first 384 bytes zero, the rest as it was
 *     text     as it was
 *     out      11, 13, 3: as it was
 *              10, 0: the answers in the first `bytes` bytes, the rest as it was
 *     tally    11, 13, 3: as it was
 *              10, 0: the lines done added to what it held
 */
reader_done reader_job(uint32_t *words, size_t words_length, uint8_t *scratch,
                       size_t scratch_length, const uint8_t *text, size_t text_length, uint8_t *out,
                       size_t out_length, reader_tally *tally);

/* ---- a report --------------------------------------------------------------------------------- */

/*
 * Writes one text over up to eight stores that stand one behind another in `words`; `lengths` has how
 * many words each has. docs/REPORT.md has the text: for each fault code that occurs a line of code,
 * entries, cards, earliest and latest day; then a line with all cards, one with all faults, and,
 * where there is a card, one with the faults per thousand cards and the remainder.
 *
 * Gives, the first that applies:
 *     11  scratch_length is under 384
 *     14  stores is not 1 to 8
 *      3  the lengths do not add up to words_length, or the words of a store are not those of a sound
 *         one; so a length of 0 is 3
 *     10  the text is longer than the output
 *      0  done
 * with
 *     count  0: the bytes of the text. Else 0
 *
 * Leaves:
 *     words    as they were
 *     lengths  as they were
 *     scratch  11: as it was
 *              else the first 384 bytes zero, the rest as it was
 *     out      0: the text in the first `count` bytes, the rest as it was
 *              else as it was
 */
reader_wrote reader_report(const uint32_t *words, size_t words_length, const uint32_t *lengths,
                           size_t stores, uint8_t *scratch, size_t scratch_length, uint8_t *out,
                           size_t out_length);

/* ---- the two rules of the table --------------------------------------------------------------- */

/* No call above needs them. They stand alone in target/staticlib/librules.a too, which
   `tools/staticlib rules` writes. */

/*
 * The serial code: start at 0; for each byte, from the first to the last, the code becomes
 * 33 * code + byte, modulo 2^32.
 *
 * `bytes` points to `length` bytes, which are read and left as they are. Any byte and any length
 * have a code, so a label can be given as it was scanned, before it is known to be a valid serial.
 * The code of no bytes is 0; with length 0 nothing is read, but `bytes` must still not be NULL.
 *
 *     "7"   -> 55        one byte, 55 in ASCII
 *     "07"  -> 1639      33 * 48 + 55
 *     "007" -> 53911     33 * (33 * 48 + 48) + 55
 */
uint32_t reader_code(const uint8_t *bytes, size_t length);

/*
 * The address rule: the number of the bucket where a card with this code stands, in a table with
 * maxp + p buckets.
 *
 * A table's state is a maxp of 16, 32, 64, 128 or 256 and a p below maxp, with maxp + p at most 256.
 * In a state, let a = code mod maxp. The address is a, or code mod (2 * maxp) if a is below p, and it
 * is always below maxp + p. For any other maxp or p the address is READER_NO_ADDRESS.
 *
 *     code 55,    maxp 16,  p 7  -> 7        a = 7 is not below p
 *     code 55,    maxp 16,  p 8  -> 23       a = 7 is below p: 55 mod 32
 *     code 1639,  maxp 16,  p 8  -> 7        1639 mod 32
 *     code 53911, maxp 16,  p 8  -> 23       53911 mod 32
 *     code 53911, maxp 256, p 0  -> 151
 *     any code,   maxp 24,  p 0  -> READER_NO_ADDRESS
 *     any code,   maxp 256, p 1  -> READER_NO_ADDRESS    257 buckets
 */
uint32_t reader_address(uint32_t code, uint32_t maxp, uint32_t p);

#ifdef __cplusplus
}
#endif

#endif
