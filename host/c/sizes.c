/* What the header fixes, tested by the compiler: it is built and not run. A wrong line here does not compile. */
#include "reader.h"

/* In #if the version and the sizes are plain numbers. */
#if READER_VERSION / 1000 != 1
#error "the version"
#endif
#if READER_WORDS(1, 1) != 300 || READER_MOST_WORDS != 15648 || READER_WORDS(128 + 128, 256 * 2) != 4128
#error "the words of a store"
#endif
#if READER_ROOM(1 + 1) != 4 || READER_ANSWER(1 + 1) != 40 || READER_REPORT(1 + 1) != 154
#error "the sizes of answers"
#endif
#if READER_MOST_CARDS != 1024 || READER_MOST_FAULTS != 2048 || READER_MOST_TEXT != 16384 || READER_MOST_STORES != 8
#error "the limits"
#endif
#if READER_MOST_REPORT != 549989 || READER_SCRATCH != 384 || READER_SERIAL_BYTES != 16
#error "the sizes of buffers"
#endif
#if READER_NO_ADDRESS != 4294967295
#error "no address"
#endif

/* A type that there is only where the condition holds. */
#define HOLDS(name, condition) typedef char name[(condition) ? 1 : -1]
#define STANDS(type, field, at) HOLDS(type##_##field, offsetof(type, field) == (at))

HOLDS(answer_size, sizeof(reader_answer) == 16);
STANDS(reader_answer, number, 0);
STANDS(reader_answer, comparisons, 4);
STANDS(reader_answer, scanned, 8);
STANDS(reader_answer, faults, 12);

HOLDS(done_size, sizeof(reader_done) == 12);
STANDS(reader_done, number, 0);
STANDS(reader_done, lines, 4);
STANDS(reader_done, bytes, 8);

HOLDS(wrote_size, sizeof(reader_wrote) == 8);
STANDS(reader_wrote, number, 0);
STANDS(reader_wrote, count, 4);

HOLDS(tally_size, sizeof(reader_tally) == 48);
STANDS(reader_tally, entries, 0);
STANDS(reader_tally, withdrawals, 8);
STANDS(reader_tally, filings, 16);
STANDS(reader_tally, splits, 24);
STANDS(reader_tally, contractions, 32);
STANDS(reader_tally, comparisons, 40);

HOLDS(serial_size, sizeof(reader_serial) == READER_SERIAL_BYTES);
HOLDS(last_number, READER_BAD_BOUNDS == 15);

/* In array sizes, and with a limit that is known only when it runs. */
extern uint32_t words[READER_WORDS(READER_MOST_CARDS, READER_MOST_FAULTS)];
extern uint8_t report[READER_MOST_REPORT];
extern uint32_t words_for(uint32_t cards, uint32_t faults);

uint32_t words[READER_MOST_WORDS];
uint8_t report[READER_REPORT(9999)];

uint32_t words_for(uint32_t cards, uint32_t faults) {
    return READER_WORDS(cards, faults) + READER_ROOM(faults) + READER_ANSWER(faults) + READER_REPORT(faults);
}
