/* The job: lines of text run against a store, an answer line for each. */
#ifndef JOB_H
#define JOB_H

#include "store.h"

enum { LONGEST_JOB = 16384 };

/* What jobs have done, summed up. A count stays at its top instead of passing it. */
struct tally {
    uint64_t entries, withdrawals, filings, splits, contractions, comparisons;
};

/* How a job ended. */
struct done {
    uint32_t number, lines, bytes;
};

struct text {
    const uint8_t *bytes;
    size_t length;
};

struct room {
    uint8_t *bytes;
    size_t length;
};

struct done run_job(uint32_t *words, size_t length, struct room scratch, struct text text, struct room out,
                    struct tally *tally);

#endif
