/* Faults by code: one report over up to eight stores, which stand one behind another in one run of words. */
#ifndef REPORT_H
#define REPORT_H

#include <stddef.h>
#include <stdint.h>

enum { MOST_STORES = 8, MOST_CODE = 9999 };

/* The stores: their words, and as many lengths as there are stores. */
struct run {
    const uint32_t *words, *lengths;
    size_t count, stores;
};

struct wrote {
    uint32_t number, bytes;
};

/* The report with its tests of soundness. The SCRATCH bytes of scratch end zero. */
struct wrote report(const struct run *run, uint8_t *scratch, uint8_t *out, size_t room);

/* The same on stores known to be sound. */
struct wrote report_sound(const struct run *run, uint8_t *out, size_t room);

#endif
