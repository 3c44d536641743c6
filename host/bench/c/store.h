/* The store of cards: Open, the checker of soundness, and the four operations.
 *
 * An operation comes in two steps, so that a job knows a line's whole answer before it changes a word: `decide` reads the
 * store and gives the answer, and `change` does what was decided. Both take a store that is sound; `call` takes any. */
#ifndef STORE_H
#define STORE_H

#include <stdbool.h>
#include <stddef.h>
#include <stdint.h>

#include "serial.h"

/* The scratch that the checker needs, in bytes: one bit a cell. */
enum { SCRATCH = 384 };

enum operation { ENTER, FILE_FAULT, SHOW, WITHDRAW };

/* What is asked. Day and code are those of a fault to be filed. */
struct request {
    enum operation operation;
    struct serial serial;
    uint32_t day, code;
};

struct answer {
    uint32_t number, comparisons, scanned, faults;
};

/* A fault as it is listed. */
struct pair {
    uint32_t day, code;
};

/* Where a search ended. If the card is held, its cell, the cell before it on the chain or 0, and its place from 1;
 * if not, cell 0, the chain's last cell or 0, and the chain's length. */
struct spot {
    uint32_t bucket, cell, before, place;
};

/* An answer, and where the card stands that it speaks of. */
struct plan {
    struct answer answer;
    struct spot spot;
};

/* Sets a fresh store, or gives 1, 15 or 2. */
uint32_t open_store(uint32_t *words, size_t length, uint32_t cards, uint32_t faults, struct bounds bounds);

/* Whether any words are those of a sound store. The SCRATCH bytes of scratch end zero. */
bool sound(const uint32_t *words, size_t length, uint8_t *scratch);

struct spot search(const uint32_t *words, const struct serial *serial);

/* The answer but for 10, which is for whoever knows the room. */
struct plan decide(const uint32_t *words, const struct request *request);

/* Lists the faults of the card in this cell by rising day, those of one day as filed, and gives their number. */
uint32_t list_faults(const uint32_t *words, uint32_t card, struct pair *list);

/* Does what was decided with number 0. */
void change(uint32_t *words, const struct request *request, const struct spot *spot);

/* A call on any words at all, checked. Faults are listed in `list`, which has room for so many. */
struct answer call(uint32_t *words, size_t length, uint8_t *scratch, size_t scratch_size, const struct request *request,
                   struct pair *list, size_t room);

#endif
