/* Answers as text. */
#ifndef TEXT_H
#define TEXT_H

#include "store.h"

/* How long the answer's line is with its LF, with so many faults listed. */
size_t answer_length(const struct answer *answer, const struct pair *list, uint32_t count);

/* Writes that line. */
void write_answer(const struct answer *answer, const struct pair *list, uint32_t count, uint8_t *out);

#endif
