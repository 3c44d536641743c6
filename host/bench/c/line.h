/* A line of a job, taken apart. */
#ifndef LINE_H
#define LINE_H

#include "store.h"

/* What a line asks, without its LF. False if it is not well formed. The serial need not be valid. */
bool parse_line(const uint8_t *line, size_t length, struct request *request);

#endif
