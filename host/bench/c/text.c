#include "text.h"

static size_t digits_of(uint32_t number) {
    size_t digits = 1;
    while (number >= 10) {
        number /= 10;
        digits++;
    }
    return digits;
}

/* Writes a number, and gives the place behind it. */
static uint8_t *write_number(uint8_t *out, uint32_t number) {
    uint8_t *end = out + digits_of(number), *at = end;
    do {
        *--at = (uint8_t)('0' + number % 10);
        number /= 10;
    } while (number != 0);
    return end;
}

size_t answer_length(const struct answer *answer, const struct pair *list, uint32_t count) {
    size_t length = digits_of(answer->number) + digits_of(answer->comparisons) + digits_of(answer->scanned) +
                    digits_of(answer->faults) + 4;
    for (uint32_t i = 0; i < count; i++) {
        length += digits_of(list[i].day) + digits_of(list[i].code) + 2;
    }
    return length;
}

static uint8_t *write_pair(uint8_t *out, struct pair pair) {
    *out++ = ' ';
    out = write_number(out, pair.day);
    *out++ = ':';
    return write_number(out, pair.code);
}

void write_answer(const struct answer *answer, const struct pair *list, uint32_t count, uint8_t *out) {
    out = write_number(out, answer->number);
    *out++ = ' ';
    out = write_number(out, answer->comparisons);
    *out++ = ' ';
    out = write_number(out, answer->scanned);
    *out++ = ' ';
    out = write_number(out, answer->faults);
    for (uint32_t i = 0; i < count; i++) {
        out = write_pair(out, list[i]);
    }
    *out = '\n';
}
