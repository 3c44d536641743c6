/* Serials and faults: which are valid, and how a card cell holds a serial. */
#ifndef SERIAL_H
#define SERIAL_H

#include <stdbool.h>
#include <stddef.h>
#include <stdint.h>

#include "layout.h"
#include "rules.h"

enum { SERIAL_BYTES = 16 };

/* A serial as it travels: the unused bytes are zero. */
struct serial {
    uint8_t bytes[SERIAL_BYTES];
    size_t length;
};

static inline bool allowed(uint8_t byte) {
    return ('0' <= byte && byte <= '9') || ('A' <= byte && byte <= 'Z') || byte == '-';
}

static inline bool valid_serial(const struct serial *serial) {
    if (serial->length < 1 || SERIAL_BYTES < serial->length) {
        return false;
    }
    for (size_t i = 0; i < serial->length; i++) {
        if (!allowed(serial->bytes[i])) {
            return false;
        }
    }
    for (size_t i = serial->length; i < SERIAL_BYTES; i++) {
        if (serial->bytes[i] != 0) {
            return false;
        }
    }
    return true;
}

static inline bool valid_fault(uint32_t day, uint32_t code) {
    return 1 <= day && day <= 65535 && 1 <= code && code <= 9999;
}

/* The four words of a serial, the first byte highest. */
static inline void pack(const struct serial *serial, uint32_t *words) {
    for (size_t i = 0; i < SERIAL_WORDS; i++) {
        const uint8_t *b = serial->bytes + 4 * i;
        words[i] = (uint32_t)b[0] << 24 | (uint32_t)b[1] << 16 | (uint32_t)b[2] << 8 | b[3];
    }
}

/* The word that holds the last byte of a serial of this length; of any other length one of the four. */
static inline size_t last_word(uint32_t length) {
    return (length - 1) / 4 % SERIAL_WORDS;
}

/* Whether a card cell has this length and these four words, compared from the last to the first. */
static inline bool has_key(const uint32_t *card, uint32_t length, const uint32_t *key) {
    return card[SERIAL + 3] == key[3] && card[SERIAL + 2] == key[2] && card[SERIAL + 1] == key[1] &&
           card[SERIAL] == key[0] && card[SERIAL_LENGTH] == length;
}

/* The serial that a card cell holds. */
static inline struct serial unpack(const uint32_t *card) {
    struct serial serial;
    serial.length = card[SERIAL_LENGTH];
    for (size_t i = 0; i < SERIAL_WORDS; i++) {
        uint32_t word = card[SERIAL + i];
        uint8_t *b = serial.bytes + 4 * i;
        b[0] = (uint8_t)(word >> 24);
        b[1] = (uint8_t)(word >> 16);
        b[2] = (uint8_t)(word >> 8);
        b[3] = (uint8_t)word;
    }
    return serial;
}

static inline uint32_t serial_code(const struct serial *serial) {
    return code_of(serial->bytes, serial->length);
}

#endif
