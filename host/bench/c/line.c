#include "line.h"

#include <string.h>

/* Four fields are the most that a line can have. One more is room for a line that has too many. */
enum { LONGEST_LINE = 64, MOST_FIELDS = 5, LONGEST_NUMBER = 9 };

struct field {
    const uint8_t *bytes;
    size_t length;
};

/* The fields of a line, split at single spaces, and how many there are; those past the fifth are not looked for. */
static size_t split_fields(const uint8_t *line, size_t length, struct field *fields) {
    size_t count = 0, start = 0;
    for (size_t at = 0; at <= length && count < MOST_FIELDS; at++) {
        if (at == length || line[at] == ' ') {
            fields[count++] = (struct field){line + start, at - start};
            start = at + 1;
        }
    }
    return count;
}

static bool parse_number(struct field field, uint32_t *value) {
    if (field.length < 1 || LONGEST_NUMBER < field.length) {
        return false;
    }
    *value = 0;
    for (size_t i = 0; i < field.length; i++) {
        uint32_t digit = (uint32_t)field.bytes[i] - '0';
        if (digit > 9) {
            return false;
        }
        *value = 10 * *value + digit;
    }
    return true;
}

/* Of a field that is too long the first bytes are enough: its length tells that it is no serial. */
static struct serial serial_of(struct field field) {
    struct serial serial = {{0}, field.length};
    memcpy(serial.bytes, field.bytes, field.length < SERIAL_BYTES ? field.length : SERIAL_BYTES);
    return serial;
}

/* The operation of a line with this first byte and so many fields. */
static bool operation_of(uint8_t letter, size_t fields, enum operation *operation) {
    switch (letter) {
    case 'E':
        *operation = ENTER;
        return fields == 2;
    case 'S':
        *operation = SHOW;
        return fields == 2;
    case 'W':
        *operation = WITHDRAW;
        return fields == 2;
    case 'F':
        *operation = FILE_FAULT;
        return fields == 4;
    default:
        return false;
    }
}

bool parse_line(const uint8_t *line, size_t length, struct request *request) {
    struct field fields[MOST_FIELDS];
    if (length > LONGEST_LINE) {
        return false;
    }
    size_t count = split_fields(line, length, fields);
    if (fields[0].length != 1 || !operation_of(line[0], count, &request->operation)) {
        return false;
    }
    request->serial = serial_of(fields[1]);
    return count == 2 || (parse_number(fields[2], &request->day) && parse_number(fields[3], &request->code));
}
