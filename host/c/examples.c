/* Prints the marked examples 1 to 10 of document 01, one a line, as a C host gets them from the library. */
#include <inttypes.h>
#include <stdio.h>
#include <string.h>

#include "reader.h"

static void code(int example, const char *serial) {
    uint32_t code = reader_code((const uint8_t *)serial, strlen(serial));
    printf("%d. code of %s: %" PRIu32 "\n", example, serial, code);
}

static void address(int example, uint32_t code, uint32_t maxp, uint32_t p) {
    uint32_t address = reader_address(code, maxp, p);
    printf("%d. code %" PRIu32 ", maxp %" PRIu32 ", p %" PRIu32 ": %" PRIu32 "\n", example, code, maxp, p, address);
}

int main(void) {
    code(1, "7");
    code(2, "07");
    code(3, "007");
    address(4, 55, 16, 7);
    address(5, 55, 16, 8);
    address(6, 1639, 16, 8);
    address(7, 53911, 16, 8);
    address(8, 53911, 256, 0);
    /* Examples 9 and 10 name no code: they hold for every one. */
    address(9, 53911, 24, 0);
    address(10, 53911, 256, 1);
    return 0;
}
