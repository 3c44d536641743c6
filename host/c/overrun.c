/* To find out whether a sanitizer works: with an argument it writes behind an array, and is to be stopped. */
#include <stdio.h>
#include <stdlib.h>

int main(int count, char **arguments) {
    unsigned char *bytes = (unsigned char *)malloc(8);
    int at = count > 1 ? 8 : 7;
    int shifted = 1;
    (void)arguments;
    if (bytes == NULL) return 0;
    bytes[at] = 1;
    shifted <<= at == 8 ? 40 : 4;
    printf("%d\n", bytes[at] + shifted);
    free(bytes);
    return 0;
}
