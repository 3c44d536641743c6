/* The search of a bucket's chain for a serial. */
#include "store.h"

struct spot search(const uint32_t *words, const struct serial *serial) {
    uint32_t key[SERIAL_WORDS], length = (uint32_t)serial->length;
    size_t last = last_word(length);
    uint32_t bucket = address_of(serial_code(serial), words[MAXP], words[P]);
    struct spot spot = {bucket, words[SEGMENTS + bucket], 0, 0};
    pack(serial, key);
    while (spot.cell != 0) {
        const uint32_t *card = words + card_at(spot.cell);
        spot.place++;
        if (card[SERIAL + last] == key[last] && has_key(card, length, key)) {
            return spot;
        }
        spot.before = spot.cell;
        spot.cell = card[NEXT];
    }
    return spot;
}
