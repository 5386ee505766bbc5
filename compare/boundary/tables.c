/* Tables: a small one and a full one, cut and changed. What is asked about each stands in table_questions.c. */
#include "damaged.h"
#include <stdlib.h>
#include <string.h>

/* A table of three fields: each byte changed, cut at each length; then length and version together, for their order. */
void small_tables(void) {
    static const uint8_t whole[] = {0, 0, 0, 10, 1, 0x00, 0x03, 6, 0x01, 0xF4, 2, 0xFF, 0xFF, 5, 0xA5, 0xA5, 0xA5, 0xA5};
    cut_and_changed(whole, sizeof whole, on_table);
    for (uint8_t said = 0; said <= sizeof whole; said++)
        for (uint8_t version = 0; version < 4; version++) {
            uint8_t changed[sizeof whole];
            memcpy(changed, whole, sizeof whole);
            changed[3] = said;
            changed[4] = version;
            on_table(changed, sizeof whole);
        }
}

/* A table of 2,048 entries and about it: other lengths, other buffers, and a bad entry at some places. */
void full_tables(void) {
    enum { FULL = HEAD + ENTRY * MOST, ROOM = FULL + ENTRY + 1 };
    uint8_t *full = malloc(ROOM);
    if (full == NULL)
        abort();
    memset(full, 0xA5, ROOM);
    for (uint32_t place = 0; place <= MOST; place++) {
        uint32_t field = place < MOST ? 3 + 32 * place : 65535;
        const uint8_t entry[] = {(uint8_t)(field >> 8), (uint8_t)field, (uint8_t)(1 + place % 3)};
        memcpy(full + HEAD + ENTRY * place, entry, ENTRY);
    }
    for (uint32_t length = FULL - 4 - ENTRY; length <= FULL - 4 + ENTRY; length++) {
        const uint8_t head[] = {0, 0, (uint8_t)(length >> 8), (uint8_t)length, 1};
        memcpy(full, head, HEAD);
        for (size_t cut = FULL - ENTRY - 1; cut <= ROOM; cut++)
            on_table(full, cut);
    }
    memcpy(full, (uint8_t[]){0, 0, (FULL - 4) >> 8, (FULL - 4) & 255, 1}, HEAD);
    static const size_t places[] = {0, 1, 2, 1023, MOST - 2, MOST - 1};
    for (size_t i = 0; i < sizeof places / sizeof places[0] * ENTRY; i++) {
        uint8_t *byte = full + HEAD + ENTRY * places[i / ENTRY] + i % ENTRY;
        uint8_t was = *byte;
        *byte = i % 2 ? 0 : 255;
        on_table(full, ROOM);
        *byte = was;
    }
    free(full);
}
