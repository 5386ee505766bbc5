/* Books of both versions: small ones and full ones, cut and changed. What is asked about each stands in book_questions.c. */
#include "damaged.h"
#include <stdlib.h>
#include <string.h>

/* Two records of each version, without a field number or a mark, and room for one more: each byte changed, cut at each
 * length; then length and version together, for their order. */
static void small_books(void) {
    static const uint8_t one[] = {0, 0,    0,    11,   1,    2,    0x05, 0xA4, 0xB5, 0x80,
                                  5, 0xFF, 0xFF, 0xCF, 0xD8, 0xA5, 0xA5, 0xA5, 0xA5, 0xA5};
    static const uint8_t two[] = {0, 0, 0,    15,   2,    2,    0,    0,    0x05, 0xA4, 0xB5, 0x80, 5,
                                  0, 0, 0xFF, 0xFF, 0xCF, 0xD8, 0xA5, 0xA5, 0xA5, 0xA5, 0xA5, 0xA5, 0xA5};
    cut_and_changed(one, sizeof one, on_versions);
    cut_and_changed(two, sizeof two, on_versions);
    uint8_t changed[sizeof two];
    memcpy(changed, two, sizeof two);
    for (uint8_t said = 0; said <= sizeof two; said++)
        for (uint8_t version = 0; version < 4; version++) {
            changed[3] = said;
            changed[4] = version;
            on_versions(changed, sizeof two);
        }
}

/* Field numbers and marks, together and at each of two places: which is the first that version 1 cannot keep. */
static void told_fields(void) {
    uint8_t book[] = {0, 0, 0, 15, 2, 2, 0, 0, 0x05, 0xA4, 0xB5, 0x80, 4, 0, 0, 0x08, 0x98, 0x2F, 0x00};
    static const uint8_t low_fields[] = {0, 1, 255}, high_fields[] = {0, 1};
    for (unsigned i = 0; i < 24 * 24; i++) {
        for (unsigned record = 0; record < 2; record++) {
            unsigned drawn = record == 0 ? i % 24 : i / 24;
            uint8_t *bytes = book + 5 + 7 * record;
            bytes[1] = high_fields[drawn % 2];
            bytes[2] = low_fields[drawn / 2 % 3];
            bytes[6] = (uint8_t)((bytes[6] & 0xFC) | drawn / 6);
        }
        on_versions(book, sizeof book);
    }
}

enum { FULL = 5 + 7 * 4096, ROOM = FULL + 8 };

static void say(uint8_t *book, uint32_t length, uint8_t version) {
    const uint8_t head[] = {0, 0, (uint8_t)(length >> 8), (uint8_t)length, version};
    memcpy(book, head, sizeof head);
}

/* Books about the longest: lengths beside it, and buffers that end before the book, with it and some bytes after it. */
static void about(uint8_t *full, uint32_t longest, uint8_t version) {
    for (uint32_t length = longest - 7; length <= longest + 7; length++) {
        say(full, length, version);
        for (size_t cut = length + 3; cut <= length + 11 && cut <= ROOM; cut += 1 + random_word() % 4)
            on_versions(full, cut);
    }
}

/* A record at some places with another kind, a field number or another mark. */
static void one_record(uint8_t *full) {
    static const size_t places[] = {0, 1, 2047, 4094, 4095};
    static const uint8_t ats[] = {0, 1, 2, 6, 6}, bytes[] = {7, 1, 255, 0x81, 0x82};
    for (size_t i = 0; i < 5 * 5; i++) {
        uint8_t *byte = full + 5 + 7 * places[i / 5] + ats[i % 5];
        uint8_t was = *byte;
        *byte = bytes[i % 5];
        on_versions(full, ROOM);
        *byte = was;
    }
}

static void full_books(void) {
    static const uint8_t record[] = {2, 0, 0, 0x05, 0xA4, 0xB5, 0x80};
    uint8_t *full = malloc(ROOM);
    if (full == NULL)
        abort();
    memset(full, 0xA5, ROOM);
    for (size_t at = 5; at + 7 <= ROOM; at += 7)
        memcpy(full + at, record, 7);
    about(full, FULL - 4, 2);
    about(full, FULL - 4, 1);
    say(full, FULL - 4, 2);
    one_record(full);
    for (size_t at = 5; at + 5 <= ROOM; at += 5) {
        full[at] = record[0];
        memcpy(full + at + 1, record + 3, 4);
    }
    for (uint8_t version = 1; version <= 3; version++)
        about(full, 20481, version);
    free(full);
}

void book_versions(void) {
    small_books();
    told_fields();
    full_books();
}
