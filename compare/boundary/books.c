/* Books: one of three records, each byte of it changed, cut at each length; and a book of 4,096 records and about it. Dates
 * with each mark are appended. */
#include "damaged.h"
#include <stdlib.h>
#include <string.h>

/* A book that is checked has no mark in a record. */
static void no_marks(const uint8_t *book, uint32_t records) {
    for (uint32_t i = 0; i < records; i++)
        if (book[5 + 5 * i + 4] % 4 != 0)
            fault("a mark in a record", 1, i);
}

static pq_answer append(uint8_t *book, const uint8_t *before, size_t length, uint32_t kind, uint32_t date) {
    pq_answer place = pq_book_append(book, length, kind, date);
    told("append", kind, (uint32_t)length, place.refusal, place.value);
    if (place.refusal != 0 && length > 0 && memcmp(book, before, length) != 0)
        fault("a refused append changed a byte", kind, (uint32_t)length);
    if (place.refusal == 20 && date % 4 != 1)
        fault("20 for a date that is not guessed", kind, date);
    return place;
}

/* 1444.11.11 of D with each mark, 0 last. 2 and 3 are 4. A guessed one is 20 exactly where the date without its mark gets a
 * place, and what that one is anywhere else. */
static void append_marked(uint8_t *book, const uint8_t *before, size_t length) {
    enum { DAY = 0x05A4B580 };
    pq_answer third = append(book, before, length, 2, DAY + 3), second = append(book, before, length, 2, DAY + 2);
    if (third.refusal != 4 || second.refusal != 4)
        fault("a mark that is not allowed", 2, (uint32_t)length);
    pq_answer guessed = append(book, before, length, 2, DAY + 1), declared = append(book, before, length, 2, DAY);
    int is_refused = declared.refusal != 0;
    if (guessed.refusal != (is_refused ? declared.refusal : 20) || guessed.value != (is_refused ? declared.value : 0))
        fault("a guessed date appended", 2, (uint32_t)length);
}

/* Asks everything about a buffer. */
static void on_book(const uint8_t *bytes, size_t length) {
    uint8_t *book = exact(bytes, length);
    pq_answer count = pq_book_check(book, length);
    told("check", 1, (uint32_t)length, count.refusal, count.value);
    if (count.refusal == 0)
        no_marks(book, count.value);
    static const size_t places[] = {0, 1, 2, 3, 4095, 4096, SIZE_MAX, SIZE_MAX / 5 + 1};
    for (size_t i = 0; i < sizeof places / sizeof places[0]; i++) {
        pq_record record = pq_book_record(book, length, places[i]);
        told("record", 1, (uint32_t)length, record.refusal, record.value);
        if (record.field != 0 || (record.refusal != 0 && record.kind != 0))
            fault("a record's parts", record.kind, (uint32_t)length);
    }
    if (length > 0 && memcmp(book, bytes, length) != 0)
        fault("a book changed", 1, (uint32_t)length);
    for (size_t k = 0; k < KINDS; k++) {
        pq_answer place = append(book, bytes, length, kinds[k], random_word());
        if (place.refusal == 0)
            memcpy(book, bytes, length);
    }
    append_marked(book, bytes, length);
    pq_answer empty = pq_book_new(book, length);
    told("new", 1, (uint32_t)length, empty.refusal, empty.value);
    if ((empty.refusal == 12) != (length < 5))
        fault("new", 1, (uint32_t)length);
    free(book);
}

void books(void) {
    static const uint8_t whole[] = {0, 0, 0, 16, 1, 2, 0x05, 0xA4, 0xB5, 0x80, 5,    0xFF, 0xFF,
                                    0xCF, 0xD8, 6, 0, 1, 0x10, 0x98, 0xA5, 0xA5, 0xA5, 0xA5, 0xA5};
    cut_and_changed(whole, sizeof whole, on_book);
    uint8_t *full = malloc(20490);
    if (full == NULL)
        abort();
    for (size_t at = 5; at < 20490; at += 5)
        memcpy(full + at, whole + 5, 5);
    for (uint32_t length = 20470; length < 20500; length++) {
        uint8_t head[] = {0, 0, (uint8_t)(length >> 8), (uint8_t)length, 1};
        memcpy(full, head, 5);
        for (size_t cut = 20480; cut <= 20490; cut++)
            on_book(full, cut);
    }
    free(full);
}
