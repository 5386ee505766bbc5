/* The answers of books: version 1, version 2, either of them, and moves from one to the other. */
#include "header.h"
#include <string.h>

_Static_assert(PQ_BOOK_ROOM(0) == 5 && PQ_BOOK_ROOM(4096) == 20485, "a length of 20,481 and four bytes");
_Static_assert(PQ_BOOK2_ROOM(0) == 5 && PQ_BOOK2_ROOM(4096) == 28677, "a length of 28,673 and four bytes");

static void records(const char *what, pq_record got, uint32_t refusal, uint32_t kind, uint32_t value, uint32_t field) {
    tell(what, got.refusal == refusal && got.kind == kind && got.value == value && got.field == field);
}

static void first_version(void) {
    uint8_t book[16];
    memset(book, '#', sizeof book);
    gives("pq_book_new", pq_book_new(book, sizeof book), 0, 0);
    gives("pq_book_append", pq_book_append(book, sizeof book, D, date(1444, 11, 11, 0)), 0, 0);
    gives("pq_book_append, the second", pq_book_append(book, sizeof book, V, date(1836, 1, 2, 18)), 0, 1);
    gives("pq_book_append, no room", pq_book_append(book, sizeof book, D, date(1444, 11, 11, 0)), 12, 0);
    const uint8_t bytes[] = {0, 0, 0, 11, 1, 2, 0x05, 0xA4, 0xB5, 0x80, 6, 0x07, 0x2C, 0x11, 0x48, '#'};
    tell("the book's bytes", memcmp(book, bytes, sizeof book) == 0);
    gives("pq_book_check", pq_book_check(book, sizeof book), 0, 2);
    records("pq_book_record", pq_book_record(book, sizeof book, 1), 0, V, date(1836, 1, 2, 18), 0);
    book[10] = 7;
    gives("pq_book_check, a bad record", pq_book_check(book, sizeof book), 11, 1);
    records("pq_book_record, a bad one", pq_book_record(book, sizeof book, 0), 11, 0, 1, 0);
}

/* One record, and room for one more; 20 comes last. */
static void marked_dates(void) {
    const uint8_t one[] = {0, 0, 0, 6, 1, 2, 0x05, 0xA4, 0xB5, 0x80, '#', '#', '#', '#', '#'};
    uint8_t book[sizeof one];
    uint32_t day = date(1836, 1, 2, 18);
    memcpy(book, one, sizeof book);
    gives("pq_book_append, guessed", pq_book_append(book, sizeof book, V, guessed(day)), 20, 0);
    gives("pq_book_append, guessed and no room", pq_book_append(book, sizeof book - 1, V, guessed(day)), 12, 0);
    gives("pq_book_append, mark 2 and no room", pq_book_append(book, sizeof book - 1, V, day | 2), 4, 0);
    gives("pq_book_append, mark 3", pq_book_append(book, sizeof book, V, day | 3), 4, 0);
    tell("the bytes of a refused append", memcmp(book, one, sizeof book) == 0);
    book[4] = 2;
    gives("pq_book_append, guessed and another version", pq_book_append(book, sizeof book, V, guessed(day)), 10, 0);
    book[4] = 1;
    book[9] |= 1;
    gives("pq_book_check, a mark", pq_book_check(book, sizeof book), 11, 0);
    gives("pq_book_append, guessed and a mark in the book", pq_book_append(book, sizeof book, V, guessed(day)), 11, 0);
    book[9] &= 0xFC;
    gives("pq_book_append, its mark taken off", pq_book_append(book, sizeof book, V, day), 0, 1);
    book[14] |= 3;
    records("pq_book_record, a mark in the second", pq_book_record(book, sizeof book, 0), 11, 0, 1, 0);
}

/* The request's own bytes, then a record of U; one byte is left. */
static void second_version(void) {
    uint8_t book[20];
    memset(book, '#', sizeof book);
    gives("pq_book2_new", pq_book2_new(book, sizeof book), 0, 0);
    tell("the bytes of an empty book", memcmp(book, (uint8_t[]){0, 0, 0, 1, 2, '#'}, 6) == 0);
    gives("pq_book2_new, no room", pq_book2_new(book, 4), 12, 0);
    uint32_t day = date(1444, 11, 11, 0), thirtieth = date(2200, 2, 30, 0);
    gives("pq_book2_append", pq_book2_append(book, sizeof book, D, 500, guessed(day)), 0, 0);
    const uint8_t one[] = {0, 0, 0, 8, 2, 2, 0x01, 0xF4, 0x05, 0xA4, 0xB5, 0x81, '#'};
    tell("the request's bytes", memcmp(book, one, sizeof one) == 0);
    gives("pq_book2_append, six bytes", pq_book2_append(book, 18, U, 65535, thirtieth), 12, 0);
    gives("pq_book2_append, seven bytes", pq_book2_append(book, 19, U, 65535, thirtieth), 0, 1);
    gives("pq_book2_append, no room", pq_book2_append(book, sizeof book, U, 0, thirtieth), 12, 0);
    gives("pq_book2_append, a field over 65,535", pq_book2_append(book, sizeof book, U, 65536, thirtieth), 4, 0);
    gives("pq_book2_append, mark 2", pq_book2_append(book, sizeof book, U, 1, thirtieth | 2), 4, 0);
    gives("pq_book2_append, not of the kind", pq_book2_append(book, sizeof book, D, 1, thirtieth), 4, 0);
    const uint8_t both[] = {0, 0, 0, 15, 2, 2, 0x01, 0xF4, 0x05, 0xA4, 0xB5, 0x81, 4, 255, 255, 0x08, 0x98, 0x2F, 0x00, '#'};
    tell("the bytes of two records", memcmp(book, both, sizeof book) == 0);
    gives("pq_book2_check", pq_book2_check(book, sizeof book), 0, 2);
    records("pq_book2_record", pq_book2_record(book, sizeof book, 0), 0, D, guessed(day), 500);
    records("pq_book2_record, the last field", pq_book2_record(book, sizeof book, 1), 0, U, thirtieth, 65535);
    records("pq_book2_record, none", pq_book2_record(book, sizeof book, 2), 13, 0, 0, 0);
    book[18] |= 2;
    gives("pq_book2_check, mark 2", pq_book2_check(book, sizeof book), 11, 1);
    records("pq_book2_record, mark 2", pq_book2_record(book, sizeof book, 0), 11, 0, 1, 0);
    gives("pq_book2_append, 11 before 12", pq_book2_append(book, sizeof book, U, 0, thirtieth), 11, 1);
}

/* One record at place 0, D 1444.11.11, in each version; one byte is left. */
static const uint8_t first[] = {0, 0, 0, 6, 1, 2, 0x05, 0xA4, 0xB5, 0x80, '#'};
static const uint8_t second[] = {0, 0, 0, 8, 2, 2, 0x01, 0xF4, 0x05, 0xA4, 0xB5, 0x81, '#'};

static void either_version(void) {
    uint32_t day = date(1444, 11, 11, 0);
    gives("pq_any_book_check, version 1", pq_any_book_check(first, sizeof first), 0, 1);
    gives("pq_any_book_check, version 2", pq_any_book_check(second, sizeof second), 0, 1);
    gives("pq_any_book_check, no version", pq_any_book_check(second, 4), 9, 0);
    records("pq_any_book_record, version 1", pq_any_book_record(first, sizeof first, 0), 0, D, day, 0);
    records("pq_any_book_record, version 2", pq_any_book_record(second, sizeof second, 0), 0, D, guessed(day), 500);
    records("pq_any_book_record, none", pq_any_book_record(second, sizeof second, 1), 13, 0, 0, 0);
    gives("pq_book_check, version 2", pq_book_check(second, sizeof second), 10, 0);
    gives("pq_book2_check, version 1", pq_book2_check(first, sizeof first), 10, 0);
    uint8_t changed[sizeof first];
    memcpy(changed, first, sizeof first);
    gives("pq_book2_append, version 1", pq_book2_append(changed, sizeof first, D, 500, day), 10, 0);
    changed[4] = 3;
    gives("pq_any_book_check, version 3", pq_any_book_check(changed, sizeof first), 10, 0);
    changed[4] = 2;
    gives("pq_any_book_check, no seven bytes", pq_any_book_check(changed, sizeof first), 9, 0);
}

/* The three checks of a buffer of zeros that says this length and this version. */
static void checks(uint32_t length, uint8_t version, uint32_t by_1, uint32_t by_2, uint32_t by_any) {
    static uint8_t bytes[PQ_BOOK2_ROOM(4096) + 7];
    const uint8_t head[] = {0, 0, (uint8_t)(length >> 8), (uint8_t)length, version};
    memcpy(bytes, head, sizeof head);
    gives("pq_book_check, a length", pq_book_check(bytes, sizeof bytes), by_1, 0);
    gives("pq_book2_check, a length", pq_book2_check(bytes, sizeof bytes), by_2, 0);
    gives("pq_any_book_check, a length", pq_any_book_check(bytes, sizeof bytes), by_any, 0);
}

/* At both sides of each limit; 20,483 is a length of version 2 alone, whose first record is then bad. */
static void lengths(void) {
    checks(20481, 1, 11, 10, 11);
    checks(20482, 1, 9, 10, 9);
    checks(20483, 2, 9, 11, 11);
    checks(28673, 2, 9, 11, 11);
    checks(28674, 2, 9, 9, 9);
    checks(28680, 2, 9, 9, 9);
    checks(20481, 2, 10, 9, 9);
    checks(20481, 3, 10, 10, 10);
    checks(20482, 3, 9, 10, 9);
    checks(28673, 3, 9, 10, 9);
    checks(28674, 3, 9, 9, 9);
}

/* Of three records, into structs of which not all are reached. */
static void walks(void) {
    uint8_t book[] = {0, 0, 0,    22,   2,    2,    0x01, 0xF4, 0x05, 0xA4, 0xB5, 0x81, 6,
                      0, 0, 0x07, 0x2C, 0x11, 0x48, 4,    255,  255,  0x08, 0x98, 0x2F, 0x00};
    pq_record out[] = {{7, 7, 7, 7}, {7, 7, 7, 7}, {7, 7, 7, 7}};
    uint32_t *numbers = (uint32_t *)out;
    gives("pq_any_book_records", pq_any_book_records(book, sizeof book, 1, numbers, 12), 0, 2);
    records("pq_any_book_records, the second", out[0], 0, V, date(1836, 1, 2, 18), 0);
    records("pq_any_book_records, the third", out[1], 0, U, date(2200, 2, 30, 0), 65535);
    records("pq_any_book_records, what stays", out[2], 7, 7, 7, 7);
    gives("pq_any_book_records, seven numbers", pq_any_book_records(book, sizeof book, 0, numbers, 7), 0, 1);
    records("pq_any_book_records, the first", out[0], 0, D, guessed(date(1444, 11, 11, 0)), 500);
    records("pq_any_book_records, what a seventh leaves", out[1], 0, U, date(2200, 2, 30, 0), 65535);
    gives("pq_any_book_records, at the end", pq_any_book_records(book, sizeof book, 3, numbers, 12), 0, 0);
    gives("pq_any_book_records, past it", pq_any_book_records(book, sizeof book, SIZE_MAX, numbers, 12), 0, 0);
    gives("pq_any_book_records, no room", pq_any_book_records(book, sizeof book, 0, NULL, 0), 0, 0);
    gives("pq_any_book_records, version 1", pq_any_book_records(first, sizeof first, 0, numbers + 4, 8), 0, 1);
    records("pq_any_book_records, of version 1", out[1], 0, D, date(1444, 11, 11, 0), 0);
    book[12] = 7;
    gives("pq_any_book_records, a bad record", pq_any_book_records(book, sizeof book, 2, numbers + 8, 4), 11, 1);
    book[4] = 3;
    gives("pq_any_book_records, version 3", pq_any_book_records(book, sizeof book, 0, numbers + 8, 4), 10, 0);
    gives("pq_any_book_records, cut", pq_any_book_records(book, 25, 0, numbers + 8, 4), 9, 0);
    records("pq_any_book_records, refused", out[2], 7, 7, 7, 7);
}

/* To version 2 and back, with bytes left in each target. */
static void moves(void) {
    uint8_t to[14], back[11];
    memset(to, '#', sizeof to);
    memset(back, '#', sizeof back);
    gives("pq_book_to_2, no room", pq_book_to_2(first, sizeof first, to, PQ_BOOK2_ROOM(1) - 1), 12, 0);
    gives("pq_book_to_2, version 2", pq_book_to_2(second, sizeof second, to, sizeof to), 10, 0);
    gives("pq_book_to_2, cut", pq_book_to_2(first, 9, to, sizeof to), 9, 0);
    tell("a target that stays", to[0] == '#' && memcmp(to, to + 1, sizeof to - 1) == 0);
    gives("pq_book_to_2", pq_book_to_2(first, sizeof first, to, sizeof to), 0, 1);
    const uint8_t moved[] = {0, 0, 0, 8, 2, 2, 0, 0, 0x05, 0xA4, 0xB5, 0x80, '#', '#'};
    tell("the bytes of a book moved", memcmp(to, moved, sizeof to) == 0);
    gives("pq_book_to_1, no room", pq_book_to_1(to, sizeof to, back, PQ_BOOK_ROOM(1) - 1), 12, 0);
    gives("pq_book_to_1, version 1", pq_book_to_1(first, sizeof first, back, sizeof back), 10, 0);
    tell("a target that stays", back[0] == '#' && memcmp(back, back + 1, sizeof back - 1) == 0);
    gives("pq_book_to_1", pq_book_to_1(to, sizeof to, back, sizeof back), 0, 1);
    tell("the bytes of a book moved back", memcmp(back, first, sizeof back) == 0);
    gives("pq_book_to_2, all its room", pq_book_to_2(first, sizeof first, to, PQ_BOOK2_ROOM(1)), 0, 1);
}

/* Two records of version 2, of which version 1 can keep the first alone: 11, then 21 with its place, then 12. */
static void kept_back(void) {
    uint8_t book[] = {0, 0, 0, 15, 2, 2, 0, 0, 0x05, 0xA4, 0xB5, 0x80, 6, 0, 0, 0x07, 0x2C, 0x11, 0x48};
    uint8_t to[PQ_BOOK_ROOM(2)];
    memset(to, '#', sizeof to);
    book[14] = 1;
    gives("pq_book_to_1, a field number", pq_book_to_1(book, sizeof book, to, sizeof to), 21, 1);
    book[14] = 0;
    book[18] |= 1;
    gives("pq_book_to_1, a mark", pq_book_to_1(book, sizeof book, to, sizeof to), 21, 1);
    gives("pq_book_to_1, a mark and no room", pq_book_to_1(book, sizeof book, to, 0), 21, 1);
    book[18] |= 2;
    book[6] = 1;
    gives("pq_book_to_1, a field number and a bad record", pq_book_to_1(book, sizeof book, to, 0), 11, 1);
    tell("a target that stays", to[0] == '#' && memcmp(to, to + 1, sizeof to - 1) == 0);
    book[18] &= 0xFC;
    book[6] = 0;
    gives("pq_book_to_1, neither", pq_book_to_1(book, sizeof book, to, sizeof to), 0, 2);
    records("pq_book_record, moved back", pq_book_record(to, sizeof to, 1), 0, V, date(1836, 1, 2, 18), 0);
}

void books(void) {
    first_version();
    marked_dates();
    second_version();
    either_version();
    lengths();
    walks();
    moves();
    kept_back();
}
