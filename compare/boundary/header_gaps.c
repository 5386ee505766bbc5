/* The answers of gap reports: whole texts and all their numbers, the rooms at both sides of each bound, and refusals. */
#include "header.h"
#include <string.h>

_Static_assert(PQ_GAP_ROOM == 3 * 39 + 3 * 63, "the longest lines of R, H, U and of D, E, V");
_Static_assert(PQ_GAP_NUMBERS == 6 * 6, "six numbers for each of six kinds");
_Static_assert(PQ_GAP_COUNT == 0 && PQ_GAP_EARLIEST == 1 && PQ_GAP_LATEST == 2, "the columns in the order of a line");
_Static_assert(PQ_GAP_STEP == 3 && PQ_GAP_PLACE == 4 && PQ_GAP_SUM == 5, "the columns in the order of a line");
_Static_assert(PQ_GAP(R, PQ_GAP_COUNT) == 0 && PQ_GAP(D, PQ_GAP_LATEST) == 8, "the rows in the order of the codes");
_Static_assert(PQ_GAP(V, PQ_GAP_COUNT) == 30 && PQ_GAP(V, PQ_GAP_SUM) == 35, "the last row and the last number");

typedef struct {
    uint32_t kind, date;
} dated;

/* Writes a book of a version and gives its length; of version 2 each record has a field number, every other a mark. */
static size_t write_book(uint8_t *book, uint8_t version, const dated *records, size_t count) {
    size_t size = version == 2 ? 7 : 5, length = 5 + size * count;
    const uint8_t head[] = {0, 0, (uint8_t)((length - 4) >> 8), (uint8_t)(length - 4), version};
    memcpy(book, head, sizeof head);
    for (size_t i = 0; i < count; i++) {
        uint32_t date = version == 2 && i % 2 == 0 ? guessed(records[i].date) : records[i].date;
        const uint8_t word[] = {(uint8_t)(date >> 24), (uint8_t)(date >> 16), (uint8_t)(date >> 8), (uint8_t)date};
        uint8_t *record = book + 5 + size * i;
        memset(record, 1, size);
        record[0] = (uint8_t)records[i].kind;
        memcpy(record + size - 4, word, sizeof word);
    }
    return length;
}

static int is_left(const uint8_t *bytes, size_t length) {
    return bytes[0] == '#' && memcmp(bytes, bytes + 1, length - 1) == 0;
}

/* The whole text: with a byte too few, with exactly its room, and with the room that is always enough. */
static void writes(const char *what, const uint8_t *book, size_t length, const char *text) {
    uint8_t out[PQ_GAP_ROOM + 1];
    uint32_t room = (uint32_t)strlen(text);
    memset(out, '#', sizeof out);
    gives(what, pq_gap_report(book, length, out, room - 1), 7, 0);
    tell(what, is_left(out, sizeof out));
    gives(what, pq_gap_report(book, length, out, room), 0, room);
    tell(what, memcmp(out, text, room) == 0 && is_left(out + room, sizeof out - room));
    memset(out, '#', sizeof out);
    gives(what, pq_gap_report(book, length, out, PQ_GAP_ROOM), 0, room);
    tell(what, memcmp(out, text, room) == 0 && is_left(out + room, sizeof out - room));
}

/* All numbers: with one too few, with exactly as many, and with one more. */
static void counts(const char *what, const uint8_t *book, size_t length, const int64_t *numbers) {
    int64_t out[PQ_GAP_NUMBERS + 1];
    memset(out, '#', sizeof out);
    gives(what, pq_gap_figures(book, length, out, PQ_GAP_NUMBERS - 1), 7, 0);
    tell(what, is_left((const uint8_t *)out, sizeof out));
    size_t size = PQ_GAP_NUMBERS * sizeof *out;
    for (size_t more = 0; more <= 1; more++) {
        memset(out, '#', sizeof out);
        gives(what, pq_gap_figures(book, length, out, PQ_GAP_NUMBERS + more), 0, PQ_GAP_NUMBERS);
        tell(what, memcmp(out, numbers, size) == 0 && is_left((const uint8_t *)(out + PQ_GAP_NUMBERS), sizeof *out));
    }
}

/* In both versions: field numbers and marks change nothing, and every date that is given has the mark 0. */
static void reports(const char *what, const dated *records, size_t count, const char *text, const int64_t *numbers) {
    static uint8_t book[PQ_BOOK2_ROOM(4096) + 1];
    for (uint8_t version = 1; version <= 2; version++) {
        size_t length = write_book(book, version, records, count);
        book[length] = 0xA5;
        writes(what, book, length + 1, text);
        counts(what, book, length, numbers);
    }
}

/* The request's own. The longest step leads back, from the later date: its place is that of the record before it. */
static void example(void) {
    uint32_t day = date(1444, 11, 11, 0), year_before = date(-1, 1, 1, 0), thirtieth = date(1444, 2, 30, 0);
    uint32_t evening = date(1444, 11, 11, 3), morning = date(1836, 2, 3, 6);
    const dated records[] = {{V, morning}, {D, day}, {U, thirtieth}, {D, year_before}, {D, date(1444, 11, 1, 0)},
                             {E, evening}};
    const int64_t numbers[PQ_GAP_NUMBERS] = {0, 0,           0,         0,      0, 0,   /* R */
                                             3, year_before, day,       527739, 1, -10, /* D */
                                             0, 0,           0,         0,      0, 0,   /* H */
                                             1, thirtieth,   thirtieth, 0,      0, 0,   /* U */
                                             1, evening,     evening,   0,      5, 0,   /* E */
                                             1, morning,     morning,   0,      0, 0 /* V */};
    const char *text = "R 0\n"
                       "D 3 -1.1.1 1444.11.11 527739 1 -10\n"
                       "H 0\n"
                       "U 1 1444.02.30 1444.02.30\n"
                       "E 1 1444.11.11.3 1444.11.11.3 0 5 0\n"
                       "V 1 1836.2.3.6 1836.2.3.6 0 0 0\n";
    reports("a gap report, the example", records, 6, text, numbers);
}

static void no_record(void) {
    const int64_t numbers[PQ_GAP_NUMBERS] = {0};
    reports("a gap report, no record", NULL, 0, "R 0\nD 0\nH 0\nU 0\nE 0\nV 0\n", numbers);
}

/* D has two equally long steps in a year whose days run backward, the latest date having the least number. E has the step 0
 * alone, from the later hour. V's steps are a day there and a day back, whatever the hours. */
static void steps(void) {
    uint32_t new_year = date(-1, 1, 1, 0), last_day = date(-1, 12, 31, 0);
    uint32_t day = date(1444, 11, 11, 0), late = date(1444, 11, 11, 22);
    uint32_t second = date(1836, 1, 2, 0), third = date(1836, 1, 3, 0), noon = date(1936, 1, 1, 12);
    uint32_t first_hour = date(1936, 1, 1, 1), raw = date(-5, 2, 31, 24), least = date(-32768, 12, 31, 0);
    const dated records[] = {
        {R, raw},    {E, late}, {V, date(1836, 1, 2, 18)}, {D, new_year}, {V, third}, {E, day}, {D, last_day}, {D, new_year},
        {V, second}, {H, noon}, {H, first_hour},           {R, least}};
    const int64_t numbers[PQ_GAP_NUMBERS] = {2, least,      raw,      0,   0, 0, /* R */
                                             3, new_year,   last_day, 364, 3, 0, /* D */
                                             2, first_hour, noon,     0,   0, 0, /* H */
                                             0, 0,          0,        0,   0, 0, /* U */
                                             2, day,        late,     0,   1, 0, /* E */
                                             3, second,     third,    1,   2, 0 /* V */};
    const char *text = "R 2 -32768.12.31 -5.2.31.24\n"
                       "D 3 -1.1.1 -1.12.31 364 3 0\n"
                       "H 2 1936.1.1.1 1936.1.1.12\n"
                       "U 0\n"
                       "E 2 1444.11.11 1444.11.11.22 0 1 0\n"
                       "V 3 1836.1.2 1836.1.3 1 2 0\n";
    reports("a gap report, equal steps", records, 12, text, numbers);
}

/* As many records as a book takes, with the longest dates, the longest steps, and places of four digits. */
static void longest(void) {
    const uint32_t raw[] = {date(-32768, 12, 31, 24), date(-10000, 12, 31, 24)};
    const uint32_t uniform[] = {date(-32768, 12, 30, 0), date(-10000, 12, 30, 0)};
    const uint32_t plain[] = {date(32767, 12, 31, 0), date(-32768, 12, 31, 0)};
    const uint32_t eu5[] = {date(32767, 12, 31, 22), date(-32768, 12, 31, 22)};
    const uint32_t vic3[] = {date(32767, 12, 31, 18), date(-32768, 12, 31, 18)};
    const uint32_t *const dates[] = {raw, raw, uniform, plain, eu5, vic3};
    const uint32_t kinds[] = {R, H, U, D, E, V}, ends[] = {1000, 1048, 1096, 2096, 3096, 4096};
    static dated records[4096];
    for (uint32_t i = 0, block = 0; i < 4096; i++) {
        block += i == ends[block];
        records[i] = (dated){kinds[block], dates[block][i % 2]};
    }
    const int64_t numbers[PQ_GAP_NUMBERS] = {1000, raw[0],     raw[1],     0,        0,    0,         /* R */
                                             1000, plain[1],   plain[0],   23921003, 1096, -23921003, /* D */
                                             48,   raw[0],     raw[1],     0,        0,    0,         /* H */
                                             48,   uniform[0], uniform[1], 0,        0,    0,         /* U */
                                             1000, eu5[1],     eu5[0],     23921003, 2096, -23921003, /* E */
                                             1000, vic3[1],    vic3[0],    23921003, 3096, -23921003 /* V */};
    const char *text = "R 1000 -32768.12.31.24 -10000.12.31.24\n"
                       "D 1000 -32768.12.31 32767.12.31 23921003 1096 -23921003\n"
                       "H 48 -32768.12.31.24 -10000.12.31.24\n"
                       "U 48 -32768.12.30 -10000.12.30\n"
                       "E 1000 -32768.12.31.22 32767.12.31.22 23921003 2096 -23921003\n"
                       "V 1000 -32768.12.31.18 32767.12.31.18 23921003 3096 -23921003\n";
    reports("a gap report, the longest dates", records, 4096, text, numbers);
}

/* The same refusal of both, before 7 and where there is room. */
static void refuses(const char *what, const uint8_t *book, size_t length, uint32_t refusal, uint32_t value) {
    uint8_t out[PQ_GAP_ROOM];
    int64_t numbers[PQ_GAP_NUMBERS];
    memset(out, '#', sizeof out);
    memset(numbers, '#', sizeof numbers);
    gives(what, pq_gap_report(book, length, out, 0), refusal, value);
    gives(what, pq_gap_report(book, length, out, sizeof out), refusal, value);
    gives(what, pq_gap_figures(book, length, numbers, 0), refusal, value);
    gives(what, pq_gap_figures(book, length, numbers, PQ_GAP_NUMBERS), refusal, value);
    tell(what, is_left(out, sizeof out) && is_left((const uint8_t *)numbers, sizeof numbers));
}

static void refusals(void) {
    uint32_t day = date(1444, 11, 11, 0);
    const dated records[] = {{D, day}, {U, date(1444, 2, 30, 0)}, {D, day}};
    uint8_t book[PQ_BOOK2_ROOM(3)];
    for (uint8_t version = 1; version <= 2; version++) {
        size_t length = write_book(book, version, records, 3), size = version == 2 ? 7 : 5;
        refuses("a gap report, under five bytes", book, 4, 9, 0);
        refuses("a gap report, cut", book, length - 1, 9, 0);
        book[3]--;
        refuses("a gap report, no whole record", book, length, 9, 0);
        book[4] = 3;
        refuses("a gap report, version 3", book, length, 10, 0);
        length = write_book(book, version, records, 3);
        book[length - 1] |= 2;
        refuses("a gap report, mark 2", book, length, 11, 2);
        book[5 + size] = D;
        refuses("a gap report, 30 February of D", book, length, 11, 1);
    }
    gives("pq_gap_report, no buffer", pq_gap_report((const uint8_t[]){0, 0, 0, 1, 2}, 5, NULL, 0), 7, 0);
    gives("pq_gap_figures, no buffer", pq_gap_figures((const uint8_t[]){0, 0, 0, 1, 2}, 5, NULL, 0), 7, 0);
}

void gaps(void) {
    example();
    no_record();
    steps();
    longest();
    refusals();
}
