/* Gap reports of books of both versions: small ones and full ones, cut and changed, and drawn ones whose dates are often the
 * same or at the ends. What is told has to agree with what other calls tell of the same bytes: the check, the walk over the
 * records, the order of two dates, the days between them and their dotted texts. */
#include "damaged.h"
#include <inttypes.h>
#include <stdio.h>
#include <stdlib.h>
#include <string.h>

enum { START = 5, RECORDS = 4096, FULL = START + 7 * RECORDS };

/* What has to be told of a book: its check's answer; where that is no refusal, all numbers and the whole text. */
typedef struct {
    pq_answer check;
    int64_t numbers[PQ_GAP_NUMBERS];
    char text[PQ_GAP_ROOM + 1];
    size_t length;
} report;

static int has_days(uint32_t kind) { return kind == 2 || kind == 5 || kind == 6; }

/* Counts a step from one record to the next of its kind, which counts days. */
static void count_step(int64_t *row, const pq_record *from, const pq_record *to, int64_t from_place) {
    int64_t days = pq_days_until(to->kind, from->value, to->value).value, size = days < 0 ? -days : days;
    row[PQ_GAP_SUM] += days;
    if (size > row[PQ_GAP_STEP]) {
        row[PQ_GAP_STEP] = size;
        row[PQ_GAP_PLACE] = from_place;
    }
}

static void count_record(int64_t *row, const pq_record *record, int64_t place) {
    int64_t date = record->value & ~(uint32_t)3;
    if (row[PQ_GAP_COUNT]++ == 0) {
        row[PQ_GAP_EARLIEST] = row[PQ_GAP_LATEST] = date;
        row[PQ_GAP_PLACE] = has_days(record->kind) ? place : 0;
    }
    if (pq_order(record->kind, record->value, (uint32_t)row[PQ_GAP_EARLIEST]).value < 0)
        row[PQ_GAP_EARLIEST] = date;
    if (pq_order(record->kind, record->value, (uint32_t)row[PQ_GAP_LATEST]).value > 0)
        row[PQ_GAP_LATEST] = date;
}

static void count_records(report *wanted, const pq_record *records) {
    uint32_t last[7] = {0};
    for (uint32_t i = 0; i < wanted->check.value; i++) {
        uint32_t kind = records[i].kind;
        int64_t *row = wanted->numbers + PQ_GAP(kind, PQ_GAP_COUNT);
        count_record(row, &records[i], i);
        if (has_days(kind) && row[PQ_GAP_COUNT] > 1)
            count_step(row, &records[last[kind]], &records[i], last[kind]);
        last[kind] = i;
    }
}

/* Spells a line at the end of the text. */
static void spell(report *wanted, uint32_t kind) {
    const int64_t *row = wanted->numbers + PQ_GAP(kind, PQ_GAP_COUNT);
    char *at = wanted->text + wanted->length;
    at += sprintf(at, "%c %" PRId64, "RDHUEV"[kind - 1], row[PQ_GAP_COUNT]);
    for (int column = PQ_GAP_EARLIEST; row[PQ_GAP_COUNT] > 0 && column <= PQ_GAP_LATEST; column++) {
        *at++ = ' ';
        at += pq_write_dotted(kind, (uint32_t)row[column], (uint8_t *)at, 15).value;
    }
    for (int column = PQ_GAP_STEP; row[PQ_GAP_COUNT] > 0 && has_days(kind) && column <= PQ_GAP_SUM; column++)
        at += sprintf(at, " %" PRId64, row[column]);
    *at++ = '\n';
    wanted->length = (size_t)(at - wanted->text);
}

static report wanted_of(const uint8_t *bytes, size_t length) {
    static pq_record records[RECORDS];
    report wanted = {.check = pq_any_book_check(bytes, length)};
    if (wanted.check.refusal != 0)
        return wanted;
    pq_any_book_records(bytes, length, 0, (uint32_t *)records, 4 * RECORDS);
    count_records(&wanted, records);
    for (uint32_t kind = 1; kind <= 6; kind++)
        spell(&wanted, kind);
    return wanted;
}

/* What has to be answered where the report needs so many bytes, or so many numbers. */
static pq_answer answer_in(const report *wanted, size_t needed, size_t room) {
    if (wanted->check.refusal != 0)
        return wanted->check;
    return room < needed ? (pq_answer){7, 0} : (pq_answer){0, (uint32_t)needed};
}

/* So many bytes that are lent, and nothing after them. */
static void *lend(size_t size) {
    void *out = malloc(size);
    if (out == NULL)
        abort();
    memset(out, 0xA5, size);
    return out;
}

/* An answer; and what was lent, of which so many bytes have to be these and all others as they were. */
static void answers(const char *what, pq_answer got, pq_answer wanted, const uint8_t *out, size_t size, const void *written,
                    size_t end) {
    told(what, 1, (uint32_t)size, got.refusal, got.value);
    if (got.refusal != wanted.refusal || got.value != wanted.value)
        fault(what, got.refusal, got.value);
    if (end > 0 && memcmp(out, written, end) != 0)
        fault("what is told of gaps", 1, (uint32_t)size);
    for (size_t at = end; at < size; at++)
        if (out[at] != 0xA5)
            fault("a byte after what is told of gaps", 1, (uint32_t)at);
}

static void ask_text(const report *wanted, const uint8_t *book, size_t length, size_t room) {
    uint8_t *out = lend(room);
    pq_answer answer = answer_in(wanted, wanted->length, room);
    size_t end = answer.refusal == 0 ? wanted->length : 0;
    answers("gap report", pq_gap_report(book, length, out, room), answer, out, room, wanted->text, end);
    free(out);
}

static void ask_numbers(const report *wanted, const uint8_t *book, size_t length, size_t room) {
    int64_t *out = lend(room * sizeof *out);
    pq_answer answer = answer_in(wanted, PQ_GAP_NUMBERS, room), got = pq_gap_figures(book, length, out, room);
    size_t end = answer.refusal == 0 ? sizeof wanted->numbers : 0;
    answers("gap figures", got, answer, (const uint8_t *)out, room * sizeof *out, wanted->numbers, end);
    free(out);
}

/* Asks for both, with room at both sides of each bound. */
static void on_gaps(const uint8_t *bytes, size_t length) {
    uint8_t *copy = exact(bytes, length);
    report wanted = wanted_of(copy, length);
    size_t needed = wanted.length + (wanted.length == 0), drawn = random_word();
    const size_t rooms[] = {0, needed - 1, needed, needed + 1 + drawn % 9, drawn % needed, PQ_GAP_ROOM};
    for (size_t i = 0; i < sizeof rooms / sizeof rooms[0]; i++)
        ask_text(&wanted, copy, length, rooms[i]);
    const size_t numbers[] = {drawn % PQ_GAP_NUMBERS, PQ_GAP_NUMBERS - 1, PQ_GAP_NUMBERS, PQ_GAP_NUMBERS + 1 + drawn % 9};
    for (size_t i = 0; i < sizeof numbers / sizeof numbers[0]; i++)
        ask_numbers(&wanted, copy, length, numbers[i]);
    if (length > 0 && memcmp(copy, bytes, length) != 0)
        fault("a book that is reported changed", 1, (uint32_t)length);
    free(copy);
}

/* A date of a kind, made of few fields, so that dates are often the same, a day apart or at the ends. */
static uint32_t drawn_date(uint32_t kind) {
    static const uint32_t years[] = {0x8000, 0xFFFF, 0, 1, 1444, 0x7FFF}, months[] = {1, 2, 12};
    static const uint32_t days[] = {1, 2, 28, 30, 31}, hours[] = {0, 1, 6, 18, 22, 24};
    uint32_t date;
    do {
        uint32_t drawn = random_word();
        date = years[drawn % 6] << 16 | months[drawn / 6 % 3] << 12 | days[drawn / 18 % 5] << 7 | hours[drawn / 90 % 6] << 2;
    } while (pq_without_mark(kind, date).refusal != 0);
    return date;
}

static size_t size_of(uint8_t version) { return version == 2 ? 7 : 5; }

/* Writes a book of so many records of some kinds and gives its length; of version 2 with field numbers and marks. */
static size_t draw_book(uint8_t *book, uint8_t version, size_t records) {
    size_t size = size_of(version), length = START + size * records;
    const uint8_t head[] = {0, 0, (uint8_t)((length - 4) >> 8), (uint8_t)(length - 4), version};
    memcpy(book, head, START);
    uint32_t first_kind = random_word() % 6, some_kinds = 1 + random_word() % 6;
    for (uint8_t *record = book + START; record < book + length; record += size) {
        uint32_t kind = 1 + (first_kind + random_word() % some_kinds) % 6, drawn = random_word();
        uint32_t date = drawn_date(kind) | (version == 2 && drawn % 3 == 0);
        const uint8_t word[] = {(uint8_t)(date >> 24), (uint8_t)(date >> 16), (uint8_t)(date >> 8), (uint8_t)date};
        memset(record, (uint8_t)(drawn >> 8), size);
        record[0] = (uint8_t)kind;
        memcpy(record + size - sizeof word, word, sizeof word);
    }
    return length;
}

/* Two records, each byte changed and cut at each length; then five, uncut, each byte changed to every other. */
static void small_gaps(uint8_t *book, uint8_t version) {
    cut_and_changed(book, draw_book(book, version, 2), on_gaps);
    size_t length = draw_book(book, version, 5);
    for (size_t at = 0; at < length; at++) {
        uint8_t was = book[at];
        for (unsigned byte = 0; byte < 256; byte++) {
            book[at] = (uint8_t)byte;
            on_gaps(book, length);
        }
        book[at] = was;
    }
}

/* Up to 24 records; every third book has a byte changed, every fourth one more after it. */
static void drawn_gaps(uint8_t *book, uint8_t version) {
    for (uint32_t round = 0; round < 5000; round++) {
        size_t length = draw_book(book, version, random_word() % 25);
        if (round % 3 == 0)
            book[random_word() % length] ^= (uint8_t)(1 << random_word() % 8);
        on_gaps(book, length + (round % 4 == 0));
    }
}

/* As many records as a book takes: uncut, cut by some bytes, and with a bad record at some places. */
static void full_gaps(uint8_t *book, uint8_t version) {
    static const size_t places[] = {0, 1, 2047, 4094, 4095};
    for (uint32_t round = 0; round < 4; round++) {
        size_t length = draw_book(book, version, RECORDS);
        on_gaps(book, length);
        on_gaps(book, length - 1 - random_word() % 9);
        for (size_t i = 0; i < sizeof places / sizeof places[0]; i++) {
            uint8_t *kind = book + START + size_of(version) * places[i], was = *kind;
            *kind = 7;
            on_gaps(book, length);
            *kind = was;
        }
    }
}

void gaps(void) {
    uint8_t *book = malloc(FULL + 1);
    if (book == NULL)
        abort();
    memset(book, 0xA5, FULL + 1);
    for (uint8_t version = 1; version <= 2; version++) {
        small_gaps(book, version);
        drawn_gaps(book, version);
        full_gaps(book, version);
    }
    free(book);
}
