/* The header as C reads it: how large its structs are and where their members lie, and one telling answer of every function,
 * those of listings in header_listings.c, of books in header_books.c, of gap reports in header_gaps.c and of tables of two
 * leagues in header_leagues.c.
 *
 * The proof names members and parameters, and the header binds them by their places, so that two members or two parameters
 * that change places on one side pass the gate. Each answer below would be another then: members and arguments of one call
 * all differ. Prints how many answers were right; the status is 1 where one is not. */
#include "header.h"
#include <stdio.h>
#include <string.h>

_Static_assert(sizeof(pq_answer) == 8, "two numbers of 32 bits");
_Static_assert(offsetof(pq_answer, refusal) == 0 && offsetof(pq_answer, value) == 4, "the refusal is first");
_Static_assert(sizeof(pq_number) == 8, "two numbers of 32 bits");
_Static_assert(offsetof(pq_number, refusal) == 0 && offsetof(pq_number, value) == 4, "the refusal is first");
_Static_assert(sizeof(pq_record) == 16, "four numbers of 32 bits");
_Static_assert(offsetof(pq_record, refusal) == 0 && offsetof(pq_record, kind) == 4, "the refusal, then the kind");
_Static_assert(offsetof(pq_record, value) == 8 && offsetof(pq_record, field) == 12, "then the value and the field");
_Static_assert(sizeof(pq_lookup) == 16, "four numbers of 32 bits, as pq_table_lookup_all writes them");
_Static_assert(offsetof(pq_lookup, refusal) == 0 && offsetof(pq_lookup, kind) == 4, "the refusal, then the kind");
_Static_assert(offsetof(pq_lookup, value) == 8 && offsetof(pq_lookup, guessed) == 12, "then the value and the guess");

static int right, wrong;

void tell(const char *what, int holds) {
    right += holds;
    wrong += !holds;
    if (!holds)
        fprintf(stderr, "header: another answer of %s\n", what);
}

uint32_t date(int year, uint32_t month, uint32_t day, uint32_t hour) {
    return (uint32_t)(uint16_t)year << 16 | month << 12 | day << 7 | hour << 2;
}

uint32_t guessed(uint32_t date) { return date | 1; }

void gives(const char *what, pq_answer got, uint32_t refusal, uint32_t value) {
    tell(what, got.refusal == refusal && got.value == value);
}

static void counts(const char *what, pq_number got, uint32_t refusal, int32_t value) {
    tell(what, got.refusal == refusal && got.value == value);
}

static void dates(void) {
    const uint8_t text[] = "1444.11.12x";
    gives("pq_read_text", pq_read_text(D, text, 10), 0, date(1444, 11, 12, 0));
    gives("pq_read_text, a byte more", pq_read_text(D, text, 11), 2, 0);
    gives("pq_read_number", pq_read_number(H, 43808760), 0, date(1, 1, 1, 1));
    gives("pq_read_number, none", pq_read_number(D, -8736), 3, 0);
    gives("pq_guess_number", pq_guess_number(D, 56456976), 0, guessed(date(1444, 11, 11, 0)));
    gives("pq_guess_number, none", pq_guess_number(D, 1444), 3, 0);
    gives("pq_from_fields", pq_from_fields(R, -1444, 11, 12, 13), 0, date(-1444, 11, 12, 13));
    gives("pq_add_days", pq_add_days(V, date(1836, 1, 2, 18), 31), 0, date(1836, 2, 2, 18));
    gives("pq_start_of_day", pq_start_of_day(E, date(1337, 4, 1, 22)), 0, date(1337, 4, 1, 0));
}

/* The text behind so many zeros. */
static void reads_padded(const char *what, uint32_t kind, size_t zeros, const char *text, uint32_t refusal, uint32_t value) {
    uint8_t padded[80];
    memset(padded, '0', zeros);
    memcpy(padded + zeros, text, strlen(text));
    gives(what, pq_read_text(kind, padded, zeros + strlen(text)), refusal, value);
}

static void padded_texts(void) {
    reads_padded("pq_read_text, 64 bytes", R, 56, "1444.1.1", 0, date(1444, 1, 1, 0));
    reads_padded("pq_read_text, 65 bytes", R, 57, "1444.1.1", 1, 0);
    reads_padded("pq_read_text, 2^64 + 1444", R, 0, "18446744073709553060.1.1", 2, 0);
    reads_padded("pq_read_text, 2^64 + 1444 in 64 bytes", R, 40, "18446744073709553060.1.1", 2, 0);
    reads_padded("pq_read_text, 12 bytes of D", D, 4, "1444.1.1", 0, date(1444, 1, 1, 0));
    reads_padded("pq_read_text, 13 bytes of D", D, 5, "1444.1.1", 2, 0);
    reads_padded("pq_read_text, 64 bytes of D", D, 56, "1444.1.1", 2, 0);
    reads_padded("pq_read_text, 65 bytes of D", D, 57, "1444.1.1", 1, 0);
    reads_padded("pq_read_text, a number's text of 64 bytes", U, 56, "43808760", 0, date(1, 1, 1, 0));
    reads_padded("pq_read_text, a number's text of 65 bytes", U, 57, "43808760", 1, 0);
    reads_padded("pq_read_text, 65 bytes of a kind that is none", 7, 57, "1444.1.1", 4, 0);
}

static void reads_iso(const char *what, uint32_t kind, const char *text, uint32_t refusal, uint32_t value) {
    gives(what, pq_read_iso(kind, (const uint8_t *)text, strlen(text)), refusal, value);
}

static void iso_texts(void) {
    reads_iso("pq_read_iso", R, "1444-11-12T12", 0, date(1444, 11, 12, 13));
    reads_iso("pq_read_iso, no hour", R, "1444-11-12", 0, date(1444, 11, 12, 0));
    reads_iso("pq_read_iso, hour 1", H, "1936-02-03T00", 0, date(1936, 2, 3, 1));
    reads_iso("pq_read_iso, an hour of V", V, "1836-02-03T18", 0, date(1836, 2, 3, 18));
    reads_iso("pq_read_iso, no hour of V", V, "1836-02-03T07", 2, 0);
    reads_iso("pq_read_iso, 30 February", U, "2200-02-30", 0, date(2200, 2, 30, 0));
    reads_iso("pq_read_iso, a year before 0", D, "-005-01-02", 0, date(-5, 1, 2, 0));
    reads_iso("pq_read_iso, that year in another spelling", D, "-0005-01-02", 2, 0);
    reads_iso("pq_read_iso, an hour where there is none", D, "1444-11-12T12", 2, 0);
    uint8_t longer[65];
    memset(longer, '0', sizeof longer);
    memcpy(longer, "1444-11-12T12", 13);
    gives("pq_read_iso, 64 bytes", pq_read_iso(R, longer, 64), 2, 0);
    gives("pq_read_iso, 65 bytes", pq_read_iso(R, longer, 65), 1, 0);
    gives("pq_read_iso, a kind that is none", pq_read_iso(7, longer, 65), 4, 0);
    const uint8_t text[] = "1444-11-12x";
    gives("pq_read_iso, a byte more", pq_read_iso(D, text, 11), 2, 0);
    gives("pq_read_iso, as long as it is said to be", pq_read_iso(D, text, 10), 0, date(1444, 11, 12, 0));
    uint8_t out[16];
    gives("pq_write_iso, an odd hour", pq_write_iso(E, date(1444, 11, 12, 3), out, sizeof out), 0, 13);
    gives("pq_read_iso, the even hour", pq_read_iso(E, out, 13), 0, date(1444, 11, 12, 2));
    gives("pq_read_iso, the date alone", pq_read_iso(E, out, 10), 2, 0);
}

static void numbers(void) {
    counts("pq_to_number", pq_to_number(H, date(1, 1, 1, 24)), 0, 43808783);
    counts("pq_days_until", pq_days_until(D, date(1444, 11, 11, 0), date(1445, 11, 14, 0)), 0, 368);
    counts("pq_days_until, none", pq_days_until(R, date(1444, 11, 11, 0), date(1445, 11, 14, 0)), 4, 0);
    counts("pq_order", pq_order(U, date(1444, 2, 29, 0), date(1444, 2, 30, 0)), 0, -1);
}

typedef pq_answer writer(uint32_t, uint32_t, uint8_t *, size_t);

static void writes(const char *what, writer *put, uint32_t kind, uint32_t bits, const char *text) {
    uint8_t out[16];
    memset(out, '#', sizeof out);
    uint32_t length = (uint32_t)strlen(text);
    gives(what, put(kind, bits, out, sizeof out), 0, length);
    tell(what, memcmp(out, text, length) == 0 && out[length] == '#');
    gives(what, put(kind, bits, out, length - 1), 7, 0);
}

static void texts(void) {
    writes("pq_write_dotted", pq_write_dotted, U, date(5, 2, 30, 0), "5.02.30");
    writes("pq_write_iso", pq_write_iso, E, date(-5, 2, 3, 22), "-005-02-03T19");
    writes("pq_write_iso_date", pq_write_iso_date, E, date(-5, 2, 3, 22), "-005-02-03");
    writes("pq_write_exchange", pq_write_exchange, H, date(-5, 2, 3, 22), "-00005-02-03T21");
    writes("pq_write_exchange, above 9999", pq_write_exchange, R, date(10000, 2, 31, 0), "+10000-02-31");
    writes("pq_write_exchange, 9999", pq_write_exchange, E, date(9999, 2, 3, 22), "9999-02-03T19");
}

/* A date with an hour, so that D has it not, and the date an hour before it. */
static void marks(void) {
    uint32_t late = date(1337, 4, 1, 22), before = date(1337, 4, 1, 21);
    gives("pq_without_mark", pq_without_mark(E, guessed(late)), 0, late);
    gives("pq_without_mark, none", pq_without_mark(E, late), 0, late);
    gives("pq_without_mark, mark 2", pq_without_mark(E, late | 2), 4, 0);
    gives("pq_without_mark, mark 3", pq_without_mark(E, late | 3), 4, 0);
    gives("pq_without_mark, not of the kind", pq_without_mark(D, guessed(late)), 4, 0);
    gives("pq_without_mark, a kind that is none", pq_without_mark(7, late), 4, 0);
    gives("pq_add_days, guessed", pq_add_days(V, guessed(date(1836, 1, 2, 18)), 31), 0, guessed(date(1836, 2, 2, 18)));
    gives("pq_add_days, mark 2", pq_add_days(V, date(1836, 1, 2, 18) | 2, 31), 4, 0);
    gives("pq_add_days, mark 3 before 5", pq_add_days(V, date(1836, 1, 2, 18) | 3, INT32_MAX), 4, 0);
    gives("pq_start_of_day, guessed", pq_start_of_day(E, guessed(late)), 0, guessed(date(1337, 4, 1, 0)));
    gives("pq_start_of_day, mark 2", pq_start_of_day(E, late | 2), 4, 0);
    counts("pq_order, two marks", pq_order(E, guessed(late), late), 0, 0);
    counts("pq_order, two marks the other way", pq_order(E, late, guessed(late)), 0, 0);
    counts("pq_order, a guessed date before", pq_order(E, guessed(before), late), 0, -1);
    counts("pq_order, mark 2", pq_order(E, late, late | 2), 4, 0);
    counts("pq_to_number, guessed", pq_to_number(H, guessed(date(1, 1, 1, 24))), 0, 43808783);
    counts("pq_days_until, guessed", pq_days_until(E, guessed(late), date(1337, 4, 3, 0)), 0, 2);
    counts("pq_days_until, mark 3", pq_days_until(E, late, date(1337, 4, 3, 0) | 3), 4, 0);
    writes("pq_write_dotted, guessed", pq_write_dotted, E, guessed(late), "1337.4.1.22");
    writes("pq_write_iso, guessed", pq_write_iso, E, guessed(late), "1337-04-01T19");
    writes("pq_write_iso_date, guessed", pq_write_iso_date, E, guessed(late), "1337-04-01");
    writes("pq_write_exchange, guessed", pq_write_exchange, E, guessed(late), "1337-04-01T19");
}

void enters(const char *what, pq_record got, uint32_t refusal, uint32_t kind, uint32_t field) {
    tell(what, got.refusal == refusal && got.kind == kind && got.value == 0 && got.field == field);
}

void looks(const char *what, pq_lookup got, uint32_t refusal, uint32_t kind, uint32_t value, uint32_t guessed) {
    tell(what, got.refusal == refusal && got.kind == kind && got.value == value && got.guessed == guessed);
}

/* The request's own bytes: 500 as D, then 3 as V declared and removed; what stands after them stays. */
static void requested(void) {
    uint8_t table[12];
    memset(table, '#', sizeof table);
    gives("pq_table_new", pq_table_new(table, sizeof table), 0, 0);
    gives("pq_table_declare", pq_table_declare(table, sizeof table, 500, D), 0, 1);
    const uint8_t declared[] = {0, 0, 0, 4, 1, 0x01, 0xF4, 2, '#', '#', '#', '#'};
    tell("the table's bytes", memcmp(table, declared, sizeof table) == 0);
    gives("pq_table_declare, before it", pq_table_declare(table, sizeof table, 3, V), 0, 2);
    gives("pq_table_remove", pq_table_remove(table, sizeof table, 3), 0, 1);
    const uint8_t removed[] = {0, 0, 0, 4, 1, 0x01, 0xF4, 2, 0, 0, 0, '#'};
    tell("the table's bytes, closed up", memcmp(table, removed, sizeof table) == 0);
    gives("pq_table_remove, not there", pq_table_remove(table, sizeof table, 3), 16, 0);
    gives("pq_table_new, no room", pq_table_new(table, 4), 12, 0);
}

/* 3 is declared as V, 258 as R, 500 as D; two bytes are left. */
static const uint8_t three[] = {0, 0, 0, 10, 1, 0x00, 0x03, 6, 0x01, 0x02, 1, 0x01, 0xF4, 2, '#', '#'};

static void entries(void) {
    gives("pq_table_check", pq_table_check(three, sizeof three), 0, 3);
    gives("pq_table_check, cut", pq_table_check(three, 13), 9, 0);
    enters("pq_table_entry", pq_table_entry(three, sizeof three, 2), 0, D, 500);
    enters("pq_table_entry, none", pq_table_entry(three, sizeof three, 3), 13, 0, 0);
    uint8_t table[sizeof three];
    memcpy(table, three, sizeof table);
    gives("pq_table_declare, no room", pq_table_declare(table, sizeof table, 2, H), 15, 0);
    gives("pq_table_declare, a kind that reads no numbers", pq_table_declare(table, sizeof table, 2, U), 14, 0);
    gives("pq_table_declare, the new kind", pq_table_declare(table, sizeof table, 258, H), 0, 3);
    tell("the new kind", table[10] == H);
    table[10] = U;
    gives("pq_table_check, a bad entry", pq_table_check(table, sizeof table), 14, 0);
}

/* Each number is asked about in a declared field and in one that is not. E guesses at even hours, V has none of 2. */
static void lookups(void) {
    size_t length = sizeof three;
    looks("pq_table_lookup", pq_table_lookup(three, length, 500, E, 56456976), 0, D, date(1444, 11, 11, 0), 0);
    uint32_t guess = guessed(date(1444, 11, 11, 2));
    looks("pq_table_lookup, guessed", pq_table_lookup(three, length, 501, E, 56456978), 0, E, guess, 1);
    looks("pq_table_lookup, no guess", pq_table_lookup(three, length, 3, E, 56456978), 3, 0, 0, 0);
    looks("pq_table_lookup, in full", pq_table_lookup(three, length, 258, D, 1444), 0, R, date(-5000, 3, 2, 4), 0);
    looks("pq_table_lookup, not in full", pq_table_lookup(three, length, 259, D, 1444), 3, 0, 0, 0);
    looks("pq_table_lookup, a game kind without a guess", pq_table_lookup(three, length, 500, R, 56456976), 14, 0, 0, 0);
}

/* The whole answer to three of the lookups above, into an array of structs, whose last one no question reaches. */
static void lookups_at_once(void) {
    const uint32_t fields[] = {500, 501, 3, 258};
    const int32_t numbers[] = {56456976, 56456978, 56456978, 1444};
    const pq_lookup none = {7, 7, 7, 7};
    pq_lookup out[] = {none, none, none, none};
    const char *what = "pq_table_lookup_all";
    size_t length = sizeof three;
    gives(what, pq_table_lookup_all(three, length, E, fields, 4, numbers, 3, (uint32_t *)out, 16), 0, 3);
    looks(what, out[0], 0, D, date(1444, 11, 11, 0), 0);
    looks(what, out[1], 0, E, guessed(date(1444, 11, 11, 2)), 1);
    looks(what, out[2], 3, 0, 0, 0);
    looks("pq_table_lookup_all, what is not asked", out[3], 7, 7, 7, 7);
    what = "pq_table_lookup_all, the shortest decides";
    gives(what, pq_table_lookup_all(three, length, E, fields, 2, numbers, 4, (uint32_t *)out, 16), 0, 2);
    gives(what, pq_table_lookup_all(three, length, E, fields, 4, numbers, 3, (uint32_t *)out, 7), 0, 1);
    looks("pq_table_lookup_all, what is not asked", out[3], 7, 7, 7, 7);
    what = "pq_table_lookup_all, a game kind without a guess";
    gives(what, pq_table_lookup_all(three, length, R, fields, 4, numbers, 3, (uint32_t *)out, 16), 14, 0);
}

static void tables(void) {
    requested();
    entries();
    lookups();
    lookups_at_once();
}

int main(void) {
    dates();
    padded_texts();
    iso_texts();
    numbers();
    texts();
    marks();
    listings();
    books();
    gaps();
    tables();
    leagues();
    printf("%d answers right, %d wrong\n", right, wrong);
    return wrong > 0;
}
