/* Everything that is asked about one table, whatever its bytes are, and what has to be answered: by its bytes, by the full
 * decoder and by the guess. */
#include "damaged.h"
#include <stdlib.h>
#include <string.h>

static const uint32_t fields[] = {0, 1, 3, 4, 500, 501, 65535, 65536, 65539, 66036, 0x80000003, UINT32_MAX};
#define FIELDS (sizeof fields / sizeof fields[0])

int is_field(uint32_t field) { return 1 <= field && field <= 65535; }

int has_guess(uint32_t kind) { return is_kind(kind) && kind != 1 && kind != 4; }

int reads_numbers(uint32_t kind) { return is_kind(kind) && kind != 4; }

static uint32_t some_field(void) { return fields[random_word() % FIELDS]; }

/* The refusals that a call may give, as bits. */
#define REFUSED(number) (UINT32_C(1) << (number))
#define TABLE (REFUSED(9) | REFUSED(10) | REFUSED(14))

/* What every answer about a table has: a refusal that its call may give, first among its members, and 0 beside one. */
static void told_of_table(const char *what, uint32_t may_give, uint32_t number, const uint32_t *members, size_t count) {
    uint32_t refusal = members[0];
    calls++;
    refusals += refusal != 0;
    if (refusal > 16 || ((may_give | 1) >> refusal & 1) == 0)
        fault(what, refusal, number);
    for (size_t i = 0; i < count; i++) {
        digest = digest * 31 + members[i];
        if (refusal != 0 && i > 0 && members[i] != 0)
            fault(what, refusal, number);
    }
}

static void answered(const char *what, uint32_t may_give, uint32_t number, pq_answer answer) {
    told_of_table(what, may_give, number, (uint32_t[]){answer.refusal, answer.value}, 2);
}

static uint32_t field_of(const uint8_t *entry) { return (uint32_t)entry[0] << 8 | entry[1]; }

/* What the check has to refuse a buffer with, or 0. */
static uint32_t refused_as(const uint8_t *bytes, size_t length) {
    if (length < HEAD)
        return 9;
    uint32_t said = (uint32_t)bytes[0] << 24 | (uint32_t)bytes[1] << 16 | (uint32_t)bytes[2] << 8 | bytes[3];
    if (said == 0 || said > 1 + ENTRY * MOST || said > length - 4)
        return 9;
    if (bytes[4] != 1)
        return 10;
    if ((said - 1) % ENTRY != 0)
        return 9;
    uint32_t before = 0;
    for (const uint8_t *entry = bytes + HEAD; entry < bytes + 4 + said; entry += ENTRY) {
        if (field_of(entry) <= before || !reads_numbers(entry[2]))
            return 14;
        before = field_of(entry);
    }
    return 0;
}

/* A table as it was checked: its bytes, the length of its buffer, and what the check gave. */
typedef struct {
    const uint8_t *bytes;
    size_t length;
    pq_answer count;
} checked;

/* What every call refuses first: what the check refuses, then with 14 a field or a kind that is none. 0: neither. */
static uint32_t first_refusal(const checked *table, int is_allowed) {
    return table->count.refusal != 0 ? table->count.refusal : is_allowed ? 0 : 14;
}

static void refused_first(const char *what, const checked *table, int is_allowed, uint32_t refusal, uint32_t number) {
    uint32_t first = first_refusal(table, is_allowed);
    int is_first = refusal == 9 || refusal == 10 || refusal == 14;
    if (first == 0 ? is_first : refusal != first)
        fault(what, refusal, number);
}

/* The kind that a field is declared as in so many entries, or 0. */
static uint32_t declared_as(const uint8_t *table, size_t entries, uint32_t field) {
    for (const uint8_t *entry = table + HEAD; entry < table + HEAD + ENTRY * entries; entry += ENTRY)
        if (field_of(entry) == field)
            return entry[2];
    return 0;
}

static void entry(const checked *table, const uint8_t *copy, size_t place) {
    pq_record found = pq_table_entry(copy, table->length, place);
    uint32_t members[] = {found.refusal, found.kind, found.value, found.field};
    told_of_table("entry", TABLE | REFUSED(13), (uint32_t)place, members, 4);
    refused_first("an entry", table, 1, found.refusal, (uint32_t)place);
    if (table->count.refusal != 0)
        return;
    if ((found.refusal == 13) != (place >= table->count.value)) {
        fault("an entry's place", found.kind, (uint32_t)place);
    } else if (found.refusal == 0) {
        const uint8_t *bytes = copy + HEAD + ENTRY * place;
        if (found.kind != bytes[2] || found.value != 0 || found.field != field_of(bytes))
            fault("an entry's parts", found.kind, found.field);
    }
}

/* A declared field is answered as by the full decoder, any other as by the guess. */
static pq_lookup lookup(const checked *table, const uint8_t *copy, uint32_t field, uint32_t game, int32_t number) {
    pq_lookup found = pq_table_lookup(copy, table->length, field, game, number);
    uint32_t members[] = {found.refusal, found.kind, found.value, found.guessed};
    told_of_table("lookup", TABLE | REFUSED(3), field, members, 4);
    int is_allowed = is_field(field) && has_guess(game);
    refused_first("a lookup", table, is_allowed, found.refusal, field);
    if (first_refusal(table, is_allowed) != 0)
        return found;
    uint32_t kind = declared_as(copy, table->count.value, field);
    pq_answer date = kind != 0 ? pq_read_number(kind, number) : pq_guess_number(game, number);
    if (found.refusal != date.refusal || found.value != date.value)
        fault("a lookup's date", game, field);
    if (found.refusal == 0 && (found.guessed != (kind == 0) || found.kind != (kind != 0 ? kind : game)))
        fault("a lookup's way", game, field);
    if (found.refusal == 0 && found.value % 4 != found.guessed)
        fault("a lookup's mark", game, field);
    return found;
}

/* Some questions, some room, each in a buffer of exactly its length. */
static void lookup_all(const checked *table, const uint8_t *copy, uint32_t game) {
    enum { QUESTIONS = 6, ROOM = 4 * QUESTIONS + 4 };
    uint32_t asked[QUESTIONS], before[ROOM];
    int32_t numbers[QUESTIONS];
    for (size_t i = 0; i < QUESTIONS; i++) {
        asked[i] = some_field();
        numbers[i] = some_number();
    }
    memset(before, 0xA5, sizeof before);
    size_t asked_length = random_word() % (QUESTIONS + 1), numbers_length = random_word() % (QUESTIONS + 1);
    size_t room = random_word() % (ROOM + 1);
    uint32_t *asked_copy = (uint32_t *)exact(asked, asked_length * sizeof *asked);
    int32_t *numbers_copy = (int32_t *)exact(numbers, numbers_length * sizeof *numbers);
    uint32_t *out = (uint32_t *)exact(before, room * sizeof *out);
    pq_answer answer =
        pq_table_lookup_all(copy, table->length, game, asked_copy, asked_length, numbers_copy, numbers_length, out, room);
    answered("lookup all", TABLE, game, answer);
    refused_first("lookups", table, has_guess(game), answer.refusal, game);
    size_t shortest = asked_length < numbers_length ? asked_length : numbers_length;
    size_t questions = shortest < room / 4 ? shortest : room / 4;
    size_t written = answer.refusal == 0 ? answer.value : 0;
    if (answer.refusal == 0 && answer.value != questions)
        fault("the number of lookups", game, answer.value);
    else if (memcmp(out + 4 * written, before, (room - 4 * written) * sizeof *out) != 0)
        fault("a number after the lookups", game, answer.value);
    else
        for (size_t i = 0; i < written; i++) {
            pq_lookup one = lookup(table, copy, asked[i], game, numbers[i]);
            if (memcmp(out + 4 * i, &one, sizeof one) != 0)
                fault("another answer among many", game, asked[i]);
        }
    int is_same = memcmp(asked_copy, asked, asked_length * sizeof *asked) == 0;
    if (!is_same || memcmp(numbers_copy, numbers, numbers_length * sizeof *numbers) != 0)
        fault("a question changed", game, answer.value);
    free(asked_copy);
    free(numbers_copy);
    free(out);
}

/* What a change has left: so many entries, and all bytes from a place on as they were. */
static void left(const char *what, const checked *table, const uint8_t *copy, pq_answer after, size_t entries, size_t end) {
    pq_answer count = pq_table_check(copy, table->length);
    answered("check", TABLE, (uint32_t)table->length, count);
    if (after.value != entries || count.refusal != 0 || count.value != entries)
        fault(what, count.refusal, after.value);
    if (memcmp(copy + end, table->bytes + end, table->length - end) != 0)
        fault("a byte after the table", 0, (uint32_t)table->length);
}

static void declare(const checked *table, uint32_t field, uint32_t kind) {
    uint8_t *copy = exact(table->bytes, table->length);
    pq_answer after = pq_table_declare(copy, table->length, field, kind);
    answered("declare", TABLE | REFUSED(15), field, after);
    int is_allowed = is_field(field) && reads_numbers(kind);
    refused_first("a declaration", table, is_allowed, after.refusal, field);
    size_t before = table->count.value;
    int is_new = declared_as(table->bytes, before, field) == 0;
    int is_full = before == MOST || table->length < HEAD + ENTRY * (before + 1);
    if (first_refusal(table, is_allowed) == 0 && (after.refusal == 15) != (is_new && is_full))
        fault("a full table", kind, field);
    if (after.refusal == 0) {
        size_t entries = before + is_new;
        left("a declaration", table, copy, after, entries, HEAD + ENTRY * entries);
        if (declared_as(copy, entries, field) != kind)
            fault("a declared field", kind, field);
    } else if (table->length > 0 && memcmp(copy, table->bytes, table->length) != 0) {
        fault("a refused declaration changed a byte", kind, field);
    }
    free(copy);
}

static void remove_field(const checked *table, uint32_t field) {
    uint8_t *copy = exact(table->bytes, table->length);
    pq_answer after = pq_table_remove(copy, table->length, field);
    answered("remove", TABLE | REFUSED(16), field, after);
    refused_first("a removal", table, is_field(field), after.refusal, field);
    size_t before = table->count.value;
    int is_there = declared_as(table->bytes, before, field) != 0;
    if (first_refusal(table, is_field(field)) == 0 && (after.refusal == 16) != !is_there)
        fault("an absent field", 0, field);
    if (after.refusal == 0) {
        size_t end = HEAD + ENTRY * before;
        left("a removal", table, copy, after, before - 1, end);
        if (memcmp(copy + end - ENTRY, (uint8_t[ENTRY]){0}, ENTRY) != 0)
            fault("the bytes freed", 0, field);
        if (declared_as(copy, before - 1, field) != 0)
            fault("a removed field", 0, field);
    } else if (table->length > 0 && memcmp(copy, table->bytes, table->length) != 0) {
        fault("a refused removal changed a byte", 0, field);
    }
    free(copy);
}

static void new_table(const checked *table) {
    uint8_t *copy = exact(table->bytes, table->length);
    pq_answer empty = pq_table_new(copy, table->length);
    answered("new table", REFUSED(12), (uint32_t)table->length, empty);
    if ((empty.refusal == 12) != (table->length < HEAD))
        fault("new table", empty.refusal, (uint32_t)table->length);
    if (empty.refusal == 0)
        left("new table", table, copy, empty, 0, HEAD);
    else if (table->length > 0 && memcmp(copy, table->bytes, table->length) != 0)
        fault("a refused new table changed a byte", 0, (uint32_t)table->length);
    free(copy);
}

void on_table(const uint8_t *bytes, size_t length) {
    uint8_t *copy = exact(bytes, length);
    checked table = {bytes, length, pq_table_check(copy, length)};
    answered("check", TABLE, (uint32_t)length, table.count);
    if (table.count.refusal != refused_as(bytes, length))
        fault("the check", table.count.refusal, (uint32_t)length);
    static const size_t places[] = {0, 1, 2, 3, MOST - 1, MOST, SIZE_MAX, SIZE_MAX / ENTRY + 1};
    for (size_t i = 0; i < sizeof places / sizeof places[0]; i++)
        entry(&table, copy, places[i]);
    for (size_t f = 0; f < FIELDS; f++) {
        int32_t number = some_number();
        lookup(&table, copy, fields[f], 2, number);
        lookup(&table, copy, fields[f], some_kind(), number);
        declare(&table, fields[f], 2);
        declare(&table, fields[f], some_kind());
        remove_field(&table, fields[f]);
    }
    for (size_t k = 0; k < KINDS; k++) {
        lookup(&table, copy, 500, kinds[k], some_number());
        lookup_all(&table, copy, kinds[k]);
        declare(&table, some_field(), kinds[k]);
    }
    answered("nothing asked", TABLE, 2, pq_table_lookup_all(copy, length, 2, NULL, 0, NULL, 0, NULL, 0));
    if (length > 0 && memcmp(copy, bytes, length) != 0)
        fault("a table changed", 0, (uint32_t)length);
    new_table(&table);
    free(copy);
}
