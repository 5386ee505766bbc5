/* Everything that is asked about one table of two leagues, whatever its bytes are. What has to be answered, and which bytes
 * have to stand there then, is worked out here from the bytes alone, and by the full decoder and the guess for a date. */
#include "damaged.h"
#include <stdlib.h>
#include <string.h>

enum { SIZE = 4, SHARE = PQ_LEAGUES_SHARE };

/* A buffer, what every call refuses it with (0: nothing), and how many entries both leagues have. */
typedef struct {
    const uint8_t *bytes;
    size_t length;
    uint32_t refusal, entries;
} shared;

static int is_league(uint32_t league) { return league == 1 || league == 2; }

static uint32_t key_of(uint32_t league, uint32_t field) { return league << 16 | field; }

static uint32_t number_at(const uint8_t *bytes, size_t count) {
    uint32_t number = 0;
    for (size_t i = 0; i < count; i++)
        number = number << 8 | bytes[i];
    return number;
}

static const uint8_t *entry_at(const shared *table, size_t place) { return table->bytes + HEAD + SIZE * place; }

/* Where the key stands among the entries, or would stand. */
static uint32_t place_of(const shared *table, uint32_t key) {
    uint32_t place = 0;
    while (place < table->entries && number_at(entry_at(table, place), 3) < key)
        place++;
    return place;
}

static uint32_t own_of(const shared *table, uint32_t league) {
    return place_of(table, key_of(league + 1, 0)) - place_of(table, key_of(league, 0));
}

static int is_at(const shared *table, size_t place, uint32_t key) {
    return place < table->entries && number_at(entry_at(table, place), 3) == key;
}

/* What the head is refused with; it counts the entries. */
static uint32_t head_refusal(shared *table) {
    if (table->length < HEAD)
        return 9;
    uint32_t said = number_at(table->bytes, 4);
    if (said == 0 || said > 1 + SIZE * 2 * SHARE || said > table->length - 4)
        return 9;
    if (table->bytes[4] != 2)
        return 10;
    table->entries = (said - 1) / SIZE;
    return (said - 1) % SIZE != 0 ? 9 : 0;
}

static uint32_t entries_refusal(const shared *table) {
    uint32_t before = 0, own[3] = {0};
    for (size_t place = 0; place < table->entries; place++) {
        const uint8_t *entry = entry_at(table, place);
        uint32_t key = number_at(entry, 3);
        if (key <= before || !is_league(entry[0]) || !is_field(key & 0xFFFF) || !reads_numbers(entry[3]))
            return 14;
        if (++own[entry[0]] > SHARE)
            return 14;
        before = key;
    }
    return 0;
}

static shared read_table(const uint8_t *bytes, size_t length) {
    shared table = {bytes, length, 0, 0};
    table.refusal = head_refusal(&table);
    if (table.refusal == 0)
        table.refusal = entries_refusal(&table);
    return table;
}

/* The table's own refusal, then 14 for what the call names, or 0. */
static uint32_t first_refusal(const shared *table, int is_allowed) {
    return table->refusal != 0 ? table->refusal : is_allowed ? 0 : 14;
}

/* Counts an answer, and holds it to the one that has to be given, member by member. */
static void answers(const char *what, uint32_t number, const void *got, const void *wanted, size_t size) {
    uint32_t members[4];
    memcpy(members, got, size);
    calls++;
    refusals += members[0] != 0;
    for (size_t i = 0; i < size / sizeof *members; i++)
        digest = digest * 31 + members[i];
    if (memcmp(got, wanted, size) != 0)
        fault(what, members[0], number);
}

/* The same of a call that changes a buffer, with the bytes that have to be there then. */
static void changes(const char *what, pq_answer got, pq_answer wanted, uint8_t *now, uint8_t *after, size_t length) {
    answers(what, (uint32_t)length, &got, &wanted, sizeof got);
    if (length > 0 && memcmp(now, after, length) != 0)
        fault(what, got.refusal, got.value);
    free(now);
    free(after);
}

static void say(uint8_t *table, uint32_t entries) {
    uint32_t length = 1 + SIZE * entries;
    const uint8_t head[] = {0, 0, (uint8_t)(length >> 8), (uint8_t)length, 2};
    memcpy(table, head, HEAD);
}

/* What a declaration has to answer, and what it has to do with the bytes. */
static pq_answer declared(const shared *table, uint32_t league, uint32_t field, uint32_t kind, uint8_t *after) {
    uint32_t refusal = first_refusal(table, is_league(league) && is_field(field) && reads_numbers(kind));
    if (refusal != 0)
        return (pq_answer){refusal, 0};
    uint32_t key = key_of(league, field), place = place_of(table, key), own = own_of(table, league);
    uint8_t *at = after + HEAD + SIZE * place;
    if (!is_at(table, place, key)) {
        if (own == SHARE || table->length < HEAD + SIZE * (table->entries + (size_t)1))
            return (pq_answer){15, 0};
        memmove(at + SIZE, at, SIZE * (table->entries - place));
        say(after, table->entries + 1);
        own++;
    }
    memcpy(at, (uint8_t[]){(uint8_t)league, (uint8_t)(field >> 8), (uint8_t)field, (uint8_t)kind}, SIZE);
    return (pq_answer){0, own};
}

static pq_answer removed(const shared *table, uint32_t league, uint32_t field, uint8_t *after) {
    uint32_t refusal = first_refusal(table, is_league(league) && is_field(field));
    if (refusal != 0)
        return (pq_answer){refusal, 0};
    uint32_t key = key_of(league, field), place = place_of(table, key), later = table->entries - place - 1;
    if (!is_at(table, place, key))
        return (pq_answer){16, 0};
    uint8_t *at = after + HEAD + SIZE * place;
    memmove(at, at + SIZE, SIZE * later);
    memset(at + SIZE * later, 0, SIZE);
    say(after, table->entries - 1);
    return (pq_answer){0, own_of(table, league) - 1};
}

static pq_lookup looked(const shared *table, uint32_t league, uint32_t field, uint32_t game, int32_t number) {
    uint32_t refusal = first_refusal(table, is_league(league) && is_field(field) && has_guess(game));
    if (refusal != 0)
        return (pq_lookup){refusal, 0, 0, 0};
    uint32_t key = key_of(league, field), place = place_of(table, key);
    int is_there = is_at(table, place, key);
    uint32_t kind = is_there ? entry_at(table, place)[3] : game;
    pq_answer date = is_there ? pq_read_number(kind, number) : pq_guess_number(kind, number);
    return date.refusal != 0 ? (pq_lookup){date.refusal, 0, 0, 0} : (pq_lookup){0, kind, date.value, !is_there};
}

static pq_record entered(const shared *table, uint32_t league, size_t place) {
    uint32_t refusal = first_refusal(table, is_league(league));
    if (refusal == 0 && place >= own_of(table, league))
        refusal = 13;
    if (refusal != 0)
        return (pq_record){refusal, 0, 0, 0};
    const uint8_t *entry = entry_at(table, place_of(table, key_of(league, 0)) + place);
    return (pq_record){0, entry[3], 0, number_at(entry + 1, 2)};
}

static void ask_field(const shared *table, const uint8_t *copy, uint32_t league, uint32_t field) {
    size_t length = table->length;
    uint32_t kind = some_kind(), game = random_word() % 2 ? 2 : some_kind();
    int32_t number = some_number();
    pq_lookup found = pq_leagues_lookup(copy, length, league, field, game, number);
    pq_lookup date = looked(table, league, field, game, number);
    answers("a league's lookup", field, &found, &date, sizeof found);
    uint8_t *now = exact(table->bytes, length), *after = exact(table->bytes, length);
    pq_answer wanted = declared(table, league, field, kind, after);
    changes("a league's declaration", pq_leagues_declare(now, length, league, field, kind), wanted, now, after, length);
    now = exact(table->bytes, length), after = exact(table->bytes, length);
    wanted = removed(table, league, field, after);
    changes("a league's removal", pq_leagues_remove(now, length, league, field), wanted, now, after, length);
}

static void ask_league(const shared *table, const uint8_t *copy, uint32_t league) {
    static const uint32_t fields[] = {0, 1, 3, 500, 65535, 65536, 66036, 0x10001, UINT32_MAX};
    static const size_t places[] = {0, 1, 2, SHARE - 1, SHARE, SIZE_MAX, SIZE_MAX / SIZE + 1};
    uint32_t refusal = first_refusal(table, is_league(league));
    pq_answer count = pq_leagues_check(copy, table->length, league);
    pq_answer wanted = {refusal, refusal == 0 ? own_of(table, league) : 0};
    answers("a league's check", league, &count, &wanted, sizeof count);
    for (uint32_t i = 0, drawn = random_word(); i < 3; i++) {
        size_t place = places[(drawn + i) % (sizeof places / sizeof places[0])];
        pq_record found = pq_leagues_entry(copy, table->length, league, place), entry = entered(table, league, place);
        answers("a league's entry", (uint32_t)place, &found, &entry, sizeof found);
    }
    ask_field(table, copy, league, 500);
    for (uint32_t i = 0; i < 3; i++)
        ask_field(table, copy, league, fields[random_word() % (sizeof fields / sizeof fields[0])]);
}

/* A move of these bytes, as a table of version 1, into so much room. */
static void ask_move(const uint8_t *from, size_t length, pq_answer check, size_t room) {
    static uint8_t lent[HEAD + SIZE * (SHARE + 1) + 8];
    memset(lent, 0xA5, sizeof lent);
    uint8_t *to = exact(lent, room), *after = exact(lent, room);
    pq_answer wanted = check;
    if (check.refusal == 0 && (check.value > SHARE || room < HEAD + SIZE * check.value))
        wanted = (pq_answer){15, 0};
    if (wanted.refusal == 0) {
        say(after, check.value);
        for (size_t i = 0; i < check.value; i++) {
            after[HEAD + SIZE * i] = 1;
            memcpy(after + HEAD + SIZE * i + 1, from + HEAD + ENTRY * i, ENTRY);
        }
    }
    changes("a move to leagues", pq_leagues_from_table(from, length, to, room), wanted, to, after, room);
}

void on_moved_table(const uint8_t *bytes, size_t length) {
    uint8_t *copy = exact(bytes, length);
    pq_answer check = pq_table_check(copy, length);
    size_t needed = HEAD + SIZE * (check.value <= SHARE ? check.value : SHARE + 1);
    const size_t rooms[] = {0, HEAD - 1, needed - 1, needed, needed + random_word() % 8};
    for (size_t i = 0; i < sizeof rooms / sizeof rooms[0]; i++)
        ask_move(copy, length, check, rooms[i]);
    if (length > 0 && memcmp(copy, bytes, length) != 0)
        fault("a table that is moved changed", 0, (uint32_t)length);
    free(copy);
}

void on_leagues(const uint8_t *bytes, size_t length) {
    static const uint32_t none[] = {0, 3, 255, 256, 257, 258, 65537, 0x80000001, UINT32_MAX};
    uint8_t *copy = exact(bytes, length);
    shared table = read_table(bytes, length);
    ask_league(&table, copy, 1);
    ask_league(&table, copy, 2);
    ask_league(&table, copy, none[random_word() % (sizeof none / sizeof none[0])]);
    if (length > 0 && memcmp(copy, bytes, length) != 0)
        fault("a table of leagues changed", 0, (uint32_t)length);
    uint8_t *after = exact(bytes, length);
    pq_answer wanted = {length < HEAD ? 12 : 0, 0};
    if (wanted.refusal == 0)
        say(after, 0);
    changes("a new table of leagues", pq_leagues_new(copy, length), wanted, copy, after, length);
    on_moved_table(bytes, length);
}
