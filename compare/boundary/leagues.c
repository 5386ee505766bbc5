/* Tables of two leagues: small ones and full ones, cut and changed, tables of version 1 that are moved, and two leagues in
 * turn on one table. What is asked about each stands in league_questions.c. */
#include "damaged.h"
#include <stdlib.h>
#include <string.h>

enum { SIZE = 4, SHARE = PQ_LEAGUES_SHARE, ROOM = PQ_LEAGUES_ROOM };

/* Two entries of each league: each byte changed, cut at each length; then length and version together, for their order. */
static void small_leagues(void) {
    static const uint8_t whole[] = {0, 0,    0,    17, 2, 1,    0x01, 0xF4, 2, 1,    0xFF, 0xFF, 5,
                                    2, 0x00, 0x01, 1,  2, 0x01, 0xF4, 6,    0xA5, 0xA5, 0xA5, 0xA5};
    cut_and_changed(whole, sizeof whole, on_leagues);
    uint8_t changed[sizeof whole];
    memcpy(changed, whole, sizeof whole);
    for (uint8_t said = 0; said <= sizeof whole; said++)
        for (uint8_t version = 0; version < 4; version++) {
            changed[3] = said;
            changed[4] = version;
            on_leagues(changed, sizeof whole);
        }
}

/* Writes so many entries of each league, from a field on by a step, and says this length beside theirs. */
static void write_leagues(uint8_t *table, const uint32_t *of, int32_t beside) {
    uint32_t length = (uint32_t)((int32_t)(1 + SIZE * (of[0] + of[1])) + beside);
    const uint8_t head[] = {0, 0, (uint8_t)(length >> 8), (uint8_t)length, 2};
    memcpy(table, head, HEAD);
    for (uint32_t i = 0; i < of[0] + of[1]; i++) {
        uint32_t place = i < of[0] ? i : i - of[0], field = 3 + 63 * place;
        const uint8_t entry[] = {i < of[0] ? 1 : 2, (uint8_t)(field >> 8), (uint8_t)field, (uint8_t)(1 + place % 3)};
        memcpy(table + HEAD + SIZE * i, entry, SIZE);
    }
}

/* Shares about the full one, lengths about the longest, buffers about the table's end, and bad entries at some places. */
static void full_leagues(uint8_t *table) {
    static const uint32_t shares[][2] = {{SHARE, SHARE},     {SHARE - 1, SHARE}, {SHARE, SHARE - 1}, {SHARE + 1, SHARE - 1},
                                         {SHARE - 1, SHARE + 1}, {SHARE, 0},     {0, SHARE},         {SHARE + 1, 0}};
    for (size_t i = 0; i < sizeof shares / sizeof shares[0]; i++) {
        size_t end = HEAD + SIZE * (shares[i][0] + shares[i][1]);
        write_leagues(table, shares[i], 0);
        on_leagues(table, ROOM + SIZE);
        on_leagues(table, end + random_word() % SIZE);
        on_leagues(table, end - 1);
    }
    for (int32_t beside = -SIZE; beside <= SIZE; beside++) {
        write_leagues(table, shares[0], beside);
        on_leagues(table, ROOM + SIZE);
    }
    write_leagues(table, shares[0], 0);
    static const size_t places[] = {0, SHARE - 1, SHARE, 2 * SHARE - 1};
    for (size_t i = 0; i < sizeof places / sizeof places[0] * SIZE; i++) {
        uint8_t *byte = table + HEAD + SIZE * places[i / SIZE] + i % SIZE, was = *byte;
        *byte = i % 2 ? 0 : 255;
        on_leagues(table, ROOM);
        *byte = was;
    }
}

/* A table of version 1, whole and with each byte changed; then as many entries as a share takes, one fewer and one more. */
static void moved_tables(uint8_t *table) {
    static const uint8_t whole[] = {0, 0, 0, 10, 1, 0x00, 0x03, 6, 0x01, 0xF4, 2, 0xFF, 0xFF, 5, 0xA5};
    cut_and_changed(whole, sizeof whole, on_moved_table);
    pq_table_new(table, ROOM);
    for (uint32_t field = 1; field <= SHARE + 1; field++) {
        pq_table_declare(table, ROOM, 63 * field, 1 + field % 3);
        if (field >= SHARE - 1)
            on_moved_table(table, HEAD + ENTRY * field + random_word() % 8);
    }
}

/* A drawn call of a league, and its answer as four numbers. */
static pq_record ask(uint8_t *table, uint32_t league, uint32_t drawn, uint32_t kind, int32_t number) {
    uint32_t way = drawn % 8, field = 1 + drawn / 8 % (SHARE + 8);
    if (way < 5) {
        pq_answer after = way < 3 ? pq_leagues_declare(table, ROOM, league, field, kind)
                                  : pq_leagues_remove(table, ROOM, league, field);
        return (pq_record){after.refusal, 0, after.value, 0};
    }
    if (way < 7) {
        pq_lookup found = pq_leagues_lookup(table, ROOM, league, field, kind, number);
        return (pq_record){found.refusal, found.kind, found.value, found.guessed};
    }
    return pq_leagues_entry(table, ROOM, league, field);
}

/* The same call on the shared table and on the league's own, which have to answer the same. */
static void same_answer(uint32_t league, uint8_t *table, uint8_t *alone) {
    uint32_t drawn = random_word(), kind = some_kind();
    int32_t number = some_number();
    pq_record one = ask(table, league, drawn, kind, number), other = ask(alone, league, drawn, kind, number);
    calls += 2;
    refusals += (one.refusal != 0) + (other.refusal != 0);
    digest = (((digest * 31 + one.refusal) * 31 + one.kind) * 31 + one.value) * 31 + one.field;
    if (memcmp(&one, &other, sizeof one) != 0)
        fault("a league that is told of the other", league, drawn);
}

/* Whether the entries of the shared table are those of the two apart, one after the other. */
static int is_both(const uint8_t *table, uint8_t *const *apart) {
    size_t sizes[2];
    for (uint32_t league = 1; league <= 2; league++) {
        sizes[league - 1] = SIZE * (size_t)pq_leagues_check(apart[league - 1], ROOM, league).value;
        if (pq_leagues_check(table, ROOM, league).value * (size_t)SIZE != sizes[league - 1])
            return 0;
    }
    return memcmp(table + HEAD, apart[0] + HEAD, sizes[0]) == 0 &&
           memcmp(table + HEAD + sizes[0], apart[1] + HEAD, sizes[1]) == 0;
}

/* Two leagues in turn on one table against two tables apart, from empty and from nearly full shares: the same answers, and
 * each finds the entries that it would have alone. */
static void in_turn(uint8_t *table) {
    uint8_t *apart[] = {exact(table, ROOM), exact(table, ROOM)};
    for (uint32_t filled = 0; filled <= SHARE; filled += SHARE - 2) {
        const uint32_t of[][2] = {{filled, 0}, {0, filled}, {filled, filled}};
        write_leagues(apart[0], of[0], 0);
        write_leagues(apart[1], of[1], 0);
        write_leagues(table, of[2], 0);
        for (uint32_t round = 0; round < 2000; round++) {
            uint32_t league = 1 + random_word() % 2;
            same_answer(league, table, apart[league - 1]);
            if (!is_both(table, apart))
                fault("the entries of two leagues", league, round);
        }
    }
    free(apart[0]);
    free(apart[1]);
}

void leagues(void) {
    uint8_t *table = malloc(ROOM + SIZE);
    if (table == NULL)
        abort();
    memset(table, 0xA5, ROOM + SIZE);
    small_leagues();
    full_leagues(table);
    moved_tables(table);
    in_turn(table);
    free(table);
}
