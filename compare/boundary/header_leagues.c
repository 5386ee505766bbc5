/* The answers of tables that two leagues share: every function at both sides of each bound, the order of refusals, and that
 * neither league is told of the other. */
#include "header.h"
#include <string.h>

enum { SHARE = PQ_LEAGUES_SHARE, ROOM = PQ_LEAGUES_ROOM };

_Static_assert(SHARE == 1024 && ROOM == 5 + 4 * 2 * SHARE, "a length of 8,193 and four bytes");

/* The header's own bytes, declared by the two leagues in turn; then one of them removed. What stands after them stays. */
static void in_turn(void) {
    uint8_t table[15];
    memset(table, '#', sizeof table);
    gives("pq_leagues_new, no room", pq_leagues_new(table, 4), 12, 0);
    tell("a buffer that stays", table[0] == '#');
    gives("pq_leagues_new", pq_leagues_new(table, 5), 0, 0);
    tell("the bytes of an empty table", memcmp(table, (uint8_t[]){0, 0, 0, 1, 2, '#'}, 6) == 0);
    gives("pq_leagues_check, empty", pq_leagues_check(table, sizeof table, 1), 0, 0);
    gives("pq_leagues_declare", pq_leagues_declare(table, sizeof table, 2, 500, V), 0, 1);
    gives("pq_leagues_declare, three bytes left", pq_leagues_declare(table, 12, 1, 500, D), 15, 0);
    gives("pq_leagues_declare, the same field", pq_leagues_declare(table, 13, 1, 500, D), 0, 1);
    const uint8_t both[] = {0, 0, 0, 9, 2, 1, 0x01, 0xF4, 2, 2, 0x01, 0xF4, 6, '#', '#'};
    tell("the bytes of two leagues", memcmp(table, both, sizeof table) == 0);
    gives("pq_leagues_remove, not of the league", pq_leagues_remove(table, sizeof table, 1, 501), 16, 0);
    gives("pq_leagues_remove", pq_leagues_remove(table, sizeof table, 1, 500), 0, 0);
    const uint8_t closed[] = {0, 0, 0, 5, 2, 2, 0x01, 0xF4, 6, 0, 0, 0, 0, '#', '#'};
    tell("the bytes freed", memcmp(table, closed, sizeof table) == 0);
    gives("pq_leagues_remove, the other's field", pq_leagues_remove(table, sizeof table, 1, 500), 16, 0);
    gives("pq_leagues_declare, room used again", pq_leagues_declare(table, 13, 2, 501, E), 0, 2);
    tell("what stands after a table", table[13] == '#' && table[14] == '#');
}

/* Of league 1: 3 as V, 500 as D. Of league 2: 1 as R, 500 as H, 65535 as E. Three bytes are left. */
static const uint8_t five[] = {0, 0,    0,    21, 2, 1,    0x00, 0x03, 6, 1,    0x01, 0xF4, 2,   2,
                               0, 0x01, 1,    2,  1, 0xF4, 3,    2,    0xFF, 0xFF, 5,    '#',  '#', '#'};

/* The places count the league's own entries. */
static void entries(void) {
    size_t length = sizeof five;
    gives("pq_leagues_check, league 1", pq_leagues_check(five, length, 1), 0, 2);
    gives("pq_leagues_check, league 2", pq_leagues_check(five, length, 2), 0, 3);
    enters("pq_leagues_entry, league 1's first", pq_leagues_entry(five, length, 1, 0), 0, V, 3);
    enters("pq_leagues_entry, league 1's last", pq_leagues_entry(five, length, 1, 1), 0, D, 500);
    enters("pq_leagues_entry, past league 1's", pq_leagues_entry(five, length, 1, 2), 13, 0, 0);
    enters("pq_leagues_entry, league 2's first", pq_leagues_entry(five, length, 2, 0), 0, R, 1);
    enters("pq_leagues_entry, league 2's last", pq_leagues_entry(five, length, 2, 2), 0, E, 65535);
    enters("pq_leagues_entry, past league 2's", pq_leagues_entry(five, length, 2, 3), 13, 0, 0);
    enters("pq_leagues_entry, far past them", pq_leagues_entry(five, length, 2, SIZE_MAX), 13, 0, 0);
}

/* Each number is looked up by what the league itself has declared of the field. */
static void lookups(void) {
    size_t length = sizeof five;
    uint32_t day = date(1444, 11, 11, 0), hour = date(1444, 11, 11, 1);
    looks("pq_leagues_lookup, league 1", pq_leagues_lookup(five, length, 1, 500, E, 56456976), 0, D, day, 0);
    looks("pq_leagues_lookup, league 2", pq_leagues_lookup(five, length, 2, 500, E, 56456976), 0, H, hour, 0);
    uint32_t guess = guessed(date(1444, 11, 11, 2));
    looks("pq_leagues_lookup, the other's field", pq_leagues_lookup(five, length, 2, 3, E, 56456978), 0, E, guess, 1);
    looks("pq_leagues_lookup, no guess", pq_leagues_lookup(five, length, 1, 3, E, 56456978), 3, 0, 0, 0);
    looks("pq_leagues_lookup, in full", pq_leagues_lookup(five, length, 2, 1, D, 1444), 0, R, date(-5000, 3, 2, 4), 0);
    looks("pq_leagues_lookup, not in full", pq_leagues_lookup(five, length, 1, 1, D, 1444), 3, 0, 0, 0);
}

/* 14 for what a call names, never cut; before it the table's own refusals, after it 15, 16, 13 and 3. */
static void calls(void) {
    uint8_t table[sizeof five];
    size_t length = sizeof table;
    memcpy(table, five, length);
    static const uint32_t none[] = {0, 3, 257, 258, 65537, UINT32_MAX};
    for (size_t i = 0; i < sizeof none / sizeof none[0]; i++) {
        gives("pq_leagues_check, no league", pq_leagues_check(table, length, none[i]), 14, 0);
        gives("pq_leagues_declare, no league", pq_leagues_declare(table, length, none[i], 2, H), 14, 0);
        gives("pq_leagues_remove, no league", pq_leagues_remove(table, length, none[i], 2), 14, 0);
        looks("pq_leagues_lookup, no league", pq_leagues_lookup(table, length, none[i], 500, D, 1), 14, 0, 0, 0);
        enters("pq_leagues_entry, no league", pq_leagues_entry(table, length, none[i], SIZE_MAX), 14, 0, 0);
    }
    static const uint32_t fields[] = {0, 65536, 65536 + 500, 2 * 65536 + 500, UINT32_MAX};
    for (size_t i = 0; i < sizeof fields / sizeof fields[0]; i++) {
        gives("pq_leagues_declare, no field", pq_leagues_declare(table, length, 1, fields[i], D), 14, 0);
        gives("pq_leagues_remove, no field", pq_leagues_remove(table, length, 1, fields[i]), 14, 0);
        looks("pq_leagues_lookup, no field", pq_leagues_lookup(table, length, 1, fields[i], D, 1), 14, 0, 0, 0);
    }
    gives("pq_leagues_declare, U", pq_leagues_declare(table, length, 1, 2, U), 14, 0);
    gives("pq_leagues_declare, three bytes left", pq_leagues_declare(table, length, 1, 2, H), 15, 0);
    looks("pq_leagues_lookup, a game without a guess", pq_leagues_lookup(table, length, 1, 500, R, 56456976), 14, 0, 0, 0);
    tell("the bytes of refused calls", memcmp(table, five, length) == 0);
    gives("pq_leagues_declare, the new kind", pq_leagues_declare(table, length, 2, 500, V), 0, 3);
    tell("the new kind, the league's own", table[20] == V && memcmp(table, five, 20) == 0);
}

/* What every call refuses a table with: one of each league, and one that names no league, no field and no kind. */
static void refuses(const char *what, const uint8_t *bytes, size_t length, uint32_t refusal) {
    static const uint32_t leagues[] = {1, 2, 257}, fields[] = {500, 1, 0}, kinds[] = {D, E, U};
    static uint8_t table[ROOM + 8];
    memcpy(table, bytes, length);
    for (size_t i = 0; i < 3; i++) {
        gives(what, pq_leagues_check(table, length, leagues[i]), refusal, 0);
        gives(what, pq_leagues_declare(table, length, leagues[i], fields[i], kinds[i]), refusal, 0);
        gives(what, pq_leagues_remove(table, length, leagues[i], fields[i]), refusal, 0);
        looks(what, pq_leagues_lookup(table, length, leagues[i], fields[i], kinds[i], 56456976), refusal, 0, 0, 0);
        enters(what, pq_leagues_entry(table, length, leagues[i], i == 2 ? SIZE_MAX : 0), refusal, 0, 0);
    }
    tell(what, memcmp(table, bytes, length) == 0);
}

static void refused_tables(void) {
    uint8_t table[sizeof five];
    memcpy(table, five, sizeof table);
    refuses("leagues, under five bytes", table, 4, 9);
    refuses("leagues, cut", table, 24, 9);
    table[3]--;
    refuses("leagues, no whole entry", table, sizeof table, 9);
    table[4] = 1;
    refuses("leagues, another version before no whole entry", table, sizeof table, 10);
    static const struct {
        const char *what;
        uint8_t at, byte;
    } damages[] = {{"leagues, league 0", 5, 0},   {"leagues, league 3", 21, 3}, {"leagues, league 2 before 1", 5, 2},
                   {"leagues, field 0", 15, 0},   {"leagues, kind U", 16, U},   {"leagues, kind 7", 24, 7},
                   {"leagues, a field twice", 11, 3}};
    for (size_t i = 0; i < sizeof damages / sizeof damages[0]; i++) {
        memcpy(table, five, sizeof table);
        table[damages[i].at] = damages[i].byte;
        if (damages[i].at == 11)
            table[10] = 0;
        refuses(damages[i].what, table, sizeof table, 14);
    }
}

/* A table of version 1 in the calls of version 2, and the other way round: 10, but 9 where the length is over 6,145. */
static void versions(void) {
    const uint8_t first[] = {0, 0, 0, 4, 1, 0x01, 0xF4, 2};
    refuses("leagues, version 1", first, sizeof first, 10);
    gives("pq_table_check, version 2", pq_table_check(five, sizeof five), 10, 0);
    static uint8_t bytes[ROOM + 8];
    static const struct {
        uint32_t length;
        uint8_t version;
        uint32_t by_1, by_2;
    } lengths[] = {{6145, 2, 10, 14}, {6146, 2, 9, 9},  {6149, 2, 9, 14}, {8193, 2, 9, 14}, {8194, 2, 9, 9},
                   {8197, 2, 9, 9},   {6145, 1, 14, 10}, {8193, 1, 9, 10}, {8193, 3, 9, 10}, {8194, 3, 9, 9}};
    for (size_t i = 0; i < sizeof lengths / sizeof lengths[0]; i++) {
        const uint8_t head[] = {0, 0, (uint8_t)(lengths[i].length >> 8), (uint8_t)lengths[i].length, lengths[i].version};
        memcpy(bytes, head, sizeof head);
        gives("pq_table_check, a length", pq_table_check(bytes, sizeof bytes), lengths[i].by_1, 0);
        gives("pq_leagues_check, a length", pq_leagues_check(bytes, sizeof bytes, 1), lengths[i].by_2, 0);
    }
}

/* Writes a table of so many fields of each league, from field 1 on, and gives its length. */
static size_t write_table(uint8_t *table, uint32_t of_1, uint32_t of_2) {
    size_t length = 5 + 4 * (of_1 + of_2);
    const uint8_t head[] = {0, 0, (uint8_t)((length - 4) >> 8), (uint8_t)(length - 4), 2};
    memcpy(table, head, sizeof head);
    for (uint32_t i = 0; i < of_1 + of_2; i++) {
        uint32_t field = 1 + (i < of_1 ? i : i - of_1);
        const uint8_t entry[] = {i < of_1 ? 1 : 2, (uint8_t)(field >> 8), (uint8_t)field, D};
        memcpy(table + 5 + 4 * i, entry, sizeof entry);
    }
    return length;
}

/* A share one short of full, full, and over it; the other league is not told. */
static void shares(void) {
    static uint8_t table[ROOM + 8];
    for (uint32_t league = 1; league <= 2; league++) {
        write_table(table, league == 1 ? SHARE - 1 : 1, league == 2 ? SHARE - 1 : 1);
        gives("pq_leagues_declare, up to its share", pq_leagues_declare(table, ROOM, league, SHARE, E), 0, SHARE);
        gives("pq_leagues_declare, over its share", pq_leagues_declare(table, ROOM, league, SHARE + 1, E), 15, 0);
        gives("pq_leagues_declare, at a full share", pq_leagues_declare(table, ROOM, league, SHARE, V), 0, SHARE);
        enters("pq_leagues_entry, the last of a share", pq_leagues_entry(table, ROOM, league, SHARE - 1), 0, V, SHARE);
        gives("pq_leagues_declare, the other league", pq_leagues_declare(table, ROOM, 3 - league, SHARE + 1, E), 0, 2);
        gives("pq_leagues_remove, of a full share", pq_leagues_remove(table, ROOM, league, 1), 0, SHARE - 1);
        gives("pq_leagues_check, the other league", pq_leagues_check(table, ROOM, 3 - league), 0, 2);
        size_t over = write_table(table, league == 1 ? SHARE + 1 : SHARE - 1, league == 2 ? SHARE + 1 : SHARE - 1);
        refuses("leagues, over one share", table, over, 14);
    }
}

/* All 2,048 entries fill the room; a short buffer keeps each league from a new field, and from nothing else. */
static void rooms(void) {
    static uint8_t table[ROOM + 8];
    size_t full = write_table(table, SHARE, SHARE);
    tell("the room of a full table", full == ROOM);
    gives("pq_leagues_check, a full table", pq_leagues_check(table, ROOM, 2), 0, SHARE);
    gives("pq_leagues_check, a full table cut", pq_leagues_check(table, ROOM - 1, 2), 9, 0);
    gives("pq_leagues_remove, a full table", pq_leagues_remove(table, ROOM, 1, 7), 0, SHARE - 1);
    gives("pq_leagues_declare, short of it", pq_leagues_declare(table, ROOM - 1, 1, 7, R), 15, 0);
    gives("pq_leagues_declare, its last", pq_leagues_declare(table, ROOM, 1, 7, R), 0, SHARE);
    gives("pq_leagues_declare, no room, the new kind", pq_leagues_declare(table, ROOM, 2, SHARE, H), 0, SHARE);
}

/* One entry, and one byte that is left in the target. Room under five bytes is 15 and never 12. */
static void moves(void) {
    uint8_t from[] = {0, 0, 0, 4, 1, 0x01, 0xF4, 5, '#', '#'}, to[10], same[sizeof to];
    memset(to, '#', sizeof to);
    memset(same, '#', sizeof same);
    gives("pq_leagues_from_table, no buffer", pq_leagues_from_table(from, sizeof from, NULL, 0), 15, 0);
    gives("pq_leagues_from_table, under five bytes", pq_leagues_from_table(from, sizeof from, to, 4), 15, 0);
    gives("pq_leagues_from_table, no room", pq_leagues_from_table(from, sizeof from, to, 8), 15, 0);
    gives("pq_leagues_from_table, cut", pq_leagues_from_table(from, 7, to, 0), 9, 0);
    gives("pq_leagues_from_table, version 2", pq_leagues_from_table(five, sizeof five, to, 0), 10, 0);
    from[7] = U;
    gives("pq_leagues_from_table, a bad entry", pq_leagues_from_table(from, sizeof from, to, 0), 14, 0);
    tell("a target that stays", memcmp(to, same, sizeof to) == 0);
    from[7] = E;
    gives("pq_leagues_from_table, all its room", pq_leagues_from_table(from, sizeof from, to, 9), 0, 1);
    const uint8_t moved[] = {0, 0, 0, 5, 2, 1, 0x01, 0xF4, 5, '#'};
    tell("the bytes of a table moved", memcmp(to, moved, sizeof to) == 0);
    uint32_t hour = date(1444, 11, 11, 2);
    looks("pq_table_lookup, before a move", pq_table_lookup(from, sizeof from, 500, D, 56456978), 0, E, hour, 0);
    looks("pq_leagues_lookup, after it", pq_leagues_lookup(to, sizeof to, 1, 500, D, 56456978), 0, E, hour, 0);
    gives("pq_leagues_check, the other league after it", pq_leagues_check(to, sizeof to, 2), 0, 0);
}

/* As many entries as a share takes, and one more. */
static void longest_moves(void) {
    static uint8_t from[5 + 3 * (SHARE + 1)], to[ROOM], wanted[ROOM];
    memcpy(from, (uint8_t[]){0, 0, 0, 1, 1}, 5);
    for (uint32_t field = 1; field <= SHARE; field++)
        pq_table_declare(from, sizeof from, field, D);
    size_t length = write_table(wanted, SHARE, 0);
    gives("pq_leagues_from_table, a share, no room", pq_leagues_from_table(from, sizeof from, to, length - 1), 15, 0);
    gives("pq_leagues_from_table, a share", pq_leagues_from_table(from, sizeof from, to, length), 0, SHARE);
    tell("the bytes of a share moved", memcmp(to, wanted, sizeof to) == 0);
    pq_table_declare(from, sizeof from, SHARE + 1, D);
    gives("pq_leagues_from_table, over a share", pq_leagues_from_table(from, sizeof from, to, sizeof to), 15, 0);
    tell("a target that stays", memcmp(to, wanted, sizeof to) == 0);
}

void leagues(void) {
    in_turn();
    entries();
    lookups();
    calls();
    refused_tables();
    versions();
    shares();
    rooms();
    moves();
    longest_moves();
}
