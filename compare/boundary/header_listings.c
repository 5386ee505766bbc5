/* The answers of listings: the room on both sides of its bound, whole listings with the rooms on both sides of theirs, the
 * longest input and one byte more, and refusals. */
#include "header.h"
#include <string.h>

enum { MOST = 65535 };

/* The longest input and much more; and room for its listing, and a byte more. */
static uint8_t input[3 * MOST], out[12 * MOST + 1];

static void rooms(void) {
    gives("pq_listing_room, nothing", pq_listing_room(0), 0, 0);
    gives("pq_listing_room, a byte", pq_listing_room(1), 0, 12);
    gives("pq_listing_room, 1,000 bytes", pq_listing_room(1000), 0, 12000);
    gives("pq_listing_room, one less than the most", pq_listing_room(MOST - 1), 0, 786408);
    gives("pq_listing_room, the most", pq_listing_room(MOST), 0, 786420);
    gives("pq_listing_room, one more", pq_listing_room(MOST + 1), 8, 0);
    gives("pq_listing_room, 2^31", pq_listing_room((size_t)1 << 31), 8, 0);
    gives("pq_listing_room, 2^32", pq_listing_room((size_t)1 << 32), 8, 0);
    gives("pq_listing_room, 2^32 + 1", pq_listing_room(((size_t)1 << 32) + 1), 8, 0);
    gives("pq_listing_room, 12 * n is 2^64 + 8", pq_listing_room(SIZE_MAX / 12 + 1), 8, 0);
    gives("pq_listing_room, all bits", pq_listing_room(SIZE_MAX), 8, 0);
}

static int is_left(const uint8_t *bytes, size_t length) {
    return length == 0 || (bytes[0] == '#' && memcmp(bytes, bytes + 1, length - 1) == 0);
}

/* The listing of an input, in so many bytes: all of it and nothing after it. */
static void fills(const char *what, const uint8_t *bytes, size_t n, size_t room, const uint8_t *listing, uint32_t length) {
    memset(out, '#', sizeof out);
    gives(what, pq_listing(bytes, n, out, room), 0, length);
    tell(what, memcmp(out, listing, length) == 0 && is_left(out + length, sizeof out - length));
}

/* A refusal of an input in so many bytes, of which none is written, nor any after them. */
static void refuses(const char *what, const uint8_t *bytes, size_t n, size_t room, uint32_t refusal) {
    memset(out, '#', sizeof out);
    gives(what, pq_listing(bytes, n, out, room), refusal, 0);
    tell(what, is_left(out, sizeof out));
}

/* The whole listing: with no room, a byte too few, exactly its room, a byte more, and the room that is always enough. */
static void lists(const char *what, const char *text, const char *listing) {
    size_t n = strlen(text), length = strlen(listing);
    const uint8_t *bytes = (const uint8_t *)text, *wanted = (const uint8_t *)listing;
    refuses(what, bytes, n, 0, 7);
    refuses(what, bytes, n, length - 1, 7);
    fills(what, bytes, n, length, wanted, (uint32_t)length);
    fills(what, bytes, n, length + 1, wanted, (uint32_t)length);
    fills(what, bytes, n, pq_listing_room(n).value, wanted, (uint32_t)length);
}

/* Document 01's own. */
static void example(void) {
    lists("pq_listing, the example",
          "D t 1444.11.11\n"
          "E t 1444.11.11.23\n"
          "V b 43808760\n"
          "H b 43808760\n"
          "U t 1444.2.30\n"
          "U b 0\n"
          "D t +1444.1.1\n"
          "D b -8760\n",
          "D 1444.11.11 1444-11-11\n"
          "E 1444.11.11.22 1444-11-11T19\n"
          "V 1.1.1 0001-01-01T00\n"
          "H 1.1.1.1 0001-01-01T00\n"
          "U 1444.02.30 1444-02-30\n"
          "? refused 8\n"
          "D refused 2\n"
          "D -5001.1.1 -5001-01-01\n");
}

/* The ways that kinds have and lack; every refusal of a line; numbers on both sides of what is one. */
static void ways(void) {
    lists("pq_listing, guesses", "D g 56456976\nD g 1444\nE g 56456999\nR g 0\nU g 0\n",
          "D 1444.11.11 1444-11-11\nD refused 3\nE refused 3\n? refused 8\n? refused 8\n");
    lists("pq_listing, 64 bytes of text and 65",
          "R t 000000000000000000000000000000000000000000000000000000001444.1.1\n"
          "R t 0000000000000000000000000000000000000000000000000000000001444.1.1\n",
          "R 1444.1.1 1444-01-01\nR refused 1\n");
    lists("pq_listing, numbers", "V b 0\nV b -0\nV b -\nV b \nV b +0\nV b 0000000000\nV b 00000000000\nV b 0 \n",
          "V -5000.1.1 -5000-01-01T00\nV -5000.1.1 -5000-01-01T00\nV refused 2\nV refused 2\nV refused 2\n"
          "V -5000.1.1 -5000-01-01T00\nV refused 2\nV refused 2\n");
    lists("pq_listing, 32 bits", "R b 2147483647\nR b 2147483648\nR b -2147483648\nR b -2147483649\n",
          "R refused 3\nR refused 2\nR refused 3\nR refused 2\n");
    lists("pq_listing, the longest texts", "R t -32768.12.31.24\nH t -32768.12.31.24\n",
          "R -32768.12.31.24 -32768-12-31T23\nH -32768.12.31.24 -32768-12-31T23\n");
}

/* A line's end and its absence; bytes that end none; shapes that are none. */
static void shapes(void) {
    lists("pq_listing, no end", "U t 5.2.30", "U 5.02.30 0005-02-30\n");
    lists("pq_listing, one byte", "x", "? refused 8\n");
    lists("pq_listing, two empty lines", "\n\n", "? refused 8\n? refused 8\n");
    lists("pq_listing, byte 13", "D t 1444.11.11\r\n\r\n", "D refused 2\n? refused 8\n");
    lists("pq_listing, other shapes", "d t 1.1.1\nD T 1.1.1\nDtx1.1.1\nD t\nD t \nD  t 1.1.1\n D t 1.1.1\n",
          "? refused 8\n? refused 8\n? refused 8\n? refused 8\nD refused 2\n? refused 8\n? refused 8\n");
    lists("pq_listing, what the program prints", "input too long\n", "? refused 8\n");
    gives("pq_listing, nothing", pq_listing(NULL, 0, NULL, 0), 0, 0);
    fills("pq_listing, nothing in some room", input, 0, 7, input, 0);
}

/* So many lines that are unreadable: their listing has exactly the bytes that are always enough. */
static void fills_the_room(const char *what, uint32_t n) {
    static uint8_t wanted[12 * MOST];
    uint32_t length = 12 * n;
    for (uint32_t at = 0; at < length; at += 12)
        memcpy(wanted + at, "? refused 8\n", 12);
    gives(what, pq_listing_room(n), 0, length);
    refuses(what, input, n, length - 1, 7);
    fills(what, input, n, length, wanted, length);
}

static void longest(void) {
    memset(input, '\n', sizeof input);
    fills_the_room("pq_listing, an empty line", 1);
    fills_the_room("pq_listing, 1,000 empty lines", 1000);
    fills_the_room("pq_listing, as many empty lines as there may be", MOST);
    input[MOST - 1] = 'x';
    fills_the_room("pq_listing, the last one of a byte", MOST);
    memset(input, 'x', sizeof input);
    fills("pq_listing, one line of all bytes", input, MOST, 12, (const uint8_t *)"? refused 8\n", 12);
    refuses("pq_listing, that line in 11 bytes", input, MOST, 11, 7);
}

/* 8 whatever the room: 7 is for what can be listed, and `input too long` for the program. */
static void too_long(void) {
    static const size_t lengths[] = {MOST + 1, MOST + 2, 2 * (MOST + 1), sizeof input};
    static const size_t room[] = {0, 1, 14, 15, sizeof out};
    for (size_t i = 0; i < sizeof lengths / sizeof lengths[0]; i++)
        for (size_t j = 0; j < sizeof room / sizeof room[0]; j++)
            refuses("pq_listing, too long", input, lengths[i], room[j], 8);
    gives("pq_listing, too long, no buffer", pq_listing(input, MOST + 1, NULL, 0), 8, 0);
    gives("pq_listing, no buffer", pq_listing(input, MOST, NULL, 0), 7, 0);
    int is_unchanged = input[0] == 'x' && memcmp(input, input + 1, sizeof input - 1) == 0;
    tell("pq_listing, its input stays", is_unchanged);
}

void listings(void) {
    rooms();
    example();
    ways();
    shapes();
    longest();
    too_long();
}
