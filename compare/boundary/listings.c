/* Listings of inputs that are cut and changed at each byte, drawn, and at both sides of the longest. What is listed has to
 * agree with what other calls tell of each line: how its text or its number is read, and how the date is written. */
#include "damaged.h"
#include <stdio.h>
#include <stdlib.h>
#include <string.h>

enum { LONGEST_INPUT = 65535, EACH = 12, LINE = 40 };

/* What has to be listed of an input. */
static char wanted[EACH * LONGEST_INPUT + LINE];
static size_t needed;

/* The number that a rest is, if it is one. */
static int is_number(const uint8_t *rest, size_t length, int32_t *number) {
    size_t start = length > 0 && rest[0] == '-';
    int64_t value = 0;
    if (length < start + 1 || length > start + 10)
        return 0;
    for (size_t at = start; at < length; at++) {
        if (rest[at] < '0' || rest[at] > '9')
            return 0;
        value = value * 10 + (rest[at] - '0');
    }
    value = start ? -value : value;
    *number = (int32_t)value;
    return INT32_MIN <= value && value <= INT32_MAX;
}

/* The code of the kind of a line that can be read, or 0. */
static uint32_t kind_of(const uint8_t *line, size_t length) {
    static const char letters[] = "RDHUEV";
    if (length < 4 || line[1] != ' ' || line[3] != ' ' || line[0] == 0)
        return 0;
    const char *letter = strchr(letters, line[0]);
    int has_way = line[2] == 't' || (line[2] == 'b' && line[0] != 'U') || (line[2] == 'g' && strchr("RU", line[0]) == NULL);
    return letter != NULL && has_way ? (uint32_t)(letter - letters) + 1 : 0;
}

static pq_answer read_line(uint32_t kind, uint8_t way, const uint8_t *rest, size_t length) {
    int32_t number;
    if (way == 't')
        return pq_read_text(kind, rest, length);
    if (!is_number(rest, length, &number))
        return (pq_answer){2, 0};
    return way == 'b' ? pq_read_number(kind, number) : pq_guess_number(kind, number);
}

/* Puts what a line is answered by at a place and gives its length. */
static size_t spell_line(char *at, const uint8_t *line, size_t length) {
    uint32_t kind = kind_of(line, length);
    if (kind == 0)
        return (size_t)sprintf(at, "? refused 8\n");
    pq_answer date = read_line(kind, line[2], line + 4, length - 4);
    if (date.refusal != 0)
        return (size_t)sprintf(at, "%c refused %u\n", line[0], (unsigned)date.refusal);
    uint8_t dotted[15], iso[15];
    int dotted_length = (int)pq_write_dotted(kind, date.value, dotted, sizeof dotted).value;
    int iso_length = (int)pq_write_iso(kind, date.value, iso, sizeof iso).value;
    return (size_t)sprintf(at, "%c %.*s %.*s\n", line[0], dotted_length, (char *)dotted, iso_length, (char *)iso);
}

/* Sets what has to be listed. Nothing is where the input is too long. */
static void spell(const uint8_t *input, size_t length) {
    needed = 0;
    if (length > LONGEST_INPUT)
        return;
    for (size_t at = 0, end; at < length; at = end + 1) {
        for (end = at; end < length && input[end] != '\n';)
            end++;
        needed += spell_line(wanted + needed, input + at, end - at);
    }
    if (needed > EACH * length)
        fault("a listing of over 12 bytes for each", 1, (uint32_t)length);
}

/* The answer and all bytes that are lent: of a listing those that are wanted, and all others as they were. */
static void ask(const uint8_t *input, size_t length, size_t room) {
    uint8_t *out = malloc(room);
    if (out == NULL)
        abort();
    memset(out, 0xA5, room);
    pq_answer got = pq_listing(input, length, out, room);
    uint32_t refusal = length > LONGEST_INPUT ? 8 : room < needed ? 7 : 0;
    size_t end = refusal == 0 ? needed : 0;
    told("listing", 1, (uint32_t)room, got.refusal, got.value);
    if (got.refusal != refusal || got.value != end)
        fault("listing", got.refusal, got.value);
    if (memcmp(out, wanted, end) != 0)
        fault("what is listed", 1, (uint32_t)room);
    if (end < room && (out[end] != 0xA5 || memcmp(out + end, out + end + 1, room - end - 1) != 0))
        fault("a byte after a listing", 1, (uint32_t)room);
    free(out);
}

static void ask_room(size_t length) {
    pq_answer got = pq_listing_room(length);
    int fits = length <= LONGEST_INPUT;
    told("listing room", 1, (uint32_t)length, got.refusal, got.value);
    if (got.refusal != (fits ? 0 : 8) || got.value != (fits ? EACH * length : 0))
        fault("listing room", got.refusal, got.value);
}

/* Asks for the listing with room on both sides of its bound, with some, and with as much as is always enough. */
static void on_listing(const uint8_t *bytes, size_t length) {
    uint8_t *input = exact(bytes, length);
    spell(input, length);
    size_t drawn = random_word(), below = needed - (needed > 0);
    const size_t rooms[] = {0, below, needed, needed + 1 + drawn % 9, drawn % (needed + 1), EACH * length};
    for (size_t i = 0; i < sizeof rooms / sizeof rooms[0]; i++)
        ask(input, length, rooms[i]);
    ask_room(length);
    if (length > 0 && memcmp(input, bytes, length) != 0)
        fault("an input that is listed changed", 1, (uint32_t)length);
    free(input);
}

static const char *const rests[] = {
    "1444.11.11", "1444.11.11.23", "-32768.12.31.24", "32767.12.31", "1444.2.30", "1444.1.1.6",
    "-.1.1",      "+1444.1.1",     "-5.1.1",          "43808760",    "43808761",  "56456976",
    "-8760",      "-8736",         "2147483648",      "-",           "",          "00000000000"};

/* Puts a line of some kind, way and rest at a place and gives its length. Every eighth is cut, every eighth has a byte
 * changed. */
static size_t draw_line(uint8_t *at) {
    uint32_t drawn = random_word();
    const char *rest = rests[drawn % (sizeof rests / sizeof rests[0])];
    char line[LINE];
    int length = sprintf(line, "%c %c %s", "RDHUEV"[drawn / 32 % 6], "tbg"[drawn / 256 % 3], rest);
    if (drawn / 1024 % 8 == 0)
        length = (int)(random_word() % 5);
    if (drawn / 8192 % 8 == 0 && length > 0)
        line[random_word() % (uint32_t)length] = (char)random_word();
    memcpy(at, line, (size_t)length);
    at[length] = '\n';
    return (size_t)length + 1;
}

/* Puts lines of so many bytes, the last one cut where they end. There is room for it behind them. */
static void draw_input(uint8_t *input, size_t length) {
    for (size_t at = 0; at < length;)
        at += draw_line(input + at);
}

/* Two lines, each byte changed and cut at each length; then one of each way, uncut, each byte changed to every other. */
static void small_inputs(void) {
    static const char *const lines[] = {"E t 1.1.1.23\n", "D b -8760\n", "H g 43808760"};
    cut_and_changed((const uint8_t *)"V b 0\nU t 1.2.30\n", 17, on_listing);
    for (size_t i = 0; i < sizeof lines / sizeof lines[0]; i++) {
        size_t length = strlen(lines[i]);
        uint8_t *changed = exact(lines[i], length);
        for (size_t at = 0; at < length; at++) {
            for (unsigned byte = 0; byte < 256; byte++) {
                changed[at] = (uint8_t)byte;
                on_listing(changed, length);
            }
            changed[at] = (uint8_t)lines[i][at];
        }
        free(changed);
    }
}

/* Lines of up to 200 bytes; and random bytes, of which every eighth or so ends a line. */
static void drawn_inputs(uint8_t *input) {
    for (uint32_t round = 0; round < 2000; round++) {
        size_t length = random_word() % 201;
        draw_input(input, length);
        on_listing(input, length);
    }
    for (uint32_t round = 0; round < 1000; round++) {
        size_t length = random_word() % 40;
        for (size_t at = 0; at < length; at++)
            input[at] = random_word() % 8 == 0 ? '\n' : (uint8_t)random_word();
        on_listing(input, length);
    }
}

/* Both sides of the longest input: drawn lines, empty ones alone, and one line. */
static void long_inputs(uint8_t *input) {
    for (size_t length = LONGEST_INPUT - 1; length <= LONGEST_INPUT + 2; length++) {
        draw_input(input, length);
        on_listing(input, length);
        memset(input, '\n', length);
        on_listing(input, length);
        memset(input, 'D', length);
        on_listing(input, length);
    }
    memset(input, '\n', 2 * (LONGEST_INPUT + 1));
    on_listing(input, 2 * (LONGEST_INPUT + 1));
    static const size_t more[] = {(size_t)1 << 31, (size_t)1 << 32, ((size_t)1 << 32) + 1, SIZE_MAX / EACH + 1, SIZE_MAX};
    for (size_t i = 0; i < sizeof more / sizeof more[0]; i++)
        ask_room(more[i]);
}

void listings(void) {
    uint8_t *input = malloc(2 * (LONGEST_INPUT + 1) + LINE);
    if (input == NULL)
        abort();
    small_inputs();
    drawn_inputs(input);
    long_inputs(input);
    free(input);
}
