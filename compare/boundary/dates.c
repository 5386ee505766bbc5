/* Dates with each mark, fields and numbers, by codes that are kinds and by codes that are none: each operation on a date,
 * its four texts into rooms of up to 19 bytes, fields in and outside their widths, and random numbers. */
#include "damaged.h"
#include <stdlib.h>
#include <string.h>

typedef pq_answer writer(uint32_t, uint32_t, uint8_t *, size_t);

/* The bits of a date's mark: 0 declared, 1 guessed; 2 and 3 are not allowed, and 4 whatever is asked. */
enum { MARK = 3 };

static uint32_t unmarked(uint32_t date) { return date & ~(uint32_t)MARK; }

static int is_allowed(uint32_t date) { return (date & MARK) <= 1; }

static void told_of_date(const char *what, uint32_t kind, uint32_t date, uint32_t refusal, uint32_t value) {
    told(what, kind, date, refusal, value);
    if (!is_allowed(date) && refusal != 4)
        fault("a mark that is not allowed", kind, date);
}

static void write_text(const char *what, writer *put, uint32_t kind, uint32_t date, size_t room) {
    uint8_t before[24];
    memset(before, 0xA5, sizeof before);
    uint8_t *out = exact(before, room);
    pq_answer answer = put(kind, date, out, room);
    told_of_date(what, kind, date, answer.refusal, answer.value);
    size_t length = answer.refusal == 0 ? answer.value : 0;
    if (length > room || (answer.refusal == 0 && (length < 5 || length > 15)))
        fault("a text's length", kind, date);
    else if (memcmp(out + length, before, room - length) != 0)
        fault("a byte after the text", kind, date);
    free(out);
}

/* The same bytes as without the mark. */
static void same_text(writer *put, uint32_t kind, uint32_t date) {
    uint8_t marked[16] = {0}, plain[16] = {0};
    pq_answer answer = put(kind, date, marked, sizeof marked), other = put(kind, unmarked(date), plain, sizeof plain);
    told_of_date("same text", kind, date, answer.refusal, answer.value);
    int is_same = answer.refusal == other.refusal && answer.value == other.value && memcmp(marked, plain, sizeof plain) == 0;
    if (is_allowed(date) && !is_same)
        fault("a text that the mark changes", kind, date);
}

/* Its value has the mark that the date has. */
static void keeps_mark(const char *what, uint32_t kind, uint32_t date, pq_answer given) {
    told_of_date(what, kind, date, given.refusal, given.value);
    if (given.refusal == 0 && (given.value & MARK) != (date & MARK))
        fault("a mark that is not kept", kind, date);
}

/* A date with its mark is in order the same as without it. What is no date without it is none with it. */
static void without_mark(uint32_t kind, uint32_t date) {
    pq_answer without = pq_without_mark(kind, date);
    told_of_date("without mark", kind, date, without.refusal, without.value);
    pq_number same = pq_order(kind, date, unmarked(date)), plain = pq_order(kind, unmarked(date), unmarked(date));
    told_of_date("order without mark", kind, date, same.refusal, (uint32_t)same.value);
    uint32_t refusal = is_allowed(date) ? plain.refusal : 4;
    if (without.refusal != refusal || without.value != (refusal == 0 ? unmarked(date) : 0))
        fault("a date without its mark", kind, date);
    if (same.refusal != refusal || same.value != 0)
        fault("a date's order with itself without its mark", kind, date);
}

static void on_date(uint32_t kind, uint32_t date) {
    keeps_mark("add days", kind, date, pq_add_days(kind, date, (int32_t)random_word()));
    keeps_mark("start of day", kind, date, pq_start_of_day(kind, date));
    without_mark(kind, date);
    uint32_t other = random_word();
    pq_number numbers[] = {pq_to_number(kind, date), pq_days_until(kind, date, other), pq_days_until(kind, other, date),
                           pq_order(kind, date, other), pq_order(kind, date, date)};
    for (size_t i = 0; i < sizeof numbers / sizeof numbers[0]; i++)
        told_of_date("number", kind, date, numbers[i].refusal, (uint32_t)numbers[i].value);
    size_t room = random_word() % 20;
    write_text("dotted", pq_write_dotted, kind, date, room);
    write_text("ISO", pq_write_iso, kind, date, room);
    write_text("ISO date", pq_write_iso_date, kind, date, room);
    write_text("exchange", pq_write_exchange, kind, date, room);
    static writer *const writers[] = {pq_write_dotted, pq_write_iso, pq_write_iso_date, pq_write_exchange};
    for (size_t i = 0; i < sizeof writers / sizeof writers[0]; i++)
        same_text(writers[i], kind, date);
}

void dates(void) {
    for (uint32_t word = 0; word <= 0xFFFF; word += 4 + random_word() % 5)
        for (size_t k = 0; k < KINDS; k++)
            on_date(kinds[k], random_word() << 16 | word);
    static const uint32_t edges[] = {0, UINT32_MAX, 0x05A4B580, 0x80001080, 0x7FFFCF80, 0xFFFFCFE0, 0x05A42E80};
    for (size_t e = 0; e < sizeof edges / sizeof edges[0]; e++)
        for (uint32_t mark = 0; mark <= MARK; mark++)
            for (size_t k = 0; k < KINDS; k++) {
                uint32_t date = unmarked(edges[e]) | mark;
                on_date(kinds[k], date);
                for (size_t room = 0; room < 20; room++)
                    write_text("dotted", pq_write_dotted, kinds[k], date, room);
            }
}

void fields_and_numbers(void) {
    static const uint32_t parts[] = {0, 1, 6, 12, 13, 24, 25, 28, 31, 32, 255, 256, 257, 268, 65537, 0x80000001, UINT32_MAX};
    static const int32_t years[] = {0, 1444, -5001, 32767, 32768, -32768, -32769, 66980, INT32_MIN, INT32_MAX};
    size_t count = sizeof parts / sizeof parts[0];
    for (size_t k = 0; k < KINDS; k++)
        for (size_t y = 0; y < sizeof years / sizeof years[0]; y++)
            for (size_t i = 0; i < count * count * count; i++) {
                uint32_t month = parts[i % count], day = parts[i / count % count], hour = parts[i / count / count];
                pq_answer made = pq_from_fields(kinds[k], years[y], month, day, hour);
                told("fields", kinds[k], month, made.refusal, made.value);
                int is_outside = month > 12 || day > 31 || years[y] > 32767 || years[y] < -32768;
                if (is_outside && made.refusal != 4)
                    fault("fields outside", kinds[k], month);
                if (made.value & MARK)
                    fault("a mark of fields", kinds[k], month);
            }
    for (int round = 0; round < 50000; round++) {
        uint32_t kind = kinds[random_word() % KINDS];
        uint32_t shift = random_word() % 8;
        int32_t number = (int32_t)random_word() >> shift;
        pq_answer decoded = pq_read_number(kind, number), guessed = pq_guess_number(kind, number);
        told("number read", kind, (uint32_t)number, decoded.refusal, decoded.value);
        told("number guessed", kind, (uint32_t)number, guessed.refusal, guessed.value);
        if (decoded.value & MARK)
            fault("a mark of a number read", kind, (uint32_t)number);
        if (guessed.refusal == 0 && guessed.value != (decoded.value | 1))
            fault("a guess that is not the number's date with its mark", kind, (uint32_t)number);
    }
}
