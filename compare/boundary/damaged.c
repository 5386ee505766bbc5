/* Every function of the boundary on damaged input: texts cut short, kinds and fields and dates that are none, books, tables,
 * those of two leagues too, ISO texts, padded texts and lines to be listed cut and changed at each byte. Each buffer is
 * allocated with exactly its length, so that valgrind sees an access one byte past it. Here it is checked that a refusal
 * changes no byte and gives 0 beside its number (11 and 21: a place), that a text fits its room, that what stands after a
 * text, a book or a table stays, that what is told of a table agrees with its bytes, with the full decoder and with the
 * guess, that a date is read from an ISO text exactly where it is written so, that zeros before a number change no answer,
 * that a date's mark is kept, taken off, refused or not looked at, that what is told of books of both versions agrees with
 * their bytes, there and back too, that a gap report agrees with what the other calls tell of its book, that two leagues on
 * one table are answered as each would be alone, and that a listing agrees with what the other calls tell of its lines and
 * has at most 12 bytes for each of its input. Prints how many calls there were and a digest of their answers, those of
 * tables, of ISO texts, of padded texts, of books of both versions, of gap reports, of leagues and of listings by
 * themselves; the status is 1 after a fault.
 *
 * This file holds main, the counts and the digest, the copies of exact length and the random numbers; damaged.h names what
 * each other file holds. */
#include "damaged.h"
#include <inttypes.h>
#include <stdio.h>
#include <stdlib.h>
#include <string.h>

unsigned long calls, refusals;
static unsigned long faults;
uint32_t digest;
static int status;

void fault(const char *what, uint32_t kind, uint32_t number) {
    faults++;
    if (faults <= 10)
        fprintf(stderr, "fault: %s, kind %" PRIu32 ", %#" PRIx32 "\n", what, kind, number);
}

uint8_t *exact(const void *bytes, size_t length) {
    uint8_t *copy = malloc(length);
    if (copy == NULL)
        abort();
    if (length > 0)
        memcpy(copy, bytes, length);
    return copy;
}

static uint64_t state = 0x9fae0ac1dc;

uint32_t random_word(void) {
    state += 0x9e3779b97f4a7c15;
    uint64_t mixed = (state ^ (state >> 30)) * 0xbf58476d1ce4e5b9;
    mixed = (mixed ^ (mixed >> 27)) * 0x94d049bb133111eb;
    return (uint32_t)(mixed ^ (mixed >> 31));
}

void cut_and_changed(const uint8_t *whole, size_t size, void (*ask)(const uint8_t *, size_t)) {
    uint8_t *changed = exact(whole, size);
    for (size_t length = 0; length <= size; length++)
        for (size_t place = 0; place < length + (length == 0); place++) {
            for (unsigned byte = 0; byte < 256; byte += 1 + random_word() % 9) {
                changed[place] = (uint8_t)byte;
                ask(changed, length);
            }
            changed[place] = whole[place];
        }
    free(changed);
}

int is_kind(uint32_t kind) { return 1 <= kind && kind <= 6; }

uint32_t some_kind(void) { return kinds[random_word() % KINDS]; }

int32_t some_number(void) {
    static const int32_t telling[] = {56456976, 56456978, 56456999, 43808760, 1444, 0, -1, -8760, INT32_MIN, INT32_MAX};
    uint32_t drawn = random_word();
    return drawn % 2 ? telling[drawn / 2 % (sizeof telling / sizeof telling[0])] : (int32_t)random_word() >> drawn % 8;
}

void told(const char *what, uint32_t kind, uint32_t number, uint32_t refusal, uint32_t value) {
    calls++;
    refusals += refusal != 0;
    digest = (digest * 31 + refusal) * 31 + value;
    int is_of_one = (refusal == 20 && strcmp(what, "append") == 0) || (refusal == 21 && strcmp(what, "to 1") == 0);
    int has_value = refusal == 0 || refusal == 11 || refusal == 21;
    if ((refusal > 13 && !is_of_one) || (value != 0 && !has_value))
        fault(what, kind, number);
    if (!is_kind(kind) && refusal != 4)
        fault(what, kind, number);
}

/* Prints the counts since the last time. */
static void tell(const char *what) {
    printf("%s%lu calls, %lu refused, %lu faults, digest %08" PRIx32 "\n", what, calls, refusals, faults, digest);
    status |= faults != 0;
    calls = refusals = faults = digest = 0;
}

int main(void) {
    texts();
    dates();
    fields_and_numbers();
    books();
    tell("");
    small_tables();
    full_tables();
    tell("tables: ");
    iso_texts();
    tell("ISO texts: ");
    padded_texts();
    tell("padded texts: ");
    book_versions();
    tell("books of both versions: ");
    gaps();
    tell("gap reports: ");
    leagues();
    tell("leagues: ");
    listings();
    tell("listings: ");
    return status;
}
