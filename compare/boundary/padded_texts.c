/* Padded texts: dotted, numbers' and ISO texts with zeros before their number up to the limit and past it, cut, changed and
 * drawn at random. The first two are answered as without those zeros, but D takes 12 bytes at most; the last as every ISO
 * text. */
#include "damaged.h"
#include <stdio.h>
#include <string.h>

static int is_digit(uint8_t byte) { return '0' <= byte && byte <= '9'; }

/* What has to be answered to a text that is not short: what is answered without the zeros before its number. No number of
   over ten digits is a date's, and D takes 12 bytes at most. */
static pq_answer padded_answer(uint32_t kind, const uint8_t *bytes, size_t length) {
    if (!is_kind(kind))
        return (pq_answer){4, 0};
    if (length > LIMIT)
        return (pq_answer){1, 0};
    if (kind == 2)
        return (pq_answer){2, 0};
    size_t sign = bytes[0] == '-' || bytes[0] == '+', first = sign;
    while (first + 1 < length && bytes[first] == '0' && is_digit(bytes[first + 1]))
        first++;
    size_t end = first;
    while (end < length && is_digit(bytes[end]))
        end++;
    if (end - first > 10)
        return (pq_answer){2, 0};
    uint8_t fewest[LIMIT];
    memcpy(fewest, bytes, sign);
    memcpy(fewest + sign, bytes + first, length - first);
    return pq_read_text(kind, fewest, sign + length - first);
}

static void read_padded(uint32_t kind, const void *bytes, size_t length) {
    pq_answer answer = read_by("read padded text", pq_read_text, kind, bytes, length);
    if (length <= 16)
        return;
    pq_answer wanted = padded_answer(kind, bytes, length);
    if (answer.refusal != wanted.refusal || answer.value != wanted.value)
        fault("a padded text's answer", kind, (uint32_t)length);
}

/* A text with zeros before its number up to a length: cut at each byte, by all codes; then by the six kinds with each byte
   replaced by telling ones. */
static void damaged_padded(asker *read, const char *text, size_t length) {
    uint8_t padded[LONGEST];
    size_t sign = text[0] == '-' || text[0] == '+', unsigned_length = strlen(text) - sign;
    memset(padded, '0', length);
    memcpy(padded, text, sign);
    memcpy(padded + length - unsigned_length, text + sign, unsigned_length);
    for (size_t cut = 0; cut <= length; cut++)
        for (size_t k = 0; k < KINDS; k++)
            read(kinds[k], padded, cut);
    static const char others[] = "0123456789.-+/:T x\xFF";
    for (size_t place = 0; place < length; place++) {
        uint8_t was = padded[place];
        for (size_t i = 0; i < sizeof others; i++) { /* the byte 0 too */
            padded[place] = (uint8_t)others[i];
            for (uint32_t kind = 1; kind <= 6; kind++)
                read(kind, padded, length);
        }
        padded[place] = was;
    }
}

/* Dotted texts and numbers' texts of dates and of what is next to dates, with zeros before them up to 80 bytes. */
static void drawn_padded(void) {
    for (int round = 0; round < 40000; round++) {
        char text[LONGEST + 16];
        int width = 1 + (int)(random_word() % 71), length;
        int year = round % 2 ? (int16_t)random_word() : (int)(random_word() % 4001) - 2000;
        unsigned month = random_word() % 14, day = random_word() % 33, hour = random_word() % 26;
        if (round % 3 == 0)
            length = snprintf(text, sizeof text, "%0*d", width, some_number());
        else
            length = snprintf(text, sizeof text, "%0*d.%u.%u.%u", width, year, month, day, hour);
        if (round % 3 == 1)
            length -= hour < 10 ? 2 : 3;
        read_padded(1 + random_word() % 6, text, (size_t)length);
    }
}

void padded_texts(void) {
    static const char *const whole[] = {"1444.1.1", "-1444.12.30", "+1444.1.1", "1444.11.11.12", "43808760",
                                        "43808761", "-8760", ".1.1", "18446744073709553060.1.1"};
    for (size_t i = 0; i < sizeof whole / sizeof whole[0]; i++) {
        damaged_padded(read_padded, whole[i], LIMIT);
        damaged_padded(read_padded, whole[i], LIMIT + 1);
    }
    static const char *const iso[] = {"1444-11-11", "1444-11-11T12", "-005-01-01", "18446744073709553060-11-11"};
    for (size_t i = 0; i < sizeof iso / sizeof iso[0]; i++) {
        damaged_padded(read_iso, iso[i], LIMIT);
        damaged_padded(read_iso, iso[i], LIMIT + 1);
    }
    drawn_padded();
    jumble(read_padded, "0000000014.-+", LONGEST);
    jumble(read_iso, "0000000014-+T", LONGEST);
}
