/* ISO texts: those of dates and of what is next to dates, cut, changed, made longer and drawn at random. A date is read
 * exactly where pq_write_iso writes it so. */
#include "damaged.h"
#include <stdio.h>
#include <string.h>

/* The date whose numbers a text has, if it is an ISO text; else any number. */
static uint32_t date_in(uint32_t kind, const char *text) {
    int year = 0;
    unsigned month = 0, day = 0, hour = 0, stored = 0;
    int parts = sscanf(text, "%6d-%2u-%2uT%2u", &year, &month, &day, &hour);
    if (kind == 6)
        stored = hour;
    else if (kind == 5)
        stored = 2 * (hour - 8);
    else if (kind != 2 && kind != 4 && parts == 4)
        stored = hour + 1;
    return (uint32_t)(uint16_t)year << 16 | month << 12 | day << 7 | stored << 2;
}

/* What has to be answered to an ISO text: a date exactly where that date is written so. */
static pq_answer iso_answer(uint32_t kind, const void *bytes, size_t length) {
    if (!is_kind(kind))
        return (pq_answer){4, 0};
    if (length > LIMIT)
        return (pq_answer){1, 0};
    char text[LIMIT + 1] = {0};
    if (length > 0)
        memcpy(text, bytes, length);
    uint32_t date = date_in(kind, text);
    uint8_t written[16];
    pq_answer iso = pq_write_iso(kind, date, written, sizeof written);
    int is_same = iso.refusal == 0 && iso.value == length && memcmp(written, text, length) == 0;
    return is_same ? (pq_answer){0, date} : (pq_answer){2, 0};
}

void read_iso(uint32_t kind, const void *bytes, size_t length) {
    pq_answer answer = read_by("read ISO text", pq_read_iso, kind, bytes, length);
    pq_answer wanted = iso_answer(kind, bytes, length);
    if (answer.refusal != wanted.refusal || answer.value != wanted.value)
        fault("an ISO text's answer", kind, (uint32_t)length);
}

static void read_iso_by_all(const void *bytes, size_t length) {
    for (uint32_t kind = 1; kind <= 6; kind++)
        read_iso(kind, bytes, length);
}

/* A text cut at each length and made longer up to 80 bytes, by all codes; then by the six kinds with each byte replaced by
   all 256, with each byte left out, and with a byte put in before each and at the end. */
static void damaged_iso(const char *whole) {
    size_t length = strlen(whole);
    char longer[LONGEST];
    for (size_t i = 0; i < sizeof longer; i++)
        longer[i] = i < length ? whole[i] : "0-T1"[i % 4];
    for (size_t cut = 0; cut <= sizeof longer; cut++)
        for (size_t k = 0; k < KINDS; k++)
            read_iso(kinds[k], longer, cut);
    for (size_t place = 0; place < length; place++) {
        char changed[40];
        memcpy(changed, whole, length);
        for (unsigned byte = 0; byte < 256; byte++) {
            changed[place] = (char)byte;
            read_iso_by_all(changed, length);
        }
        memcpy(changed + place, whole + place + 1, length - place - 1);
        read_iso_by_all(changed, length - 1);
    }
    static const char put_in[] = "0123456789-+.:T tZ";
    for (size_t place = 0; place <= length; place++)
        for (size_t i = 0; i < sizeof put_in; i++) { /* the byte 0 too */
            char changed[40];
            memcpy(changed, whole, place);
            changed[place] = put_in[i];
            memcpy(changed + place + 1, whole + place, length - place);
            read_iso_by_all(changed, length + 1);
        }
}

/* ISO texts of dates and of numbers that are next to those of dates, with an hour or without; every third may be cut. */
static void drawn_iso(void) {
    for (int round = 0; round < 40000; round++) {
        int year = round % 2 ? (int16_t)random_word() : (int)(random_word() % 4001) - 2000;
        unsigned month = random_word() % 14, day = random_word() % 33, hour = random_word() % 26;
        char text[40];
        int length = snprintf(text, sizeof text, "%04d-%02u-%02uT%02u", year, month, day, hour);
        if (random_word() % 3 == 0)
            length -= 3;
        if (round % 3 == 0)
            length -= (int)(random_word() % 4);
        read_iso(random_word() % 8 == 0 ? some_kind() : 1 + random_word() % 6, text, (size_t)length);
    }
}

void iso_texts(void) {
    static const char *const whole[] = {
        "1444-11-11", "1444-02-31", "1444-02-30", "0000-01-01", "-005-01-01", "-999-12-31", "-1000-02-28", "10000-10-10",
        "-32768-01-01", "32767-12-31", "1936-01-01T00", "-32768-12-31T23", "1444-11-11T09", "-005-06-30T19",
        "1836-02-03T18", "-999-12-31T12"};
    for (size_t i = 0; i < sizeof whole / sizeof whole[0]; i++)
        damaged_iso(whole[i]);
    static const char *const other[] = {
        "-5-01-01", "-0005-01-01", "+005-01-01", "0005-1-1", "00005-01-01", "-000-01-01", "-0999-01-01", "+1444-11-11",
        "01444-11-11", "32768-01-01", "-32769-01-01", "65536-01-01", "99999-12-31", "1444-11-11T07", "1444-11-11T20",
        "1444-11-11T24", "1444-11-11T9", "1444-11-11t09", "1444-11-11 09", "1444-11-11T09:00", "1444-11-11T09Z", "14441111",
        "20000101T00", "1444.11.11", "1444.11.11.9", "43808760", "-8760", "", "-", "----", "T", "T09"};
    for (size_t i = 0; i < sizeof other / sizeof other[0]; i++)
        for (size_t k = 0; k < KINDS; k++)
            read_iso(kinds[k], other[i], strlen(other[i]));
    for (size_t k = 0; k < KINDS; k++) {
        pq_answer nothing = pq_read_iso(kinds[k], NULL, 0);
        told("no ISO text", kinds[k], 0, nothing.refusal, nothing.value);
    }
    drawn_iso();
    jumble(read_iso, "0123456789-+T", 40);
}
