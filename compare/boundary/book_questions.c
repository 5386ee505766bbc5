/* Everything that is asked of version 2 and of both versions about one buffer, whatever its bytes are, and what has to be
 * answered, by its bytes; which dates a kind has, pq_without_mark tells. */
#include "damaged.h"
#include <stdlib.h>
#include <string.h>

enum { START = 5, RECORDS = 4096 };

/* What distinguishes the versions: the bytes of a record, where its date begins, and the greatest mark in it. */
typedef struct {
    uint8_t number;
    uint32_t size, date_at, greatest_mark;
} version;

static const version first = {1, 5, 1, 0}, second = {2, 7, 3, 1};

/* The version by whose calls a call that takes both answers. */
static const version *either(const uint8_t *bytes, size_t length) {
    return length >= START && bytes[4] == 2 ? &second : &first;
}

static uint32_t word_at(const uint8_t *bytes) {
    return (uint32_t)bytes[0] << 24 | (uint32_t)bytes[1] << 16 | (uint32_t)bytes[2] << 8 | bytes[3];
}

static uint32_t room_for(const version *of, uint32_t records) { return START + of->size * records; }

static int is_date(uint32_t kind, uint32_t date) { return pq_without_mark(kind, date).refusal == 0; }

/* What a record's bytes have to be answered as. */
static pq_record told_by(const version *of, const uint8_t *record) {
    uint32_t field = of->number == 2 ? (uint32_t)record[1] << 8 | record[2] : 0;
    return (pq_record){0, record[0], word_at(record + of->date_at), field};
}

/* What a check has to answer. */
static pq_answer checked_as(const version *of, const uint8_t *bytes, size_t length) {
    if (length < START)
        return (pq_answer){9, 0};
    uint32_t said = word_at(bytes);
    if (said == 0 || said > 1 + of->size * RECORDS || said > length - 4)
        return (pq_answer){9, 0};
    if (bytes[4] != of->number)
        return (pq_answer){10, 0};
    if ((said - 1) % of->size != 0)
        return (pq_answer){9, 0};
    uint32_t records = (said - 1) / of->size;
    for (uint32_t i = 0; i < records; i++) {
        pq_record record = told_by(of, bytes + room_for(of, i));
        if (!is_date(record.kind, record.value) || record.value % 4 > of->greatest_mark)
            return (pq_answer){11, i};
    }
    return (pq_answer){0, records};
}

/* A buffer, a version, and what its check has to answer. */
typedef struct {
    const version *of;
    const uint8_t *bytes;
    size_t length;
    pq_answer count;
} asked;

static asked ask_of(const version *of, const uint8_t *bytes, size_t length) {
    return (asked){of, bytes, length, checked_as(of, bytes, length)};
}

static int is_same(pq_answer one, pq_answer other) { return one.refusal == other.refusal && one.value == other.value; }

static int is_untouched(const void *now, const void *before, size_t length) {
    return length == 0 || memcmp(now, before, length) == 0;
}

/* An answer, and what it has to be. */
static void answers(const char *what, uint32_t kind, const asked *book, pq_answer got, pq_answer wanted) {
    told(what, kind, (uint32_t)book->length, got.refusal, got.value);
    if (!is_same(got, wanted))
        fault(what, book->of->number, (uint32_t)book->length);
}

static void record(const asked *book, const uint8_t *copy, size_t place, pq_record (*get)(const uint8_t *, size_t, size_t)) {
    pq_record got = get(copy, book->length, place);
    told("record", 1, (uint32_t)book->length, got.refusal, got.value);
    pq_record wanted = {book->count.refusal, 0, book->count.value, 0};
    if (wanted.refusal == 0 && place >= book->count.value)
        wanted = (pq_record){13, 0, 0, 0};
    else if (wanted.refusal == 0)
        wanted = told_by(book->of, copy + room_for(book->of, (uint32_t)place));
    if (memcmp(&got, &wanted, sizeof got) != 0)
        fault("a record of a version", book->of->number, (uint32_t)place);
}

/* From a place on, into some numbers, in a buffer of exactly that length. */
static void walk(const asked *book, const uint8_t *copy, size_t place) {
    enum { NUMBERS = 19 };
    uint32_t before[NUMBERS];
    memset(before, 0xA5, sizeof before);
    size_t room = random_word() % (NUMBERS + 1);
    uint32_t *out = (uint32_t *)exact(before, room * sizeof *out);
    pq_answer wanted = book->count;
    if (wanted.refusal == 0) {
        size_t left = place < wanted.value ? wanted.value - place : 0;
        wanted.value = (uint32_t)(left < room / 4 ? left : room / 4);
    }
    pq_answer got = pq_any_book_records(copy, book->length, place, out, room);
    answers("walk", 1, book, got, wanted);
    size_t written = wanted.refusal == 0 ? wanted.value : 0;
    for (size_t i = 0; i < written; i++) {
        pq_record one = told_by(book->of, copy + room_for(book->of, (uint32_t)(place + i)));
        if (memcmp(out + 4 * i, &one, sizeof one) != 0)
            fault("a record of a walk", book->of->number, (uint32_t)(place + i));
    }
    if (!is_untouched(out + 4 * written, before, (room - 4 * written) * sizeof *out))
        fault("a number after a walk", book->of->number, (uint32_t)room);
    free(out);
}

static void append(const asked *book, uint32_t kind, uint32_t field, uint32_t date) {
    uint8_t *copy = exact(book->bytes, book->length);
    pq_answer wanted = book->count;
    if (!is_date(kind, date) || field > 65535)
        wanted = (pq_answer){4, 0};
    else if (wanted.refusal == 0 && (wanted.value == RECORDS || book->length < room_for(&second, wanted.value + 1)))
        wanted = (pq_answer){12, 0};
    answers("append 2", kind, book, pq_book2_append(copy, book->length, kind, field, date), wanted);
    size_t end = 0;
    if (wanted.refusal == 0) {
        end = room_for(&second, wanted.value + 1);
        pq_record one = told_by(&second, copy + end - second.size);
        if (word_at(copy) != end - 4 || copy[4] != 2 || one.kind != kind || one.value != date || one.field != field)
            fault("what is appended", kind, field);
        if (!is_untouched(copy + START, book->bytes + START, end - second.size - START))
            fault("a record before an append", kind, field);
    }
    if (!is_untouched(copy + end, book->bytes + end, book->length - end))
        fault("a byte beside an append", kind, field);
    free(copy);
}

typedef pq_answer mover(const uint8_t *, size_t, uint8_t *, size_t);

static const char *name_of(const version *to) { return to->number == 1 ? "to 1" : "to 2"; }

/* What a move has to answer: as the check; 21 for the first record that version 1 cannot keep; 12 last. */
static pq_answer moved_as(const asked *book, const version *to, size_t room) {
    pq_answer wanted = book->count;
    if (wanted.refusal != 0)
        return wanted;
    for (uint32_t i = 0; i < wanted.value; i++) {
        pq_record one = told_by(book->of, book->bytes + room_for(book->of, i));
        if (one.field != 0 || one.value % 4 > to->greatest_mark)
            return (pq_answer){21, i};
    }
    return room < room_for(to, wanted.value) ? (pq_answer){12, 0} : wanted;
}

/* Each record is the same but for its version, and the way back gives the bytes that were there. */
static void left_by_move(const asked *book, const version *to, const uint8_t *target, mover *back) {
    uint32_t records = book->count.value;
    size_t end = room_for(to, records), source_end = room_for(book->of, records);
    pq_answer count = checked_as(to, target, end);
    if (count.refusal != 0 || count.value != records)
        fault("what a move leaves", to->number, (uint32_t)end);
    for (uint32_t i = 0; i < records; i++) {
        pq_record from = told_by(book->of, book->bytes + room_for(book->of, i));
        pq_record now = told_by(to, target + room_for(to, i));
        if (memcmp(&from, &now, sizeof now) != 0)
            fault("a record that is moved", to->number, i);
    }
    uint8_t *again = exact(book->bytes, source_end);
    memset(again, 0xA5, source_end);
    pq_answer returned = back(target, end, again, source_end);
    told(name_of(book->of), 1, (uint32_t)end, returned.refusal, returned.value);
    if (!is_same(returned, book->count) || memcmp(again, book->bytes, source_end) != 0)
        fault("there and back", to->number, records);
    free(again);
}

static void move(const asked *book, const version *to, size_t room, mover *there, mover *back) {
    uint8_t *copy = exact(book->bytes, book->length), *before = malloc(room);
    if (before == NULL)
        abort();
    memset(before, 0xA5, room);
    uint8_t *target = exact(before, room);
    pq_answer wanted = moved_as(book, to, room);
    answers(name_of(to), 1, book, there(copy, book->length, target, room), wanted);
    size_t end = wanted.refusal == 0 ? room_for(to, wanted.value) : 0;
    if (wanted.refusal == 0)
        left_by_move(book, to, target, back);
    if (!is_untouched(target + end, before, room - end))
        fault("a byte beside a book that is moved", to->number, (uint32_t)room);
    if (!is_untouched(copy, book->bytes, book->length))
        fault("a book that is moved changed", to->number, (uint32_t)room);
    free(target);
    free(before);
    free(copy);
}

/* Into targets about the room that the book needs, and some small ones. */
static void moves(const asked *book, const version *to, mover *there, mover *back) {
    size_t needed = room_for(to, book->count.refusal == 0 ? book->count.value : 0);
    const size_t rooms[] = {needed - 1, needed, needed + 1 + random_word() % 9, random_word() % 6};
    for (size_t i = 0; i < sizeof rooms / sizeof rooms[0]; i++)
        move(book, to, rooms[i], there, back);
}

static void new_book(const asked *book) {
    uint8_t *copy = exact(book->bytes, book->length);
    int has_room = book->length >= START;
    answers("new 2", 1, book, pq_book2_new(copy, book->length), (pq_answer){has_room ? 0 : 12, 0});
    size_t end = has_room ? START : 0;
    if (has_room && memcmp(copy, (uint8_t[]){0, 0, 0, 1, 2}, START) != 0)
        fault("new 2", 2, (uint32_t)book->length);
    if (!is_untouched(copy + end, book->bytes + end, book->length - end))
        fault("a byte beside a new book", 2, (uint32_t)book->length);
    free(copy);
}

/* Dates of D and of U with each mark, and any number, with fields at both sides of each bound. */
static void appends(const asked *book) {
    static const uint32_t fields[] = {0, 1, 500, 65535, 65536, 66036, 0x80000000, UINT32_MAX};
    enum { FIELDS = sizeof fields / sizeof fields[0], DAY = 0x05A4B580, THIRTIETH = 0x08982F00 };
    for (uint32_t i = 0; i < FIELDS; i++) {
        append(book, 2, fields[i], DAY + i % 4);
        append(book, 4, fields[i], THIRTIETH + i / 4);
        append(book, some_kind(), fields[i], random_word());
    }
}

void on_versions(const uint8_t *bytes, size_t length) {
    uint8_t *copy = exact(bytes, length);
    asked one = ask_of(&first, bytes, length), two = ask_of(&second, bytes, length);
    asked any = *(either(bytes, length) == &second ? &two : &one);
    answers("check 1", 1, &one, pq_book_check(copy, length), one.count);
    answers("check 2", 1, &two, pq_book2_check(copy, length), two.count);
    answers("check either", 1, &any, pq_any_book_check(copy, length), any.count);
    static const size_t places[] = {0, 1, 2, 3, 4094, 4095, 4096, SIZE_MAX, SIZE_MAX / 7 + 1, SIZE_MAX / 5 + 1};
    for (size_t i = 0; i < sizeof places / sizeof places[0]; i++) {
        record(&two, copy, places[i], pq_book2_record);
        record(&any, copy, places[i], pq_any_book_record);
        walk(&any, copy, places[i]);
    }
    if (!is_untouched(copy, bytes, length))
        fault("a book of a version changed", 1, (uint32_t)length);
    free(copy);
    moves(&one, &second, pq_book_to_2, pq_book_to_1);
    moves(&two, &first, pq_book_to_1, pq_book_to_2);
    appends(&two);
    new_book(&two);
}
