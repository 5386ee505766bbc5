/* Pennyquill: the dates of strategy-game saves, for C and for whatever calls C.
 *
 * Kinds, by their codes:      1 R raw   2 D plain   3 H hourly   4 U uniform   5 E EU5   6 V Victoria 3
 * A date is one number:       (uint32_t)(uint16_t)year << 16 | month << 12 | day << 7 | hour << 2 | mark
 * Any numbers can be handed in. A kind outside 1 to 6, a kind that lacks the operation, fields or a date that are not of
 * the kind, a mark that is not allowed: each is refusal 4, and 14 in the calls of tables.
 *
 * A date's mark, in bits 0 and 1, tells whether it was guessed: 0 declared, 1 guessed; 2 and 3 are not allowed. A date
 * guessed by pq_guess_number, or by a lookup of a field that is not declared, has the mark 1; one that is read or made in
 * any other way has 0; a sum and the start of a day keep the mark of the date that they start from, and a book of
 * version 2 that of each of its dates, which its gap figures give without it. Nothing else but a book sees it: two dates
 * that differ in the mark alone are the same date, with the same texts, number and differences. So compare two dates by
 * pq_order, and never by ==.
 *
 * Every answer has a refusal, 0 where there is none:
 *    1 text over 64 bytes            8 more than 65,535 bytes to be   13 book or table: nothing at that place
 *    2 text not of that kind           listed                         14 table: an entry or a call out of order or not
 *    3 number not a date,            9 book or table: its length         allowed, or over 1,024 entries of a league
 *      or guess refused             10 book or table: its version     15 table: full, or a league's share of it; no room
 *    4 not of that kind             11 book: a bad record; value is      for a new entry; a table that cannot be moved
 *    5 sum outside 32 bits             the first one's place          16 table: no such field to remove
 *    6 sum outside every date       12 book or new table: no room
 *    7 buffer shorter than the text, the report or the listing; or too few numbers lent
 *   20 book of version 1: a guessed date appended
 *   21 book moved back to version 1: a record with a field number or a mark; value is the first one's place
 * At 11 and 21 value is the place; at any other refusal all other members are 0. A refusal leaves every byte as it was.
 *
 * A text, an input, a buffer, a book or a table is a pointer and the number of bytes there. No byte beyond them is
 * touched; where there are none, any pointer will do. It need not be aligned, and no text ends in a byte 0. No function
 * keeps a pointer, allocates or has a state of its own, so that any number of threads may call them.
 */
#ifndef PENNYQUILL_H
#define PENNYQUILL_H

#include <stddef.h>
#include <stdint.h>

#ifdef __cplusplus
extern "C" {
#endif

typedef struct {
    uint32_t refusal;
    uint32_t value;
} pq_answer;

typedef struct {
    uint32_t refusal;
    int32_t value;
} pq_number;

typedef struct {
    uint32_t refusal;
    uint32_t kind;
    uint32_t value; /* of a book: the date, with its mark; at 11 the place. Of a table: 0 */
    uint32_t field; /* the field's number. Of a book: 0 for none, and always in version 1 */
} pq_record;

typedef struct {
    uint32_t refusal;
    uint32_t kind;    /* the declared one, or the game's where the field is not declared */
    uint32_t value;   /* the date, with its mark */
    uint32_t guessed; /* 0: declared, decoded in full; 1: not declared, guessed. It is the date's mark too */
} pq_lookup;

/* A date from a dotted text, or for D, H and U from a number's text; from its ISO text; from a number that is declared as
   a date; from any number, by the narrow guess, which alone sets the mark 1; from its fields, of which D, U and E ignore
   the hour. The value is the date.

   A text over 64 bytes is 1, whatever it says; any other that is not of the kind is 2. A dotted text's year and a number's
   text may have zeros before them, as many as fit, and the true value decides: 18446744073709553060.1.1, of the year
   2^64 + 1444, is 2 and never 1444.1.1. Of D such a text has 12 bytes at most: one of 13 to 64 is 2.

   An ISO text is read as pq_write_iso spells it and in no other way: the year -5 is -005, never -5, -0005 or the
   exchange text's -00005, and none has over 15 bytes. R takes an hour or none; D and U refuse one; H, E and V demand
   theirs, so that E's ISO date alone is refused. Every date comes back as it was, but for E's odd hours, which come
   back even: 2 and 3 are both written as T09, and T09 is read as 2. No dotted text is read there, and no ISO text by
   pq_read_text. */
pq_answer pq_read_text(uint32_t kind, const uint8_t *text, size_t len);
pq_answer pq_read_iso(uint32_t kind, const uint8_t *text, size_t len);
pq_answer pq_read_number(uint32_t kind, int32_t number);
pq_answer pq_guess_number(uint32_t kind, int32_t number);
pq_answer pq_from_fields(uint32_t kind, int32_t year, uint32_t month, uint32_t day, uint32_t hour);

/* The same date with the mark 0, of every kind. The value is the date. */
pq_answer pq_without_mark(uint32_t kind, uint32_t date);

/* The date so many days later (D, E, V), and E's date at the start of its day. The value is the date, with the mark of
   the date that it starts from. */
pq_answer pq_add_days(uint32_t kind, uint32_t date, int32_t days);
pq_answer pq_start_of_day(uint32_t kind, uint32_t date);

/* The number that D and H write; the days from the first date to the second (D, E, V); -1, 0 or 1 where the first date is
   before, the same as or after the second. */
pq_number pq_to_number(uint32_t kind, uint32_t date);
pq_number pq_days_until(uint32_t kind, uint32_t first, uint32_t second);
pq_number pq_order(uint32_t kind, uint32_t first, uint32_t second);

/* The text of a date at the front of a buffer; 15 bytes are room for every text. E alone has the ISO date alone. The value
   is the text's length.

   The exchange text is the ISO text but for its year: years 0 to 9999 have four digits, all others a sign and five. The
   years -5 and 10000 are -00005 and +10000 there, and -005 and 10000 in the ISO text. */
pq_answer pq_write_dotted(uint32_t kind, uint32_t date, uint8_t *out, size_t room);
pq_answer pq_write_iso(uint32_t kind, uint32_t date, uint8_t *out, size_t room);
pq_answer pq_write_iso_date(uint32_t kind, uint32_t date, uint8_t *out, size_t room);
pq_answer pq_write_exchange(uint32_t kind, uint32_t date, uint8_t *out, size_t room);

/* A listing: many dates read and written in one call, as the program datelist prints them. A line of input is a kind's
   letter, a way and the rest, between single spaces. It ends at a byte 10, never at a 13, and the last may lack it. Way t
   reads the rest by pq_read_text; b and g read it as a number, perhaps - and then 1 to 10 digits, by pq_read_number and
   pq_guess_number. Each line is answered by a line, ended by a byte 10: the letter, the dotted text and the ISO text; or
   the letter, the word refused and the refusal, 1, 2 or 3, which is 2 for what is no number of 32 bits. A line of any
   other shape, an empty one too, and one of U b, U g or R g is answered by ? refused 8. None of these refuses the call.
       D t 1444.11.11         D 1444.11.11 1444-11-11
       E t 1444.11.11.23      E 1444.11.11.22 1444-11-11T19
       U b 0                  ? refused 8
       D t +1444.1.1          D refused 2

   How much to lend: the value of pq_listing_room is 12 * n, which is room for the listing of every input of n bytes, and
   with n empty lines there is none to spare. It is refused by 8 where n is over 65,535.

   The listing at the front of a buffer: the value is its length, and later bytes stay. A buffer of exactly that length is
   enough. First comes 8, where n is over 65,535, whatever the room; then 7, where room is under the length. At both
   nothing is written: input too long, which the program prints, is never written here. The buffers must not overlap. */
pq_answer pq_listing_room(size_t n);
pq_answer pq_listing(const uint8_t *input, size_t n, uint8_t *out, size_t room);

/* A book of version 1 at the front of a buffer, of at most 4,096 records. The value is 0; the number of records; the
   new record's place.

   A book is refused by 9 where it has under five bytes or its length is 0, over 20,481 or past the buffer's end; by 10
   for its version; by 9 again where its records are not whole; by 11. Version 2 is 10 in these calls too, or 9 where
   its length is over 20,481.

   A book of version 1 takes no mark. A record with any mark in it is 11. A guessed date appended is 20, after 4, 9, 10,
   11 and 12, so that 20 says that any other date of the kind would have found room. Version 2 takes a guessed date as
   it is; pq_without_mark gives that date without its mark. */
pq_answer pq_book_new(uint8_t *book, size_t len);
pq_answer pq_book_check(const uint8_t *book, size_t len);
pq_answer pq_book_append(uint8_t *book, size_t len, uint32_t kind, uint32_t date);

/* The record at a place, from 0; 13, after the book's own refusals, where there is none. Each call checks the whole
   book: for a walk there is pq_any_book_records, which checks it once. */
pq_record pq_book_record(const uint8_t *book, size_t len, size_t place);

/* A book of version 2 likewise, which also keeps the field that a date came from, and the date's mark. A record has
   seven bytes: kind, field number, year, packed word with mark, all big-endian. Any field number, 0 for none, goes with
   any kind. Field 500, D 1444.11.11, guessed, alone: 00 00 00 08 02 02 01 F4 05 A4 B5 81.

   Its length is at most 28,673, and up to there any other version is 10. Marks 0 and 1 are both taken, so that nothing
   is 20; 2 and 3 make a record 11. An append gives 4 first, for a field over 65,535 too, then the book's own refusals,
   then 12 where it has 4,096 records already or under seven bytes after it. */
pq_answer pq_book2_new(uint8_t *book, size_t len);
pq_answer pq_book2_check(const uint8_t *book, size_t len);
pq_answer pq_book2_append(uint8_t *book, size_t len, uint32_t kind, uint32_t field, uint32_t date);
pq_record pq_book2_record(const uint8_t *book, size_t len, size_t place);

/* A book of either version: answered by the call of version 2 where the fifth byte is 2, else by that of version 1. So
   any other version is 10, or 9 where the length is over 20,481. */
pq_answer pq_any_book_check(const uint8_t *book, size_t len);
pq_record pq_any_book_record(const uint8_t *book, size_t len, size_t place);

/* Many records of a book of either version over one check of it: those from a place on, as many as there are and as
   whole fours of out hold. Record place + i is the four numbers from out[4 * i] on: the members of a pq_record in their
   order, the refusal being 0, so that an array of n of them will do, as 4 * n numbers; out_len counts numbers, not
   bytes. The value is how many records, and out stays as it was from 4 * value on. A place past the last record gives
   0, and never 13. 9, 10 and 11 refuse the whole call, and nothing is written. The buffers must not overlap, and out is
   aligned as C aligns it. */
pq_answer pq_any_book_records(const uint8_t *book, size_t len, size_t place, uint32_t *out, size_t out_len);

/* The bytes of a book of so many records, of version 1 and of version 2: the room that a move needs. */
#define PQ_BOOK_ROOM(records) (5 + 5 * (size_t)(records))
#define PQ_BOOK2_ROOM(records) (5 + 7 * (size_t)(records))

/* Writes a book of one version into the front of a second buffer, as a book of the other; the target's later bytes and
   the first book stay. The value is the number of records. There and back gives the same bytes. The buffers must not
   overlap.

   To version 2: version 1 alone, refused as by pq_book_check. Every record gets the field number 0. To version 1:
   version 2 alone, refused as by pq_book2_check, then by 21 for a record with a field number or a mark, which version 1
   cannot keep; value is the first one's place. Last comes 12, where room is under PQ_BOOK2_ROOM or PQ_BOOK_ROOM of the
   records. */
pq_answer pq_book_to_2(const uint8_t *from, size_t len, uint8_t *to, size_t room);
pq_answer pq_book_to_1(const uint8_t *from, size_t len, uint8_t *to, size_t room);

/* The gap report of a book of either version: of each kind how many records there are, the earliest date and the latest,
   by pq_order; of D, E and V, which count days, also how far its records lie from one another. A step leads from a
   record to the next one of its kind in the book, and has the days of pq_days_until between the two, below 0 where it
   leads back. The longest step is the greatest without its sign. Its place, from 0 and among all records of the book, is
   that of the record of the two that stands first in the book, and not of the earlier date; of equally long steps the
   first one's, and where none leads anywhere the kind's first record's. The sum of all steps with their signs is the days
   from the kind's first record to its last. One record alone has the step 0, its own place and the sum 0. Marks and field
   numbers are not seen.

   As a text at the front of a buffer: a line for each kind in the order of the codes, each ended by a byte 10. Between
   single spaces it has the kind's letter, the number of records, the earliest date and the latest, dotted; of D, E and V
   then the longest step, its place and the sum. A kind with no record has its letter and 0 alone. The value is the
   text's length: PQ_GAP_ROOM bytes are room for every report, and later bytes stay.
       R 0
       D 3 -1.1.1 1444.11.11 527739 1 -10
       H 0
       U 1 1444.02.30 1444.02.30
       E 1 1444.11.11.3 1444.11.11.3 0 5 0
       V 1 1836.2.3.6 1836.2.3.6 0 0 0

   As numbers: PQ_GAP_NUMBERS of them, six for each kind; out_len counts numbers, not bytes. PQ_GAP(kind, column) is the
   place of one in out: of D's latest date PQ_GAP(2, PQ_GAP_LATEST). A date is one number, as everywhere, with the mark 0.
   The sum alone may be below 0. A kind with no record has six times 0; of R, H and U, which count no days, step, place
   and sum are 0. The value is PQ_GAP_NUMBERS, and later numbers stay.

   Both refuse as pq_any_book_check does: 9, 10, 11 with the place; then, last, 7 where room is under the text's length,
   or out_len under PQ_GAP_NUMBERS. At a refusal nothing is written. The book is checked once and gone through once for
   each kind, so that twice the records take twice the time. The buffers must not overlap, and out of the figures is
   aligned as C aligns it. */
#define PQ_GAP_ROOM 306
#define PQ_GAP_NUMBERS 36
#define PQ_GAP(kind, column) (6 * ((size_t)(kind) - 1) + (size_t)(column))
enum { PQ_GAP_COUNT, PQ_GAP_EARLIEST, PQ_GAP_LATEST, PQ_GAP_STEP, PQ_GAP_PLACE, PQ_GAP_SUM };
pq_answer pq_gap_report(const uint8_t *book, size_t len, uint8_t *out, size_t room);
pq_answer pq_gap_figures(const uint8_t *book, size_t len, int64_t *out, size_t out_len);

/* A table of declared fields at the front of a buffer: which fields of a save are dates, and of which kind. It has at
   most 2,048 entries, in ascending order: a field's number, 1 to 65,535, and its kind, 1, 2, 3, 5 or 6 (U reads no
   numbers). A game kind is one that has a guess: 2, 3, 5 or 6. Any other field or kind in a call is 14, never 4 and never
   cut: after 9, 10 and 14 for the table itself, before 15, 16 and 3.

   One rule for both users: a declared field's number is decoded in full by the field's kind, so that the chronicler sees
   odd dates too; any other number is only guessed at by the game kind, so that the converter takes no plain number for a
   date. Neither takes the other's answer: where one refuses, that is 3, and the other is not asked. */

/* An empty table in the first five bytes, refused by 12 alone; the check of a table. The value is 0; the number of
   entries. */
pq_answer pq_table_new(uint8_t *table, size_t len);
pq_answer pq_table_check(const uint8_t *table, size_t len);

/* Declares a field: one that is there gets the new kind, a new one takes the next three bytes. Removes a field: the later
   entries close up, the three bytes freed become 0, and that room is used again. No byte after these is touched. The value
   is the number of entries afterwards. */
pq_answer pq_table_declare(uint8_t *table, size_t len, uint32_t field, uint32_t kind);
pq_answer pq_table_remove(uint8_t *table, size_t len, uint32_t field);

/* The date of a number that stands in a field, and whether it was guessed, which its mark tells too. A game kind that is
   none is 14 even where the field is declared. */
pq_lookup pq_table_lookup(const uint8_t *table, size_t len, uint32_t field, uint32_t game_kind, int32_t number);

/* The entry at a place, from 0. */
pq_record pq_table_entry(const uint8_t *table, size_t len, size_t place);

/* Many lookups over one check of the table; pq_table_lookup checks it each time. Question i is fields[i] and numbers[i],
   its answer the four numbers from out[4 * i] on: the members of a pq_lookup in their order, so that an array of n of them
   will do, as 4 * n numbers. These lengths count numbers, not bytes, and need not agree: as many questions are answered as
   there are fields, numbers and whole fours of out, at most 4,294,967,295. The value is how many, and out stays as it was
   from 4 * value on. 9, 10 and 14 for the table and 14 for the game kind refuse the whole call, and nothing is written; a
   field that is none (14) and a number that is no date (3) stand in their own answers. The buffers must not overlap, and
   fields, numbers and out are aligned as C aligns them. */
pq_answer pq_table_lookup_all(const uint8_t *table, size_t len, uint32_t game_kind, const uint32_t *fields,
                              size_t fields_len, const int32_t *numbers, size_t numbers_len, uint32_t *out,
                              size_t out_len);

/* A table of declared fields that two leagues share, each with declarations of its own: table version 2. Its entries have
   four bytes: the league, 1 or 2, then field and kind as in version 1. They ascend by league, then field, and each league
   has at most PQ_LEAGUES_SHARE of them. Both may declare the same field. Field 500 as D by league 1, as V by league 2:
   00 00 00 09 02 01 01 F4 02 02 01 F4 06.

   Each call but pq_leagues_new and pq_leagues_from_table is one league's, and tells of that league's own entries alone:
   whatever the other has declared, a count, a place or a refusal is the same. So it is wherever the buffer has
   PQ_LEAGUES_ROOM bytes, which hold all entries of both. In a shorter one the two draw on the same bytes: a new field is
   then 15 where under four are left, whoever took the others. The bytes of the buffer tell of both leagues: show them to
   neither, and keep them yourself.

   First come the table's own refusals: 9 where it has under five bytes or its length is 0, over 8,193 or past the
   buffer's end; 10 for its version; 9 again where its entries are not whole; 14 for entries out of order, for a league
   byte other than 1 or 2, a field 0 or a kind that is not allowed, and for over PQ_LEAGUES_SHARE entries of one league.
   Then 14 for a league, a field or a kind in the call, never cut: league 257 is none. Then 15, 16, 13 or 3. A table of
   version 1 is 10 here; one of version 2 is 10 in the calls of version 1, or 9 where its length is over 6,145. */
#define PQ_LEAGUES_SHARE 1024
#define PQ_LEAGUES_ROOM 8197

/* An empty table in the first five bytes, refused by 12 alone; the check of a table. The value is 0; the number of the
   league's own entries. */
pq_answer pq_leagues_new(uint8_t *table, size_t len);
pq_answer pq_leagues_check(const uint8_t *table, size_t len, uint32_t league);

/* Declares a field of the league: one that it has gets the new kind, also where its share is full; a new one takes the
   next four bytes, and is 15 where the league has PQ_LEAGUES_SHARE entries or under four bytes stand after the table.
   Removes a field of the league, or 16 where it has none such: the later entries close up, the four bytes freed become
   0, and that room is used again. No byte after these is touched, and the other league keeps its entries. The value is
   the number of the league's own entries afterwards. */
pq_answer pq_leagues_declare(uint8_t *table, size_t len, uint32_t league, uint32_t field, uint32_t kind);
pq_answer pq_leagues_remove(uint8_t *table, size_t len, uint32_t league, uint32_t field);

/* The date of a number that stands in a field, as pq_table_lookup gives it, by what the league itself has declared. */
pq_lookup pq_leagues_lookup(const uint8_t *table, size_t len, uint32_t league, uint32_t field, uint32_t game_kind,
                            int32_t number);

/* The entry at a place among the league's own, from 0; 13 past its last. */
pq_record pq_leagues_entry(const uint8_t *table, size_t len, uint32_t league, size_t place);

/* Writes a table of version 1 into the front of a second buffer, as a table of league 1 alone, whose lookups are those of
   the first; the target's later bytes and the first table stay. The value is the number of entries. It is refused as by
   pq_table_check, then by 15 where there are over PQ_LEAGUES_SHARE entries or room is under 5 + 4 * entries, also where
   it is under five bytes, which is never 12 here. The buffers must not overlap. */
pq_answer pq_leagues_from_table(const uint8_t *from, size_t len, uint8_t *to, size_t room);

#ifdef __cplusplus
}
#endif

#endif
