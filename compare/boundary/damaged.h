/* What the files of the program on damaged input share: its counts, its random numbers, its codes of kinds, and the parts,
 * which main runs in the order in which they stand here. Private to this folder. */
#ifndef DAMAGED_H
#define DAMAGED_H

#include "pennyquill.h"

/* ---- damaged.c */

extern unsigned long calls, refusals;
extern uint32_t digest; /* of all answers: the same on every processor */

void fault(const char *what, uint32_t kind, uint32_t number);

/* A copy in a buffer of exactly this length. */
uint8_t *exact(const void *bytes, size_t length);

uint32_t random_word(void);

/* Asks about the bytes cut at each length, with each byte that is left changed to some others. */
void cut_and_changed(const uint8_t *whole, size_t size, void (*ask)(const uint8_t *, size_t));

/* The codes of the six kinds, and codes that are none. */
static const uint32_t kinds[] = {1, 2, 3, 4, 5, 6, 0, 7, 8, 255, 256, 258, 65537, 0x80000001, UINT32_MAX};
#define KINDS (sizeof kinds / sizeof kinds[0])

int is_kind(uint32_t kind);
uint32_t some_kind(void);
int32_t some_number(void);

/* What every answer has: a number of the table, 20 of an append alone and 21 of a move to version 1; 4 where the kind is
 * none; 0 beside a refusal but 11 and 21. */
void told(const char *what, uint32_t kind, uint32_t number, uint32_t refusal, uint32_t value);

/* ---- texts.c */

/* The longest text that is read, and the longest that is drawn. */
enum { LIMIT = 64, LONGEST = 80 };

typedef pq_answer reader(uint32_t, const uint8_t *, size_t);

pq_answer read_by(const char *what, reader *get, uint32_t kind, const void *bytes, size_t length);

typedef void asker(uint32_t, const void *, size_t);

/* Random bytes, and random ones of thirteen telling bytes, up to so many, by a way of reading. */
void jumble(asker *read, const char *telling, size_t longest);

void texts(void);

/* ---- dates.c */

void dates(void);
void fields_and_numbers(void);

/* ---- books.c */

void books(void);

/* ---- table_questions.c */

/* The bytes of a table's head and of an entry, and the most entries. */
enum { HEAD = 5, ENTRY = 3, MOST = 2048 };

int is_field(uint32_t field);
int has_guess(uint32_t kind);
int reads_numbers(uint32_t kind);

/* Asks everything about a buffer. */
void on_table(const uint8_t *bytes, size_t length);

/* ---- tables.c */

void small_tables(void);
void full_tables(void);

/* ---- iso_texts.c */

void read_iso(uint32_t kind, const void *bytes, size_t length);
void iso_texts(void);

/* ---- padded_texts.c */

void padded_texts(void);

/* ---- book_questions.c */

/* Asks everything of version 2 and of both versions about a buffer. */
void on_versions(const uint8_t *bytes, size_t length);

/* ---- book_versions.c */

void book_versions(void);

/* ---- gaps.c */

void gaps(void);

/* ---- league_questions.c */

/* Asks everything of two leagues about a buffer, and for a move of it, as a table of version 1, into one of league 1. */
void on_leagues(const uint8_t *bytes, size_t length);

/* Asks for that move alone. */
void on_moved_table(const uint8_t *bytes, size_t length);

/* ---- leagues.c */

void leagues(void);

/* ---- listings.c */

void listings(void);

#endif
