/* What the files of the header's program share: its codes of kinds, its dates, how an answer is told right or wrong, and the
 * parts that main runs. Private to this folder. */
#ifndef HEADER_H
#define HEADER_H

#include "pennyquill.h"

enum { R = 1, D, H, U, E, V };

/* ---- header.c */

void tell(const char *what, int holds);
void gives(const char *what, pq_answer got, uint32_t refusal, uint32_t value);
void enters(const char *what, pq_record got, uint32_t refusal, uint32_t kind, uint32_t field);
void looks(const char *what, pq_lookup got, uint32_t refusal, uint32_t kind, uint32_t value, uint32_t guessed);

uint32_t date(int year, uint32_t month, uint32_t day, uint32_t hour);

/* The same date with the mark of a guess. */
uint32_t guessed(uint32_t date);

/* ---- header_listings.c */

void listings(void);

/* ---- header_books.c */

void books(void);

/* ---- header_gaps.c */

void gaps(void);

/* ---- header_leagues.c */

void leagues(void);

#endif
