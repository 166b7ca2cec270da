/* What the railways are owed over all books of some series: for each railway the sum of its balances.
 *
 * Every book has to load, or there is no settlement. A sale number that stands in two books is reported with both
 * places, and the settlement is then not final: what to do about the number is the office's to say. */
#ifndef SETTLEMENT_H
#define SETTLEMENT_H

#include "series.h"

enum { SETTLEMENT_MOST_TWICE = 16 };

typedef struct {
    uint32_t till;
    uint64_t sequence;
    int series, other_series;  /* which folder, from 0, */
    unsigned book, other_book; /* and which of its books */
} number_in_two_books;

typedef struct {
    int stored;    /* enum store_result: unless STORE_DONE, this book of this series does not load, */
    int series;    /* and all amounts are zero */
    unsigned book;
    uint64_t books, sales, cancelled, total;
    uint64_t owed[OFFERS_LARGEST_RAILWAY + 1]; /* to each railway */
    uint64_t twice;                            /* how often a number stands in two books; the first of them: */
    number_in_two_books places[SETTLEMENT_MOST_TWICE];
} settlement;

/* Whether it is final: every book loads, no number stands in two, and the balances come to the total. */
int settle(const char *const *folders, int count, settlement *settlement);

#endif
