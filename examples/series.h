/* The stored books of one till, in a folder: book-0001, book-0002 and on. The till has such a series, and the office
 * has one of its own for each till.
 *
 * A book knows only the numbers that stand in it. So a sale and a cancellation first ask every book of the series for
 * their number: if one has it, that book answers, and nothing is booked in another. A new number goes into the last
 * book, or where that is full (24) into the next one, which is stored with its first sale.
 *
 * The book is saved before the answer is given, unless that is a refusal. If a book does not load, nothing is sold or
 * cancelled. The folder has to be there. Whoever sells or cancels holds the lock of the series. */
#ifndef SERIES_H
#define SERIES_H

#include "../include/offers.h"
#include "store.h"

/* Unless `stored` is STORE_DONE, it says what is wrong with `book`, and the rest is zero. After STORE_NOT_WRITTEN a
 * change may be saved or not: ask again under the same number. */
typedef struct {
    int stored;             /* enum store_result */
    unsigned book;          /* the book that answered: 1 for book-0001 */
    offers_receipt receipt; /* what the engine answered */
} series_answer;

typedef struct {
    int stored;          /* as above */
    unsigned book;       /* the book that has the sale, or else the last one; 0 if there is no book yet */
    offers_booking sale; /* its `number` is 0 if a book has the sale, and 25 if none has */
} series_found;

/* Takes the lock of the series: what to unlock, or -1 if it cannot be had. If another process has it, this waits or
 * does not. Threads of one process need a lock of their own besides. */
int series_lock(const char *folder, int waits);
void series_unlock(int lock);

/* How many books there are, up to the last; -1 if the folder cannot be read. */
int series_count(const char *folder);

/* Loads one book: enum store_result. One that is missing before another does not load. */
int series_load(const char *folder, unsigned book, uint32_t *words);

series_found series_find(const char *folder, uint32_t till, uint64_t sequence);

/* The largest sequence that the till has in its books: enum store_result. */
int series_largest(const char *folder, uint32_t till, uint64_t *largest);

series_answer series_sell(const char *folder, const uint8_t *bundle, size_t length, uint32_t till, uint64_t sequence,
                          offers_question question);
series_answer series_cancel(const char *folder, uint32_t till, uint64_t sequence);

#endif
