/* A till on a train. It books in its own series of books, without a signal, and sends up later what it sold. */
#ifndef TILL_H
#define TILL_H

#include "bundles.h"
#include "series.h"

typedef struct {
    const char *folder;         /* with its books and its outbox */
    uint32_t number;            /* of the till: one series of books has one */
    const named_bundle *bundle; /* that it sells by today */
} till;

/* What goes up to the office. A sale carries its question and the name of the bundle that it was sold by. */
typedef struct {
    uint32_t till;
    uint64_t sequence;
    int is_sale; /* else it is the cancellation of the number */
    char bundle[BUNDLE_NAME];
    offers_question question;
} message;

/* The next sequence: one above the largest that the till has in its books, so a number whose sale was refused is free.
 * The result is enum store_result. */
int till_next(const till *till, uint64_t *sequence);

/* Books a sale and saves the book. A ticket is printed only after STORE_DONE and the number 0. */
series_answer till_sell(const till *till, uint64_t sequence, offers_question question);

/* Cancels a sale in the book that has it, and saves that book. */
series_answer till_cancel(const till *till, uint64_t sequence);

/* What is not answered yet, in the order of booking: how many there are of at most `most`, or -1 if a book does not
 * load. */
int till_unsent(const till *till, message *messages, int most);

/* The office has answered: the message is not sent again. */
void till_strike_out(const till *till, const message *message);

#endif
