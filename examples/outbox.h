/* What a till has still to send up: in its folder, sale-N for the sale with sequence N, with the name of the bundle it
 * was sold by, and cancel-N for its cancellation.
 *
 * A note is written before the book is saved, so that nothing is booked that is never sent. It counts only once the
 * books bear it out: if the till was cut off between the two, the note is there and the sale is not. It is struck out
 * when the office has answered, or when the sale is refused. */
#ifndef OUTBOX_H
#define OUTBOX_H

#include <stdint.h>

#define OUTBOX_SALE "sale"
#define OUTBOX_CANCEL "cancel"

/* The longest name of a bundle, and the zero behind it. */
enum { BUNDLE_NAME = 32 };

/* 0 if the note is written and flushed, else -1, and errno says why. */
int outbox_note(const char *folder, const char *what, uint64_t sequence, const char *bundle);

/* Whether there is such a note, and the name of the bundle in it. */
int outbox_has(const char *folder, const char *what, uint64_t sequence, char bundle[BUNDLE_NAME]);

/* A note that is still there after a loss of power is sent again, which does no harm. */
void outbox_strike_out(const char *folder, const char *what, uint64_t sequence);

#endif
