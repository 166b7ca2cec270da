/* See protocol.h. */
#include "protocol.h"

#include <inttypes.h>

static settlement made;

void title(const char *text) {
    static int step;
    printf("%s%d. %s\n", step == 0 ? "" : "\n", step + 1, text);
    step++;
}

static void told_receipt(const char *start, unsigned book, const offers_receipt *receipt) {
    if (receipt->number != OFFERS_ANSWERED) {
        line("%s refused by %" PRIu64 ", place %" PRIu64 ", detail %" PRIu64 ": %s", start, receipt->number,
             receipt->place, receipt->detail, offers_text(receipt->number));
        return;
    }
    int is_late = receipt->outcome == OFFERS_ALREADY_BOOKED && receipt->cancelled;
    line("%s %s%s in book-%04u, parts %" PRIu32 " and %" PRIu32, start, offers_outcome_text(receipt->outcome),
         is_late ? " and cancelled" : "", book, receipt->parts[0], receipt->parts[1]);
}

void told(const char *who, const till *till, uint64_t sequence, series_answer answer) {
    char start[64];
    snprintf(start, sizeof start, "%s: %" PRIu32 "/%" PRIu64, who, till->number, sequence);
    if (answer.stored == STORE_DONE)
        told_receipt(start, answer.book, &answer.receipt);
    else if (answer.book == 0 && answer.stored == STORE_NO_FILE)
        line("%s not answered: the office has no bundle of this name", start);
    else
        line("%s not answered: book-%04u: %s", start, answer.book, store_text(answer.stored));
}

static void told_sums(const char *what) {
    line("%s: %" PRIu64 " cents (books: %" PRIu64 ", sales: %" PRIu64 ", cancelled: %" PRIu64 ")", what, made.total,
         made.books, made.sales, made.cancelled);
}

static void told_twice(void) {
    line("sale numbers that stand in two books: %" PRIu64, made.twice);
    for (uint64_t i = 0; i < made.twice && i < 2; i++) {
        const number_in_two_books *number = &made.places[i];
        line("   %" PRIu32 "/%" PRIu64 ": book-%04u of series %d and book-%04u of series %d", number->till,
             number->sequence, number->book, number->series + 1, number->other_book, number->other_series + 1);
    }
    if (made.twice > 2) line("   and so on");
}

void owed(const char *whose, const char *folder) {
    settle(&folder, 1, &made);
    told_sums(whose);
}

void settled(const char *what, const char *const *folders, int count) {
    int is_final = settle(folders, count, &made);
    if (made.stored != STORE_DONE) {
        line("%s: none: book-%04u: %s", what, made.book, store_text(made.stored));
        return;
    }
    line("%s: %s", what, is_final ? "final" : "NOT FINAL, the office has to look into it");
    for (uint32_t railway = 1; railway <= OFFERS_LARGEST_RAILWAY; railway++)
        if (made.owed[railway] > 0) line("   to %" PRIu32 ": %" PRIu64 " cents", railway, made.owed[railway]);
    told_sums("   to all");
    if (made.twice > 0) told_twice();
}
