/* A till's work with one ticket of a family that shows two cards: sell it, lose the signal and send the sale again, cancel it, and send it
 * again by mistake.
 * Run by examples/run sell, which also builds it. Usage: sell BUNDLE */
#include "../include/offers.h"

#include <inttypes.h>
#include <stdio.h>
#include <stdlib.h>
#include <string.h>

/* One byte more than a bundle may have, so that the engine sees and refuses one that is too long. */
static uint8_t bundle[1048576 + 1];

/* A new book is all zeros. A till keeps it in a file between its runs: see store.h. */
static uint32_t book[OFFERS_BOOK_WORDS];
static uint32_t book_before[OFFERS_BOOK_WORDS];

enum { NORTH = 1185, SOUTH = 1181 };

/* In examples/family.bundle both cards reduce the fare on NORTH, one after the other; on SOUTH the members' card stands alone, and the leg
 * takes the lesser amount of the two. */
enum { RAILCARD = 7, MEMBERS_CARD = 21 };

/* The sale number: it names this sale for ever. Whatever is sent under it is booked once at most. */
enum { TILL = 1, SEQUENCE = 1 };

static void stop_if_refused(uint64_t number, uint64_t place, uint64_t detail) {
    if (number != OFFERS_ANSWERED) {
        printf("refused: %s (number %" PRIu64 ", place %" PRIu64 ", detail %" PRIu64 ")\n", offers_text(number), number,
               place, detail);
        exit(1);
    }
}

static size_t read_bundle(const char *path) {
    FILE *file = fopen(path, "rb");
    if (file == NULL) {
        perror(path);
        exit(1);
    }
    size_t length = fread(bundle, 1, sizeof bundle, file);
    fclose(file);
    return length;
}

static uint64_t owed_to(uint32_t railway) {
    offers_sum sum = offers_balance(book, OFFERS_BOOK_WORDS, railway);
    stop_if_refused(sum.number, sum.place, sum.detail);
    return sum.amount;
}

static uint64_t owed_to_all(void) {
    offers_sum sum = offers_total(book, OFFERS_BOOK_WORDS);
    stop_if_refused(sum.number, sum.place, sum.detail);
    return sum.amount;
}

static void show(const char *step, offers_receipt receipt) {
    stop_if_refused(receipt.number, receipt.place, receipt.detail);
    int changed = memcmp(book, book_before, sizeof book) != 0;
    memcpy(book_before, book, sizeof book);
    printf("%s: %s%s, parts %" PRIu32 " and %" PRIu32 " cents\n", step, offers_outcome_text(receipt.outcome),
           receipt.outcome == OFFERS_ALREADY_BOOKED && receipt.cancelled ? " and cancelled" : "", receipt.parts[0], receipt.parts[1]);
    printf("    the book has %s; owed to %d: %" PRIu64 ", to %d: %" PRIu64 ", to all: %" PRIu64 "\n", changed ? "changed" : "not changed",
           NORTH, owed_to(NORTH), SOUTH, owed_to(SOUTH), owed_to_all());
}

static void show_price(const char *who, size_t length, offers_question question) {
    offers_quote quote = offers_fare(bundle, length, question);
    stop_if_refused(quote.number, quote.place, quote.detail);
    printf("%s: %" PRIu64 " cents, %" PRIu32 " and %" PRIu32 "\n", who, quote.fare, quote.parts[0], quote.parts[1]);
}

int main(int argc, char **argv) {
    if (argc != 2) {
        fprintf(stderr, "usage: sell BUNDLE\n");
        return 2;
    }
    size_t length = read_bundle(argv[1]);
    offers_judgement judgement = offers_verdict(bundle, length);
    stop_if_refused(judgement.number, judgement.place, judgement.detail);
    printf("the bundle is accepted, with %" PRIu64 " records\n", judgement.records);

    offers_question ticket = {
        .offer = 42,
        .day = 20240615,
        .persons = 3,
        .cards = {RAILCARD},
        .count = 2,
        .legs = {{.railway = NORTH, .fare = 1010}, {.railway = SOUTH, .fare = 500}},
    };
    show_price("the ticket with the railcard", length, ticket);
    ticket.cards[1] = MEMBERS_CARD;
    show_price("the ticket with both cards", length, ticket);

    offers_receipt sold = offers_sale(book, OFFERS_BOOK_WORDS, bundle, length, TILL, SEQUENCE, ticket);
    show("sale", sold);

    puts("the signal is lost before the answer arrives: the till sends the sale again");
    offers_receipt again = offers_sale(book, OFFERS_BOOK_WORDS, bundle, length, TILL, SEQUENCE, ticket);
    show("sale", again);

    offers_receipt cancelled = offers_cancel(book, OFFERS_BOOK_WORDS, TILL, SEQUENCE);
    show("cancel", cancelled);

    puts("a late copy of the sale arrives");
    offers_receipt late = offers_sale(book, OFFERS_BOOK_WORDS, bundle, length, TILL, SEQUENCE, ticket);
    show("sale", late);
    return 0;
}
