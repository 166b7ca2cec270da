/* The sales book beside SQLite in memory: books [RUNS]. */
#include "bundles.h"
#include "ledger.h"
#include "measure.h"

#include <stdio.h>
#include <stdlib.h>
#include <string.h>

enum { FULL = 255, CALLS = 300, RAILWAYS = 12, TILL = 7 };

static struct bundle bundle;

/* The same sales on both sides. The last one made is the ticket that is timed, under the next sequence. */
struct sides {
    uint32_t book[OFFERS_BOOK_WORDS], kept[OFFERS_BOOK_WORDS];
    struct ledger *ledger;
    uint64_t entries, cancelled, sequence;
    offers_question ticket;
    uint32_t parts[8];
};

static struct sides sides;

/* ---- tickets and sales */

/* One to eight legs by chance, with none to four cards, of which the first has records. */
static offers_question random_ticket(void) {
    offers_question q = {.offer = 1, .day = BUNDLE_DAY, .persons = 1 + chance(9), .count = 1 + chance(8)};
    uint32_t cards = chance(5);
    for (uint32_t k = 0; k < cards; k++) q.cards[k] = 1 + k;
    for (uint32_t k = 0; k < q.count; k++) q.legs[k] = (offers_leg){1 + chance(RAILWAYS), 100 + chance(9900)};
    return q;
}

/* Four legs, as a ticket of the middle. */
static offers_question timed_ticket(void) {
    offers_question q = {.offer = 1, .day = BUNDLE_DAY, .persons = 2, .cards = {1}, .count = 4};
    for (uint32_t k = 0; k < q.count; k++) q.legs[k] = (offers_leg){1 + k, 1010};
    return q;
}

static void price(offers_question ticket, uint32_t parts[8]) {
    offers_quote quote = offers_fare(bundle.bytes, bundle.length, ticket);
    demand(quote.number == 0, "a ticket made to be priced is not");
    memcpy(parts, quote.parts, sizeof quote.parts);
}

static offers_receipt book_sale(uint64_t sequence, offers_question ticket) {
    return offers_sale(sides.book, OFFERS_BOOK_WORDS, bundle.bytes, bundle.length, TILL, sequence, ticket);
}

/* ---- the same answers */

static void demand_same(offers_receipt engine, offers_receipt ledger) {
    demand(engine.number == ledger.number && engine.outcome == ledger.outcome && engine.cancelled == ledger.cancelled, "a receipt differs from SQLite's");
    demand(memcmp(engine.parts, ledger.parts, sizeof engine.parts) == 0, "the parts of a receipt differ from SQLite's");
}

static void sell_on_both(uint64_t sequence, offers_question ticket) {
    uint32_t parts[8];
    price(ticket, parts);
    demand_same(book_sale(sequence, ticket), ledger_sale(sides.ledger, TILL, sequence, &ticket, parts));
}

static void cancel_on_both(uint64_t sequence) {
    demand_same(offers_cancel(sides.book, OFFERS_BOOK_WORDS, TILL, sequence), ledger_cancel(sides.ledger, TILL, sequence));
}

static void compare_balances(void) {
    for (uint32_t railway = 1; railway <= RAILWAYS + 1; railway++)
        demand(offers_balance(sides.book, OFFERS_BOOK_WORDS, railway).amount == ledger_balance(sides.ledger, railway), "a balance differs from SQLite's");
    demand(offers_total(sides.book, OFFERS_BOOK_WORDS).amount == ledger_total(sides.ledger), "the total differs from SQLite's");
}

/* Every step that is timed later, once, with the balances after each. */
static void compare_steps(void) {
    sell_on_both(sides.sequence, sides.ticket);
    compare_balances();
    sell_on_both(sides.sequence, sides.ticket);
    cancel_on_both(sides.sequence);
    compare_balances();
    cancel_on_both(sides.sequence);
    sell_on_both(sides.sequence, sides.ticket);
    compare_balances();
    memcpy(sides.book, sides.kept, sizeof sides.book);
    ledger_forget(sides.ledger, TILL, sides.sequence);
    compare_balances();
}

static void fill(uint64_t entries) {
    memset(sides.book, 0, sizeof sides.book);
    sides.ledger = open_ledger();
    for (uint64_t k = 1; k <= entries; k++) {
        sell_on_both(k, random_ticket());
        if (k % 8 == 0) cancel_on_both(k);
    }
    memcpy(sides.kept, sides.book, sizeof sides.book);
    sides.entries = entries;
    sides.sequence = entries + 1;
    sides.ticket = timed_ticket();
    price(sides.ticket, sides.parts);
    compare_balances();
    compare_steps();
}

/* ---- the times; where a call changes something, it is put back before each call */

static volatile uint64_t seen;

static void restore_book(void *with) {
    (void)with;
    memcpy(sides.book, sides.kept, sizeof sides.book);
}

static void engine_sale(void *with) {
    (void)with;
    seen = book_sale(sides.sequence, sides.ticket).outcome;
}

static void forget(void *with) {
    (void)with;
    ledger_forget(sides.ledger, TILL, sides.sequence);
}

static void sqlite_sale(void *with) {
    (void)with;
    seen = ledger_sale(sides.ledger, TILL, sides.sequence, &sides.ticket, sides.parts).outcome;
}

static void engine_cancel(void *with) {
    (void)with;
    seen = offers_cancel(sides.book, OFFERS_BOOK_WORDS, TILL, sides.entries).outcome;
}

static void revive(void *with) {
    (void)with;
    ledger_revive(sides.ledger, TILL, sides.entries);
}

static void sqlite_cancel(void *with) {
    (void)with;
    seen = ledger_cancel(sides.ledger, TILL, sides.entries).outcome;
}

static void engine_balance(void *with) {
    (void)with;
    seen = offers_balance(sides.book, OFFERS_BOOK_WORDS, 1).amount;
}

static void sqlite_balance(void *with) {
    (void)with;
    seen = ledger_balance(sides.ledger, 1);
}

static void engine_total(void *with) {
    (void)with;
    seen = offers_total(sides.book, OFFERS_BOOK_WORDS).amount;
}

static void sqlite_total(void *with) {
    (void)with;
    seen = ledger_total(sides.ledger);
}

static void compare(int runs, const char *call, action *engine_before, action *engine, action *sqlite_before, action *sqlite) {
    char what[80];
    snprintf(what, sizeof what, "%s, %u entries", call, (unsigned)sides.entries);
    double took = time_of(runs, CALLS, engine_before, engine, NULL);
    tell(what, took, "SQLite", time_of(runs, CALLS, sqlite_before, sqlite, NULL));
}

/* A cancel is of the last entry; of an empty book, of an unknown number. */
static void compare_at(int runs, uint64_t entries) {
    fill(entries);
    compare(runs, "sale of 4 legs", restore_book, engine_sale, forget, sqlite_sale);
    compare(runs, "that sale sent again", NULL, engine_sale, NULL, sqlite_sale);
    restore_book(NULL);
    forget(NULL);
    compare(runs, entries == 0 ? "cancel, unknown" : "cancel", restore_book, engine_cancel, revive, sqlite_cancel);
    restore_book(NULL);
    revive(NULL);
    compare(runs, "balance", NULL, engine_balance, NULL, sqlite_balance);
    compare(runs, "total", NULL, engine_total, NULL, sqlite_total);
    compare_balances();
    close_ledger(sides.ledger);
}

int main(int argc, char **argv) {
    int runs = argc > 1 ? atoi(argv[1]) : 3;
    make_bundle(&bundle, MIXED, 2715);
    tell_heading("The sales book");
    printf("A new sale judges and prices from a bundle of %zu bytes; SQLite is handed the parts.\n", bundle.length);
    compare_at(runs, 0);
    compare_at(runs, FULL);
    puts("The same receipts, balances and totals on both sides.");
    return 0;
}
