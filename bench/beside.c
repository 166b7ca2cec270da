/* The engine beside another build of it, called in turn: beside [RUNS]. The other's calls begin with other_. */
#include "measure.h"
#include "peers.h"

#include <stdlib.h>
#include <string.h>

typedef offers_quote fare(const uint8_t *bundle, size_t length, offers_question question);
typedef offers_sum total(const uint32_t *book, size_t words);
verdict other_offers_verdict;
fare other_offers_fare;
total other_offers_total;

struct build {
    verdict *verdict;
    fare *fare;
    total *total;
};

enum { FULL = 255, TILL = 7 };

static struct build this_build = {offers_verdict, offers_fare, offers_total};
static struct build other_build = {other_offers_verdict, other_offers_fare, other_offers_total};
static struct bundle bundle;
static uint32_t book[OFFERS_BOOK_WORDS];
static const offers_question TICKET = {
    .offer = 1,
    .day = BUNDLE_DAY,
    .persons = 2,
    .cards = {1},
    .count = 4,
    .legs = {{1, 1010}, {2, 1010}, {3, 1010}, {4, 1010}},
};

static void judge(void *with) { ((struct build *)with)->verdict(bundle.bytes, bundle.length); }

static void price(void *with) { ((struct build *)with)->fare(bundle.bytes, bundle.length, TICKET); }

static void add_up(void *with) { ((struct build *)with)->total(book, OFFERS_BOOK_WORDS); }

/* ---- the same answers */

static void demand_same_verdict(void) {
    offers_judgement here = offers_verdict(bundle.bytes, bundle.length), there = other_offers_verdict(bundle.bytes, bundle.length);
    demand(here.number == 0 && there.number == 0 && here.records == there.records, "the verdicts differ");
}

static void demand_same_fare(void) {
    offers_quote here = offers_fare(bundle.bytes, bundle.length, TICKET), there = other_offers_fare(bundle.bytes, bundle.length, TICKET);
    demand(here.number == 0 && there.number == 0 && memcmp(here.parts, there.parts, sizeof here.parts) == 0, "the fares differ");
}

static void demand_same_total(void) {
    offers_sum here = offers_total(book, OFFERS_BOOK_WORDS), there = other_offers_total(book, OFFERS_BOOK_WORDS);
    demand(here.number == 0 && there.number == 0 && here.amount == there.amount, "the totals differ");
}

/* ---- the times */

/* Which of the two comes first changes from run to run. */
static void compare(int runs, const char *what, action *work) {
    int calls = calls_for(NULL, work, &other_build);
    double least[2] = {1e9, 1e9};
    for (int k = 0; k < 2 * runs; k++) {
        int is_other = k % 4 == 1 || k % 4 == 2;
        double took = time_of(1, calls, NULL, work, is_other ? &other_build : &this_build);
        if (took < least[is_other]) least[is_other] = took;
    }
    tell(what, least[0], "the other build", least[1]);
}

static void compare_verdict(int runs, struct recipe recipe, size_t size) {
    make_bundle(&bundle, recipe, size);
    demand_same_verdict();
    compare(runs, words_of(&bundle, recipe, size), judge);
}

static void fill_book(void) {
    for (uint64_t sequence = 1; sequence <= FULL; sequence++) {
        offers_receipt receipt = offers_sale(book, OFFERS_BOOK_WORDS, bundle.bytes, bundle.length, TILL, sequence, TICKET);
        demand(receipt.number == 0, "a sale is refused");
    }
}

int main(int argc, char **argv) {
    int runs = argc > 1 ? atoi(argv[1]) : 3;
    tell_heading("The verdict");
    for (int k = 0; k < TIMED_RECIPES; k++)
        for (int n = 0; n < TIMED_SIZES; n++) compare_verdict(runs, *TIMED[k], TIMED_SIZE[n]);
    make_bundle(&bundle, MIXED, 3 * KIB);
    fill_book();
    tell_heading("A fare, and a call that reads a book");
    demand_same_fare();
    compare(runs, "4 legs, card, 3 KiB", price);
    demand_same_total();
    compare(runs, "total, 255 entries", add_up);
    return 0;
}
