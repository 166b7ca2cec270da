/* The stack that each call takes: stack. A call is run on a painted stack, and how deep the paint is gone is what it took, less what a call that
 * does nothing takes. */
#include "../include/offers.h"
#include "bundles.h"
#include "measure.h"

#include <stdio.h>
#include <ucontext.h>

enum { ROOM = 1024 * KIB / 8, LIMIT = 128 * KIB, ENTRIES = 255, TILL = 7, SIZES = 3 };

static const uint64_t PAINT = 0xA5C3F00D5EED1E57u;
static uint64_t painted[ROOM];

static struct bundle bundle;
static uint32_t book[OFFERS_BOOK_WORDS];
static uint64_t number, sequence;

/* ---- the calls, each with the number that it answers with */

static offers_question question(void) {
    offers_question q = {.offer = 1, .day = BUNDLE_DAY, .persons = 2, .cards = {1, 2, 3, 4}, .count = 8};
    for (uint32_t k = 0; k < q.count; k++) q.legs[k] = (offers_leg){1 + k, 1010};
    return q;
}

static void nothing(void) { number = 0; }

static void verdict(void) { number = offers_verdict(bundle.bytes, bundle.length).number; }

static void fare(void) { number = offers_fare(bundle.bytes, bundle.length, question()).number; }

static void sale(void) { number = offers_sale(book, OFFERS_BOOK_WORDS, bundle.bytes, bundle.length, TILL, sequence, question()).number; }

static void cancel(void) { number = offers_cancel(book, OFFERS_BOOK_WORDS, TILL, sequence).number; }

static void balance(void) { number = offers_balance(book, OFFERS_BOOK_WORDS, 1).number; }

static void total(void) { number = offers_total(book, OFFERS_BOOK_WORDS).number; }

static void count(void) { number = offers_count(book, OFFERS_BOOK_WORDS).number; }

static void entry(void) { number = offers_entry(book, OFFERS_BOOK_WORDS, ENTRIES - 1).number; }

static void find(void) { number = offers_find(book, OFFERS_BOOK_WORDS, TILL, sequence).number; }

/* ---- the stack */

static size_t depth_of(void (*call)(void)) {
    static ucontext_t here, there;
    for (size_t k = 0; k < ROOM; k++) painted[k] = PAINT;
    number = 1;
    demand(getcontext(&there) == 0, "there is no second stack");
    there.uc_stack = (stack_t){.ss_sp = painted, .ss_size = sizeof painted};
    there.uc_link = &here;
    makecontext(&there, call, 0);
    demand(swapcontext(&here, &there) == 0, "the second stack cannot be used");
    demand(number == 0, "a call made to be answered is not");
    size_t left = 0;
    while (left < ROOM && painted[left] == PAINT) left++;
    return sizeof painted - left * sizeof *painted;
}

static void tell_depth(const char *call, size_t bytes, void (*run)(void)) {
    char what[80];
    snprintf(what, sizeof what, bytes == 0 ? "%s" : "%s, %zu bytes", call, bytes);
    size_t depth = depth_of(run) - depth_of(nothing);
    tell_bytes(what, depth, "the limit", LIMIT);
    demand(depth < LIMIT, "a call takes more stack than it may");
}

int main(void) {
    static const size_t SIZE_LIST[SIZES] = {4806, 64 * KIB, 1024 * KIB};
    tell_heading_of_bytes("The stack");
    for (int k = 0; k < SIZES; k++) {
        make_bundle(&bundle, FOUR_CARDS, SIZE_LIST[k]);
        shuffle(&bundle);
        sequence = (uint64_t)k + 1;
        tell_depth("verdict", bundle.length, verdict);
        tell_depth("fare, 8 legs, 4 cards", bundle.length, fare);
        tell_depth("sale, 8 legs, 4 cards", bundle.length, sale);
    }
    make_bundle(&bundle, FOUR_CARDS, SIZE_LIST[0]);
    for (; sequence < ENTRIES; sale()) sequence++;
    tell_depth("cancel, 255 entries", 0, cancel);
    tell_depth("balance, 255 entries", 0, balance);
    tell_depth("total, 255 entries", 0, total);
    tell_depth("count, 255 entries", 0, count);
    tell_depth("entry, 255 entries", 0, entry);
    tell_depth("find, 255 entries", 0, find);
    return 0;
}
