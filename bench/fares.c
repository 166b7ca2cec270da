/* A fare beside plain C of the same rules and beside the verdict that stands in it: fares [RUNS]. */
#include "bundles.h"
#include "measure.h"
#include "validator.h"

#include <stdio.h>
#include <stdlib.h>
#include <string.h>

enum { ASKED = 1200, MOST_CARDS = 4 };

static struct bundle bundle, broken;

/* A small bundle has one offer: 1 RE, 5 CO, 5 AR and 1 ME, or with four codes 4 RE, 5 CO, 20 AR and 1 ME. */
static const size_t SMALL = 2715, SMALL_OF_FOUR = 4806, LARGE = 64 * KIB;

/* Legs on railways 1 to 8; only 1 to 4 have records of their own. The cards come in falling code, so that they have to be put in order. */
static offers_question question_of(unsigned offer, uint32_t legs, uint32_t cards) {
    offers_question q = {.offer = offer, .day = BUNDLE_DAY, .persons = 2, .count = legs};
    for (uint32_t k = 0; k < cards; k++) q.cards[k] = cards - k;
    for (uint32_t k = 0; k < legs; k++) q.legs[k] = (offers_leg){1 + k, 1010 + 100 * k};
    return q;
}

/* ---- the same answers */

static offers_quote agreed(const struct bundle *b, offers_question q) {
    offers_quote engine = offers_fare(b->bytes, b->length, q), plain = plain_fare(b->bytes, b->length, q);
    demand(memcmp(&engine, &plain, sizeof engine) == 0, "the fares of the engine and of plain C differ");
    return engine;
}

/* Up to four of the codes 1 to 5, of which 5 has no record; now and then one twice, one that is too large or one after an empty slot. */
static void draw_question_cards(offers_question *q) {
    uint32_t count = chance(MOST_CARDS + 1), first = chance(5), stride = 1 + chance(4);
    for (uint32_t k = 0; k < count; k++) q->cards[k] = 1 + (first + k * stride) % 5;
    if (chance(8) == 0) q->cards[chance(MOST_CARDS)] = (uint32_t[]){0, 1, 2, 1000}[chance(4)];
}

/* A day in the middle, one at either end of a period, or none that there is. */
static uint32_t random_day(void) {
    static const uint32_t DAYS[] = {20240101, 20240230, 20240531, 20240601, 20241130, 20241201, 20241231, 20250101, 20250531, 20250601};
    return chance(2) ? BUNDLE_DAY : DAYS[chance(sizeof DAYS / sizeof *DAYS)];
}

static offers_question random_question(void) {
    offers_question q = {.offer = 1 + chance(4), .day = random_day(), .persons = chance(8), .count = 1 + chance(8)};
    draw_question_cards(&q);
    for (uint32_t k = 0; k < q.count; k++) q.legs[k] = (offers_leg){1 + chance(6), chance(chance(2) ? 1000000 : 1000)};
    return q;
}

/* A byte of a CO record changed, or none: some of these bundles are still valid, and price otherwise. */
static void change_conditions(struct bundle *b) {
    static const char LIKELY[] = "0123456789YN+-0 ";
    for (size_t at = 442; at < b->length && b->bytes[at] == 'C'; at += 157 + 51)
        if (chance(3) == 0) b->bytes[at + 2 + 112 + chance(43)] = (uint8_t)LIKELY[chance(sizeof LIKELY - 1)];
}

/* Half of the bundles have four codes, whose records are drawn anew. */
static void make_random_bundle(struct bundle *b, unsigned k) {
    make_bundle(b, k % 2 == 0 ? MIXED : FOUR_CARDS, k % 2 == 0 ? 5000 : 10000);
    if (k % 2 == 1) draw_cards(b);
    if (k % 3 == 0) change_conditions(b);
}

/* Summer and winter records that all say something else, in each of the orders. */
static void make_random_seasonal(struct bundle *b, unsigned k) {
    make_seasonal(b, k % 2 == 0 ? MIXED : FOUR_CARDS, k % 2 == 0 ? 10000 : 20000, 2, (enum order)(k % 3));
    draw_cards(b);
    draw_conditions(b);
}

static void compare_on_random(void) {
    unsigned found[OFFERS_CARD_TWICE + 1] = {0}, with_several = 0;
    for (unsigned k = 0; k < ASKED; k++) {
        if (k < ASKED / 2) make_random_bundle(&broken, k);
        else make_random_seasonal(&broken, k);
        offers_question question = random_question();
        uint64_t number = agreed(&broken, question).number;
        found[number]++;
        with_several += number == 0 && question.cards[1] != 0;
    }
    printf("The same fare for %d random questions, %u of them answered, %u with several cards.\n", ASKED, found[0], with_several);
    demand(found[0] > ASKED / 10 && with_several > ASKED / 20, "hardly a random question is answered");
    demand(found[OFFERS_NO_CONDITIONS] > 0 && found[OFFERS_DAY_OUTSIDE] > 0, "no random question is without conditions, or none on that day");
}

/* ---- the times */

struct asked {
    offers_question question;
    uint64_t fare;
};

static void engine(void *with) {
    struct asked *a = with;
    a->fare = offers_fare(bundle.bytes, bundle.length, a->question).fare;
}

static void plain(void *with) {
    struct asked *a = with;
    a->fare = plain_fare(bundle.bytes, bundle.length, a->question).fare;
}

static void verdict(void *with) {
    struct asked *a = with;
    a->fare = offers_verdict(bundle.bytes, bundle.length).records;
}

static double best(int runs, action *work, struct asked *a) { return time_of(runs, calls_for(NULL, work, a), NULL, work, a); }

static void compare_question(int runs, uint32_t legs, uint32_t cards) {
    static const char *const SAID[MOST_CARDS + 1] = {"no card", "card", "2 cards", "3 cards", "4 cards"};
    struct asked a = {question_of(middle_offer(&bundle), legs, cards), 0};
    demand(agreed(&bundle, a.question).number == 0, "a question made to be answered is not");
    char what[80];
    snprintf(what, sizeof what, "%u leg%s, %s, %zu bytes", legs, legs == 1 ? "" : "s", SAID[cards], bundle.length);
    double took = best(runs, engine, &a);
    tell(what, took, "plain C", best(runs, plain, &a));
    tell(what, took, "the engine's verdict", best(runs, verdict, &a));
}

static void compare_bundle(int runs, size_t size) {
    make_bundle(&bundle, MIXED, size);
    for (uint32_t legs = 1; legs <= 8; legs += 7)
        for (uint32_t cards = 0; cards <= 1; cards++) compare_question(runs, legs, cards);
}

static void compare_several(int runs, size_t size) {
    make_bundle(&bundle, FOUR_CARDS, size);
    compare_question(runs, 8, 1);
    compare_question(runs, 8, MOST_CARDS);
}

int main(int argc, char **argv) {
    int runs = argc > 1 ? atoi(argv[1]) : 3;
    tell_heading("A fare");
    compare_on_random();
    compare_bundle(runs, SMALL);
    compare_bundle(runs, LARGE);
    compare_several(runs, SMALL_OF_FOUR);
    compare_several(runs, LARGE);
    return 0;
}
