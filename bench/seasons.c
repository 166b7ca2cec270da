/* The verdict on bundles in which each key has several records, one a season, beside as many records of different keys in the same order, both by
 * the engine; then a fare from such bundles: seasons [RUNS]. */
#include "measure.h"
#include "peers.h"

#include <stdio.h>
#include <stdlib.h>
#include <string.h>

enum { KINDS = 5, ORDERS = 3, FEW_RECORDS = 32, TWO_SEASONS = 2, EIGHT_SEASONS = 8 };

/* `small` is a size with at most FEW_RECORDS records, for which the engine has little room. */
static const struct kind {
    const struct recipe *recipe;
    size_t small;
} KIND_LIST[KINDS] = {{&TEXT_HEAVY, 20 * KIB}, {&CO_HEAVY, 5 * KIB}, {&AR_HEAVY, 2 * KIB}, {&MIXED, 6 * KIB}, {&MANY_OFFERS, 4 * KIB}};

static struct bundle seasonal, different;

static void make_both(struct recipe recipe, size_t size, unsigned seasons, enum order order) {
    make_seasonal(&seasonal, recipe, size, seasons, order);
    memcpy(&different, &seasonal, sizeof different);
    give_own_keys(&different, seasons);
    demand(is_sorted(&seasonal) == (order == BY_KEY) && is_sorted(&different) == (order == BY_KEY), "a bundle is not in its order");
}

/* ---- the verdict */

static void compare_verdict(int runs, struct recipe recipe, size_t size, unsigned seasons, enum order order) {
    make_both(recipe, size, seasons, order);
    double took = time_of_verdict(runs, offers_verdict, &seasonal, 0);
    tell(words_of(&seasonal, recipe, size), took, "different keys", time_of_verdict(runs, offers_verdict, &different, 0));
}

static void compare_kind(int runs, struct kind kind, enum order order) {
    compare_verdict(runs, *kind.recipe, kind.small, TWO_SEASONS, order);
    demand(seasonal.records <= FEW_RECORDS, "a small bundle has many records");
    for (int n = 0; n < TIMED_SIZES; n++) compare_verdict(runs, *kind.recipe, TIMED_SIZE[n], TWO_SEASONS, order);
}

static void compare_order(int runs, const char *title, enum order order) {
    tell_heading(title);
    for (int k = 0; k < KINDS; k++) compare_kind(runs, KIND_LIST[k], order);
}

static void compare_eight(int runs) {
    tell_heading("The verdict on eight seasons a key, in an order by chance");
    for (int k = 0; k < KINDS; k++) compare_verdict(runs, *KIND_LIST[k].recipe, BUNDLE_LIMIT, EIGHT_SEASONS, BY_CHANCE);
}

/* ---- a fare, from the records of the winter */

enum { WINTER = 1, WINTER_DAY = 20250115, LEGS = 8 };

struct asked {
    const struct bundle *bundle;
    offers_question question;
    offers_quote quote;
};

static void price(void *with) {
    struct asked *a = with;
    a->quote = offers_fare(a->bundle->bytes, a->bundle->length, a->question);
}

static double time_of_fare(int runs, struct asked *a) { return time_of(runs, calls_for(NULL, price, a), NULL, price, a); }

static offers_question winter_question(unsigned offer) {
    offers_question q = {.offer = offer, .day = WINTER_DAY, .persons = 2, .cards = {1}, .count = LEGS};
    for (uint32_t k = 0; k < LEGS; k++) q.legs[k] = (offers_leg){1 + k, 1010 + 100 * k};
    return q;
}

/* The same question to the same records, once they have keys of their own. */
static offers_question with_own_keys(offers_question q) {
    q.day = BUNDLE_DAY;
    for (uint32_t k = 0; k < LEGS; k++) q.legs[k].railway = own_railway(q.legs[k].railway, WINTER, TWO_SEASONS);
    return q;
}

static unsigned offer_to_price(size_t size) {
    make_seasonal(&seasonal, MIXED, size, TWO_SEASONS, BY_KEY);
    return middle_offer(&seasonal);
}

static void compare_fare(int runs, size_t size, enum order order) {
    static const char *const SAID[ORDERS] = {[BY_KEY] = "by key", [BY_SEASON] = "by season", [BY_CHANCE] = "by chance"};
    offers_question question = winter_question(offer_to_price(size));
    make_both(MIXED, size, TWO_SEASONS, order);
    struct asked winter = {&seasonal, question, {0}}, other = {&different, with_own_keys(question), {0}};
    char what[80];
    snprintf(what, sizeof what, "8 legs, card, %zu bytes, %s", seasonal.length, SAID[order]);
    double took = time_of_fare(runs, &winter);
    tell(what, took, "different keys", time_of_fare(runs, &other));
    demand(winter.quote.number == 0 && memcmp(&winter.quote, &other.quote, sizeof winter.quote) == 0, "the fares differ");
}

int main(int argc, char **argv) {
    int runs = argc > 1 ? atoi(argv[1]) : 3;
    compare_order(runs, "The verdict on summer and winter records, sorted by key", BY_KEY);
    compare_order(runs, "The verdict on summer and winter records, all summers first", BY_SEASON);
    compare_order(runs, "The verdict on summer and winter records, in an order by chance", BY_CHANCE);
    compare_eight(runs);
    tell_heading("A fare from summer and winter records");
    for (enum order order = BY_KEY; order <= BY_CHANCE; order++) {
        compare_fare(runs, 6 * KIB, order);
        compare_fare(runs, 64 * KIB, order);
    }
    return 0;
}
