/* The fare, plainly in C: verdict, limits, and then the legs from the first. */
#include "validator.h"

#include <stdbool.h>
#include <string.h>

enum { CENT = 100000, MOST_LEGS = 8, MOST_CARDS = 4 };

/* ---- the question */

static bool legs_in_limits(const offers_question *q) {
    for (uint32_t k = 0; k < q->count; k++)
        if (q->legs[k].railway < 1 || q->legs[k].railway > 9999 || q->legs[k].fare > 999999) return false;
    return true;
}

/* Used slots come first. */
static bool cards_in_limits(const offers_question *q) {
    for (size_t k = 0; k < MOST_CARDS; k++)
        if (q->cards[k] > 999 || (k > 0 && q->cards[k] != 0 && q->cards[k - 1] == 0)) return false;
    return true;
}

static bool in_limits(const offers_question *q) {
    return q->offer >= 1 && q->offer <= 99999 && plain_is_day(q->day) && q->persons >= 1 && q->persons <= 99 && cards_in_limits(q) &&
           q->count >= 1 && q->count <= MOST_LEGS && legs_in_limits(q);
}

static bool gives_a_card_twice(const offers_question *q) {
    for (size_t k = 1; k < MOST_CARDS && q->cards[k] != 0; k++)
        for (size_t j = 0; j < k; j++)
            if (q->cards[j] == q->cards[k]) return true;
    return false;
}

/* ---- the records of a leg */

/* The record that is valid that day, NULL if none is, and whether there are any. */
struct choice {
    const uint8_t *record;
    bool has_any;
};

/* The offer's one for the railway, or else for all railways: of each key at most one is valid. `code` is not looked at if it is 0. */
static struct choice choose(const uint8_t *bundle, size_t length, const struct plain_table *wanted, const offers_question *q, long railway,
                            long code) {
    struct choice general = {NULL, false};
    for (size_t at = 0; at < length;) {
        const struct plain_table *table = plain_table_at(bundle + at, length - at);
        const uint8_t *record = bundle + at + PLAIN_MARK;
        at += plain_step(table);
        if (table != wanted || plain_number(record, 5, 5) != q->offer || (code != 0 && plain_number(record, 14, 3) != code)) continue;
        long whose = plain_number(record, 10, 4);
        if (whose != railway && whose != 0) continue;
        general.has_any = true;
        if (!plain_holds_day(table, record, q->day)) continue;
        if (whose == railway) return (struct choice){record, true};
        general.record = record;
    }
    return general;
}

static bool persons_fit(const uint8_t *co, long persons) {
    long least = plain_number(co, 115, 2), most = plain_number(co, 117, 2);
    return persons >= least && (most < 0 || persons <= most);
}

/* The first condition that is set and not read, 0 if none is. */
static uint64_t unread_condition(const uint8_t *co) {
    static const unsigned FIELDS[5] = {27, 31, 32, 34, 35}, POSITIONS[5] = {114, 120, 121, 123, 124};
    for (size_t k = 0; k < 5; k++)
        if (co[POSITIONS[k] - 1] == 'Y') return FIELDS[k];
    return 0;
}

/* ---- the amount */

/* An exact amount, in hundred-thousandths of a cent, rounded to cents. */
static uint64_t rounded(uint64_t exact, uint8_t rounding, uint64_t factor) {
    uint64_t unit = factor * CENT;
    switch (rounding) {
    case '+': return (exact + unit - 1) / unit * factor;
    case '-': return exact / unit * factor;
    case '0': return (2 * exact + unit) / (2 * unit) * factor;
    default: return (2 * exact + CENT) / (2 * CENT);
    }
}

static uint64_t reduced(uint64_t amount, const uint8_t *record, size_t discount_at, size_t rounding_at) {
    long discount = plain_number(record, discount_at, 6);
    uint64_t kept = (uint64_t)(CENT - (discount < 0 ? 0 : discount));
    return rounded(amount * kept, record[rounding_at - 1], (uint64_t)plain_number(record, rounding_at + 1, 3));
}

static uint64_t reduced_by_card(uint64_t amount, const uint8_t *ar) { return reduced(amount, ar, 17, 28); }

/* ---- the cards */

/* The records that are applied together, by rating and then by code. */
struct joined {
    const uint8_t *records[MOST_CARDS];
    size_t count;
};

static long rank(const uint8_t *ar) { return 1000 * plain_number(ar, 24, 3) + plain_number(ar, 14, 3); }

static void join(struct joined *joined, const uint8_t *ar) {
    size_t at = joined->count++;
    for (; at > 0 && rank(joined->records[at - 1]) > rank(ar); at--) joined->records[at] = joined->records[at - 1];
    joined->records[at] = ar;
}

static uint64_t reduced_by_all(uint64_t amount, const struct joined *joined) {
    for (size_t k = 0; k < joined->count; k++) amount = reduced_by_card(amount, joined->records[k]);
    return amount;
}

static uint64_t lesser(uint64_t a, uint64_t b) { return a < b ? a : b; }

/* The least of what the records with Y come to together and of what each other one comes to alone. */
static uint64_t after_cards(const uint8_t *bundle, size_t length, const offers_question *q, long railway, const uint8_t *co, uint64_t amount) {
    if (co[122 - 1] != 'Y') return amount;
    struct joined joined = {.count = 0};
    uint64_t least = UINT64_MAX;
    for (size_t k = 0; k < MOST_CARDS && q->cards[k] != 0; k++) {
        const uint8_t *ar = choose(bundle, length, &PLAIN_AR, q, railway, q->cards[k]).record;
        if (ar == NULL) continue;
        if (ar[23 - 1] == 'Y') join(&joined, ar);
        else least = lesser(least, reduced_by_card(amount, ar));
    }
    if (joined.count > 0) least = lesser(least, reduced_by_all(amount, &joined));
    return least == UINT64_MAX ? amount : least;
}

/* ---- the fare */

static offers_quote refused(uint64_t number, uint64_t place, uint64_t detail) { return (offers_quote){number, place, detail, 0, {0}}; }

static offers_quote price(const uint8_t *bundle, size_t length, const offers_question *q) {
    offers_quote quote = {0};
    for (uint32_t k = 0; k < q->count; k++) {
        long railway = q->legs[k].railway;
        struct choice choice = choose(bundle, length, &PLAIN_CO, q, railway, 0);
        const uint8_t *co = choice.record;
        if (!choice.has_any) return refused(OFFERS_NO_CONDITIONS, k, 0);
        if (co == NULL) return refused(OFFERS_DAY_OUTSIDE, k, 0);
        if (!persons_fit(co, q->persons)) return refused(OFFERS_PERSONS_OUTSIDE, k, 0);
        uint64_t unread = unread_condition(co);
        if (unread != 0) return refused(OFFERS_CONDITION_UNREAD, k, unread);
        uint64_t amount = after_cards(bundle, length, q, railway, co, reduced(q->legs[k].fare, co, 128, 134));
        quote.parts[k] = (uint32_t)(amount * q->persons);
        quote.fare += quote.parts[k];
    }
    return quote;
}

offers_quote plain_fare(const uint8_t *bundle, size_t length, offers_question question) {
    offers_judgement judgement = plain_verdict(bundle, length);
    if (judgement.number != 0) return refused(judgement.number, judgement.place, judgement.detail);
    if (!in_limits(&question)) return refused(OFFERS_QUESTION_LIMITS, 0, 0);
    if (gives_a_card_twice(&question)) return refused(OFFERS_CARD_TWICE, 0, 0);
    return price(bundle, length, &question);
}
