/* The verdict on a bundle made to defeat the engine's short cuts, beside plain C of the same rules, without and with a hash table:
 * defeating [RUNS]. */
#include "measure.h"
#include "peers.h"

#include <stdio.h>
#include <stdlib.h>

/* What the short cuts are made of, as crates/seen/src and crates/bundle/src have them for a bundle of this size. A number is made of digits, their
 * bytes to the base BASE, and of a table. The places of the records before one are kept in a table of SLOTS: from the home of its number a record
 * passes all slots to the first empty one, is compared with the records whose tag is its own, and is put there. A link looks first where a hint
 * says, by the number of its offer or code: it passes over up to TRIES slots that a tag shows to be others', from number % HINTS on and each STRIDE
 * further, and believes the one behind them. Records take empty slots as they come; a link that its hint does not help looks at some records from
 * where the last of its kind was found, then walks from the start, and puts what it finds into that slot. */
enum { BASE = 19, TABLE_STEP = 1000003, SLOTS = 26003, TAGS = 15, HINTS = 12288, TRIES = 16, STRIDE = 509 };
enum table { CO, RE, AR };

static const uint64_t RANGE = 4294967296, PRIME = 4294967291, FACTOR = 2869860233;

/* Each code has an RE, and OFFERS_EACH CO whose offers start from the same slot as the code. CO that no AR wants come before them and take all that
 * is passed over, so that in the one slot behind code and offers put each other out. The codes are such that share slots, which saves CO. AR go from
 * the last code and the last offer down to the first and again: nearly each link is walked for. Each turn has codes
 * meet other offers, for more keys. The keys of all AR have one tag and few homes, so that each is compared with nearly all before it. */
enum { CODES = 12, OFFERS_EACH = 3, OFFERS = CODES * OFFERS_EACH, TURN = 1000, RAILWAYS = 10000, FEW_HOMES = 2800, KEY = 12, BYTES_OF_AR = 51 };

static const unsigned CODE_LIST[CODES] = {8, 184, 717, 893, 9, 185, 718, 894, 109, 285, 818, 994};
static const struct recipe NO_LINKS = {"", 1, 0, 0, 0, 1, 0, 0};

static struct bundle bundle;

/* ---- numbers and slots */

static uint64_t number_of(enum table table, int digits, uint64_t value) {
    uint64_t number = (uint64_t)table * TABLE_STEP, weight = 1;
    for (int k = 0; k < digits; k++, value /= 10, weight *= BASE) number += weight * ('0' + value % 10);
    return number;
}

static uint64_t key_number(unsigned offer, unsigned railway, unsigned code) {
    return number_of(AR, KEY, offer * (uint64_t)10000000 + railway * 1000 + code);
}

static unsigned home_of(uint64_t number) { return (unsigned)(number % PRIME * FACTOR % RANGE * SLOTS / RANGE); }

static uint8_t tag_of(uint64_t number) { return (uint8_t)(1 + number % TAGS); }

static unsigned slot_of_code(unsigned code) { return (unsigned)(number_of(RE, 3, code) % HINTS); }

/* The first offer above another whose number has this slot. */
static unsigned offer_above(unsigned offer, unsigned slot) {
    do offer++;
    while (number_of(CO, 5, offer) % HINTS != slot);
    demand(offer < 100000, "there are too few offers of a slot");
    return offer;
}

/* The first offer of a slot is for a CO that no AR wants. */
static unsigned wanted_offer(unsigned k) {
    unsigned slot = slot_of_code(CODE_LIST[k % CODES]), offer = offer_above(0, slot);
    for (unsigned n = 0; n <= k / CODES; n++) offer = offer_above(offer, slot);
    return offer;
}

/* ---- the bundle */

/* The slot behind them is left to the RE. */
static void fill_slots(struct bundle *b, uint8_t *filled, unsigned slot) {
    for (int k = 0; k < TRIES; k++, slot = (slot + STRIDE) % HINTS) {
        if (!filled[slot]) add_co(b, NO_LINKS, offer_above(0, slot), 1);
        filled[slot] = 1;
    }
    filled[slot] = 1;
}

static void add_needed(struct bundle *b) {
    uint8_t filled[HINTS] = {0};
    for (unsigned k = 0; k < CODES; k++) fill_slots(b, filled, slot_of_code(CODE_LIST[k]));
    for (unsigned k = 0; k < CODES; k++) add_re(b, CODE_LIST[k]);
    for (unsigned k = 0; k < OFFERS; k++) add_co(b, NO_LINKS, wanted_offer(k), 1);
}

static int is_crowded(uint64_t number) { return home_of(number) < FEW_HOMES && tag_of(number) == 1; }

/* The railway of the next key of an offer and a code, from the last one down. */
static unsigned next_railway(unsigned offer, unsigned code, unsigned *left) {
    while (*left > 0)
        if (is_crowded(key_number(offer, --*left, code))) return *left;
    demand(0, "there are too few keys with this tag and these homes");
    return 0;
}

static void add_discounts(struct bundle *b, size_t size) {
    unsigned offers[OFFERS], left[OFFERS][CODES];
    for (unsigned k = 0; k < OFFERS; k++) {
        offers[k] = wanted_offer(k);
        for (unsigned n = 0; n < CODES; n++) left[k][n] = RAILWAYS;
    }
    for (unsigned i = 0; b->length + BYTES_OF_AR <= size; i++) {
        unsigned k = OFFERS - 1 - i % OFFERS, n = CODES - 1 - (i + i / TURN) % CODES;
        add_ar(b, offers[k], next_railway(offers[k], CODE_LIST[n], &left[k][n]), CODE_LIST[n]);
    }
}

static void make_defeating(struct bundle *b, int needed_last) {
    b->length = b->records = 0;
    add_needed(b);
    size_t needed = b->length;
    if (needed_last) b->length = b->records = 0;
    add_discounts(b, needed_last ? BUNDLE_LIMIT - needed : BUNDLE_LIMIT);
    if (needed_last) add_needed(b);
}

/* ---- how far it is defeated */

static uint64_t number_at(const struct plain_table *table, const uint8_t *record) {
    if (table == &PLAIN_RE) return number_of(RE, 3, (uint64_t)plain_number(record, 5, 3));
    if (table == &PLAIN_CO) return number_of(CO, 9, (uint64_t)plain_number(record, 5, 9));
    return number_of(AR, KEY, (uint64_t)plain_number(record, 5, KEY));
}

/* Puts a record's tag into the first empty slot of its number; with how many records it was compared. */
static size_t put_tag(uint8_t *tags, uint64_t number) {
    unsigned slot = home_of(number);
    size_t compared = 0;
    for (; tags[slot] != 0; slot = (slot + 1) % SLOTS) compared += tags[slot] == tag_of(number);
    tags[slot] = tag_of(number);
    return compared;
}

/* With how many records each of the bundle is compared, on the average. */
static double compared(const struct bundle *b) {
    uint8_t tags[SLOTS] = {0};
    size_t pairs = 0;
    for (size_t at = 0; at < b->length;) {
        const struct plain_table *table = plain_table_at(b->bytes + at, b->length - at);
        pairs += put_tag(tags, number_at(table, b->bytes + at + PLAIN_MARK));
        at += plain_step(table);
    }
    return (double)pairs / (double)b->records;
}

static void compare(int runs, const char *what, int needed_last) {
    make_defeating(&bundle, needed_last);
    printf("%s: %zu records in %zu bytes, each compared with %.0f others for its key\n", what, bundle.records, bundle.length, compared(&bundle));
    tell_verdict(runs, what, &bundle);
}

int main(int argc, char **argv) {
    int runs = argc > 1 ? atoi(argv[1]) : 3;
    tell_heading("A bundle made to defeat the short cuts");
    compare(runs, "RE and CO first", 0);
    compare(runs, "RE and CO last", 1);
    return 0;
}
