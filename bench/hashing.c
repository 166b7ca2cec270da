#include "hashing.h"
#include "validator.h"

#include <stdlib.h>
#include <string.h>

enum { OFFER = 5, RAILWAY = 4, CODE = 3, KEY_AT = 4, CODE_AT = 13, LEAST_BITS = 4 };

/* Open addressing. A name is never 0, so 0 marks an empty slot; `record` is the last noted that has the name. */
struct slot {
    uint64_t name;
    size_t record;
};

/* A record's body, and the last one before it with its key, itself if there is none. */
struct chained {
    const uint8_t *body;
    size_t earlier;
};

/* `chain` has all records, those of one key chained from the last to the first. */
struct names {
    struct slot *slots;
    struct chained *chain;
    unsigned bits;
};

/* ---- names: a table, how many digits of a key, and the digits as a number, which is below 2^40 */

static uint64_t number_of(const struct plain_table *table) { return table == &PLAIN_CO ? 1 : table == &PLAIN_RE ? 2 : table == &PLAIN_AR ? 3 : 4; }

static uint64_t more_digits(uint64_t value, const uint8_t *digits, size_t count) {
    for (size_t k = 0; k < count; k++) value = value * 10 + (uint64_t)(digits[k] - '0');
    return value;
}

static uint64_t name_of(const struct plain_table *table, size_t count, uint64_t digits) { return (number_of(table) * 16 + count) << 40 | digits; }

static uint64_t name_at(const struct plain_table *table, size_t count, const uint8_t *digits) {
    return name_of(table, count, more_digits(0, digits, count));
}

/* ---- the table */

/* The slot of a name, or the empty one where it would stand. */
static struct slot *slot_of(const struct names *names, uint64_t name) {
    size_t mask = ((size_t)1 << names->bits) - 1, at = (size_t)(name * 0x9E3779B97F4A7C15u >> (64 - names->bits));
    while (names->slots[at].name != 0 && names->slots[at].name != name) at = (at + 1) & mask;
    return &names->slots[at];
}

static int is_noted(const struct names *names, uint64_t name) { return slot_of(names, name)->name != 0; }

/* The record that was noted before under the name, this one if none was. */
static size_t note(struct names *names, uint64_t name, size_t record) {
    struct slot *slot = slot_of(names, name);
    size_t earlier = slot->name == 0 ? record : slot->record;
    *slot = (struct slot){name, record};
    return earlier;
}

/* A record has up to three names: at most three quarters of the slots are taken. */
static struct names room_for(size_t records) {
    struct names names = {NULL, malloc((records + 1) * sizeof *names.chain), LEAST_BITS};
    while ((size_t)1 << names.bits < 4 * records) names.bits++;
    names.slots = calloc((size_t)1 << names.bits, sizeof *names.slots);
    if (names.chain == NULL || names.slots == NULL) abort();
    return names;
}

/* By its key; but for RE by its offer; AR by offer and railway too, which is the key of CO and ME. Returns the last one before it with its key. */
static size_t note_record(struct names *names, const struct plain_table *table, const uint8_t *record, size_t i) {
    const uint8_t *key = record + KEY_AT;
    if (table == &PLAIN_RE) return note(names, name_at(table, CODE, key), i);
    uint64_t offer = more_digits(0, key, OFFER), both = more_digits(offer, key + OFFER, RAILWAY);
    note(names, name_of(table, OFFER, offer), i);
    size_t earlier = note(names, name_of(table, OFFER + RAILWAY, both), i);
    if (table != &PLAIN_AR) return earlier;
    return note(names, name_of(table, OFFER + RAILWAY + CODE, more_digits(both, key + OFFER + RAILWAY, CODE)), i);
}

static struct names names_of(const uint8_t *bundle, size_t length, size_t records) {
    struct names names = room_for(records);
    size_t i = 0;
    for (size_t at = 0; at < length; i++) {
        const struct plain_table *table = plain_table_at(bundle + at, length - at);
        const uint8_t *body = bundle + at + PLAIN_MARK;
        names.chain[i] = (struct chained){body, note_record(&names, table, body, i)};
        at += plain_step(table);
    }
    return names;
}

/* ---- both searches */

static size_t clashing(const void *in, size_t i, const struct plain_table *table, const uint8_t *record) {
    const struct chained *chain = ((const struct names *)in)->chain;
    size_t first = i;
    for (size_t j = i; chain[j].earlier != j;) {
        j = chain[j].earlier;
        if (plain_share_day(table, record, chain[j].body)) first = j;
    }
    return first;
}

/* A railway is served by its own record or by the one for all railways, all railways by any record of the offer. */
static int has(const void *in, const struct plain_table *wanted, const uint8_t *record) {
    const uint8_t *key = record + KEY_AT;
    if (wanted == &PLAIN_RE) return is_noted(in, name_at(wanted, CODE, record + CODE_AT));
    if (wanted == &PLAIN_CO || memcmp(key + OFFER, "0000", 4) == 0) return is_noted(in, name_at(wanted, OFFER, key));
    if (is_noted(in, name_at(wanted, OFFER + RAILWAY, key))) return 1;
    return is_noted(in, name_of(wanted, OFFER + RAILWAY, more_digits(0, key, OFFER) * 10000));
}

offers_judgement hashed_verdict(const uint8_t *bundle, size_t length) {
    offers_judgement alone = plain_check_records(bundle, length);
    if (alone.number != 0) return alone;
    struct names names = names_of(bundle, length, alone.records);
    offers_judgement together = plain_check_together(bundle, length, (struct plain_searches){clashing, has}, &names);
    free(names.slots);
    free(names.chain);
    return together;
}
