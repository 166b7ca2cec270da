/* The verdict and the fare by the rules of the scope document, written plainly in C: what the engine is compared with. */
#ifndef VALIDATOR_H
#define VALIDATOR_H

#include "../include/offers.h"

offers_judgement plain_verdict(const uint8_t *bundle, size_t length);
offers_quote plain_fare(const uint8_t *bundle, size_t length, offers_question question);

/* Shared by both: a field as a number, -1 where it is none; whether a number YYYYMMDD is a day; periods; one record after the other. */
enum { PLAIN_MARK = 2 };
struct plain_table;
extern const struct plain_table PLAIN_CO, PLAIN_RE, PLAIN_AR, PLAIN_ME;
long plain_number(const uint8_t *record, size_t start, size_t length);
int plain_is_day(long day);
int plain_holds_day(const struct plain_table *table, const uint8_t *record, long day);
int plain_share_day(const struct plain_table *table, const uint8_t *record, const uint8_t *other);
/* The table whose mark stands here, NULL if none does. */
const struct plain_table *plain_table_at(const uint8_t *bytes, size_t left);
/* Bytes of a record with its mark. */
size_t plain_step(const struct plain_table *table);

/* The verdict's two halves, for peers that search in another way: the bundle's length and each record by itself; then, where all are good, the
 * records beside each other. `clashing` is the first record before record i that has its key and shares a day with it, i itself if there is none;
 * `has` is whether a table has what the record wants there. Both are handed `in`. */
struct plain_searches {
    size_t (*clashing)(const void *in, size_t i, const struct plain_table *table, const uint8_t *record);
    int (*has)(const void *in, const struct plain_table *wanted, const uint8_t *record);
};
offers_judgement plain_check_records(const uint8_t *bundle, size_t length);
offers_judgement plain_check_together(const uint8_t *bundle, size_t length, struct plain_searches by, const void *in);

#endif
