/* Valid bundles of a wanted size, damage to them, and the numbers by chance that both use. The same at every run. */
#ifndef BUNDLES_H
#define BUNDLES_H

#include <stddef.h>
#include <stdint.h>

enum { KIB = 1024, BUNDLE_LIMIT = 1024 * KIB, BUNDLE_DAY = 20240615, BUNDLE_CODES = 999 };

struct bundle {
    uint8_t bytes[BUNDLE_LIMIT + 1];
    size_t length, records;
};

/* What each offer of a bundle has: so many CO and ME records, the first for all railways, then railways 1, 2, ..., and for as many railways as
 * `ar` says one AR record of each of `codes` codes. With `own_only` there is no AR and no ME for all railways. Before the offers stand RE
 * records: one a code, or as many as fill `re_percent` of the size. The offers follow each other, or `by_table` their CO, then all AR, then all
 * ME. */
struct recipe {
    const char *name;
    int co, ar, me, re_percent, codes, own_only, by_table;
};

/* FOUR_CARDS has codes 1 to 4: the first three are applied together, two of them at an equal rating, and the fourth alone. */
extern const struct recipe TEXT_HEAVY, CO_HEAVY, AR_HEAVY, MIXED, FOUR_CARDS;

/* As deliveries are, table by table: offers with records for all railways and for three; the same with AR and ME for those three alone; and very
 * many offers with one CO and one AR each. */
extern const struct recipe BY_TABLE, OWN_RAILWAYS, MANY_OFFERS;

/* Those on which the verdict is timed, and the sizes. */
enum { TIMED_RECIPES = 6, TIMED_SIZES = 3 };
extern const struct recipe *const TIMED[TIMED_RECIPES];
extern const size_t TIMED_SIZE[TIMED_SIZES];

/* Fills `size` bytes as far as whole records do, by table as far as whole offers do. Offers count from 1, codes too. The bundle is sorted. */
void make_bundle(struct bundle *b, struct recipe recipe, size_t size);

/* What a made bundle is, in words that stand until the next call. */
const char *words_of(const struct bundle *b, struct recipe recipe, size_t size);

/* Whether the keys of each table rise through the bundle, or stay as they are for some records. */
int is_sorted(const struct bundle *b);

/* The same records in an order by chance. */
void shuffle(struct bundle *b);

/* A bundle in which each key has so many records, one a season: the first from June to November 2024, the next from December to May, and so on. By
 * key the seasons of a key follow each other, by season all records of the next season follow. */
enum order { BY_KEY, BY_SEASON, BY_CHANCE };
void make_seasonal(struct bundle *b, struct recipe recipe, size_t size, unsigned seasons, enum order order);

/* The same records in the same order, each with a key of its own and valid throughout 2024: another code for RE, else another railway. The recipe
 * has one code, and records for all railways. */
void give_own_keys(struct bundle *b, unsigned seasons);

/* The railway that a record gets in this way. */
unsigned own_railway(unsigned railway, unsigned season, unsigned seasons);

/* One record more. Whether a CO needs an AR and an ME is as the recipe has these. */
void add_re(struct bundle *b, unsigned code);
void add_co(struct bundle *b, struct recipe recipe, unsigned offer, unsigned railway);
void add_ar(struct bundle *b, unsigned offer, unsigned railway, unsigned code);

/* The costliest bundle there is: as many AR records as fit beside the one RE and the three CO records that they need, all keys different. Every
 * pair of records is compared; with RE and CO last every search for a link walks the whole bundle, with them first it ends at once. */
void make_costliest(struct bundle *b, int needed_last);

/* The offer of the record in the middle of a made bundle: one to price. */
unsigned middle_offer(const struct bundle *b);

/* Breaks the last field of the last record, which a verdict comes to after all other fields. */
void break_last_field(struct bundle *b);

/* Breaks a bundle in one of several ways, or by luck leaves it good. */
void damage(struct bundle *b);

/* Draws what the AR records say anew: discount, whether it is applied together with others, rating and rounding; or the discount and rounding of the
 * CO records. One in five is then valid on its first day alone. The bundle stays good. */
void draw_cards(struct bundle *b);
void draw_conditions(struct bundle *b);

/* A number below `limit`. */
unsigned chance(unsigned limit);

#endif
