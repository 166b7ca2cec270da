/* The verdict beside plain C of the same rules, without and with a hash table, beside reading the bytes once and beside the engine's own record
 * check, which is its verdict on the bundle with its last field broken; then that check beside plain C's: verdicts [RUNS]. */
#include "measure.h"
#include "peers.h"

#include <stdio.h>
#include <stdlib.h>
#include <string.h>

enum { ROUNDS = 6, DAMAGED_EACH = 50, DAMAGED = ROUNDS * TIMED_RECIPES * DAMAGED_EACH };

static struct bundle bundle, broken;

/* ---- the same answers */

/* Of each recipe small ones as they are made, small ones in an order by chance and larger ones in such an order; then with a summer and a winter
 * record a key small ones in both other orders, and with eight records a key larger ones in an order by chance. */
static void make_one_to_damage(unsigned k) {
    struct recipe recipe = *TIMED[k % TIMED_RECIPES];
    size_t small = 6000 + chance(6000), large = 100000 + chance(60000);
    switch (k / TIMED_RECIPES) {
    case 0: make_bundle(&bundle, recipe, small); break;
    case 1: make_bundle(&bundle, recipe, small); shuffle(&bundle); break;
    case 2: make_bundle(&bundle, recipe, large); shuffle(&bundle); break;
    case 3: make_seasonal(&bundle, recipe, 2 * small, 2, BY_KEY); break;
    case 4: make_seasonal(&bundle, recipe, 2 * small, 2, BY_SEASON); break;
    case 5: make_seasonal(&bundle, recipe, large, 8, BY_CHANCE); break;
    }
}

static void compare_on_damaged(void) {
    unsigned found[OFFERS_LINK_MISSING + 1] = {0};
    for (unsigned k = 0; k < DAMAGED; k++) {
        if (k % DAMAGED_EACH == 0) make_one_to_damage(k / DAMAGED_EACH);
        memcpy(&broken, &bundle, sizeof broken);
        damage(&broken);
        found[agreed(&broken).number]++;
    }
    memcpy(&broken, &bundle, sizeof broken);
    broken.length = BUNDLE_LIMIT + 1;
    found[agreed(&broken).number]++;
    printf("The same verdict on %d damaged bundles:", DAMAGED + 1);
    for (unsigned n = 0; n <= OFFERS_LINK_MISSING; n++) printf(" %u of number %u%s", found[n], n, n == OFFERS_LINK_MISSING ? ".\n" : ",");
    for (unsigned n = 0; n <= OFFERS_LINK_MISSING; n++) demand(found[n] > 0, "the damage does not bring out every number");
}

/* ---- the times */

static volatile uint64_t seen;

static void read_once(void *with) {
    const struct bundle *b = with;
    uint64_t sum = 0;
    for (size_t i = 0; i < b->length; i++) sum += b->bytes[i];
    seen = sum;
}

/* A bundle and the same one broken; says what it is. */
static const char *make_both(struct recipe recipe, size_t size) {
    make_bundle(&bundle, recipe, size);
    demand(is_sorted(&bundle), "a bundle made in the order of its keys is not");
    memcpy(&broken, &bundle, sizeof broken);
    break_last_field(&broken);
    return words_of(&bundle, recipe, size);
}

static double time_of_check(int runs, verdict *by) { return time_of_verdict(runs, by, &broken, OFFERS_FIELD_BROKEN); }

/* Returns the engine's time. */
static double compare_at(int runs, struct recipe recipe, size_t size) {
    const char *what = make_both(recipe, size);
    double took = tell_verdict(runs, what, &bundle);
    tell(what, took, "reading once", best_time(runs, read_once, &bundle));
    tell(what, took, "record check", time_of_check(runs, offers_verdict));
    return took;
}

static void compare_check(int runs, struct recipe recipe) {
    const char *what = make_both(recipe, TIMED_SIZE[0]);
    double took = time_of_check(runs, offers_verdict);
    tell(what, took, "plain C", time_of_check(runs, plain_verdict));
}

static void compare_recipe(int runs, struct recipe recipe) {
    double took[TIMED_SIZES];
    for (int k = 0; k < TIMED_SIZES; k++) took[k] = compare_at(runs, recipe, TIMED_SIZE[k]);
    printf("growth of the engine's time, %s: x%.1f from 64 to 256 KiB, x%.1f from 256 KiB to 1 MiB\n", recipe.name, took[1] / took[0],
           took[2] / took[1]);
}

int main(int argc, char **argv) {
    int runs = argc > 1 ? atoi(argv[1]) : 3;
    tell_heading("The verdict");
    compare_on_damaged();
    for (int k = 0; k < TIMED_RECIPES; k++) compare_recipe(runs, *TIMED[k]);
    tell_heading("The record check");
    for (int k = 0; k < TIMED_RECIPES; k++) compare_check(runs, *TIMED[k]);
    return 0;
}
