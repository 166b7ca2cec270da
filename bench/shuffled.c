/* The verdict on records in an order by chance, beside plain C of the same rules, without and with a hash table: shuffled [RUNS]. */
#include "measure.h"
#include "peers.h"

#include <stdlib.h>

enum { SIZES = 2 };

static struct bundle bundle;

static void compare_at(int runs, struct recipe recipe, size_t size) {
    make_bundle(&bundle, recipe, size);
    shuffle(&bundle);
    demand(!is_sorted(&bundle), "a shuffled bundle is sorted");
    tell_verdict(runs, words_of(&bundle, recipe, size), &bundle);
}

int main(int argc, char **argv) {
    const size_t sizes[SIZES] = {64 * KIB, 1024 * KIB};
    int runs = argc > 1 ? atoi(argv[1]) : 3;
    tell_heading("The verdict, records in an order by chance");
    for (int k = 0; k < TIMED_RECIPES; k++)
        for (int n = 0; n < SIZES; n++) compare_at(runs, *TIMED[k], sizes[n]);
    return 0;
}
