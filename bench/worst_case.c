/* The verdict on the costliest bundle for two nested loops, beside plain C of the same rules, without and with a hash table: worst_case [RUNS].
 *
 * A verdict is one call, so its parts are told apart by three bundles: one with its last field broken stops after the record check, one with RE
 * and CO first finds each link at once, one with them last does all. */
#include "measure.h"
#include "peers.h"

#include <stdio.h>
#include <stdlib.h>
#include <string.h>

static struct bundle broken, needed_first, needed_last;

struct times {
    double check, to_pairs, whole;
};

static struct times times_of(int runs, verdict *by) {
    return (struct times){time_of_verdict(runs, by, &broken, OFFERS_FIELD_BROKEN), time_of_verdict(runs, by, &needed_first, 0),
                          time_of_verdict(runs, by, &needed_last, 0)};
}

/* What is left of a time without a part of it, which may be less than the clock tells. */
static double without(double time, double part) { return time > part ? time - part : 0; }

int main(int argc, char **argv) {
    int runs = argc > 1 ? atoi(argv[1]) : 3;
    make_costliest(&needed_first, 0);
    make_costliest(&needed_last, 1);
    memcpy(&broken, &needed_last, sizeof broken);
    break_last_field(&broken);
    tell_heading("The costliest bundle");
    printf("%zu records in %zu bytes\n", needed_last.records, needed_last.length);
    struct times engine = times_of(runs, offers_verdict), plain = times_of(runs, plain_verdict);
    tell("record check", engine.check, "plain C", plain.check);
    tell("pair search", without(engine.to_pairs, engine.check), "plain C", without(plain.to_pairs, plain.check));
    tell("link search", without(engine.whole, engine.to_pairs), "plain C", without(plain.whole, plain.to_pairs));
    tell("whole verdict", engine.whole, "plain C", plain.whole);
    tell("whole verdict", engine.whole, "C with hash", time_of_verdict(runs, hashed_verdict, &needed_last, 0));
    return 0;
}
