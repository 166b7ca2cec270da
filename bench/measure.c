#include "measure.h"

#include <stdio.h>
#include <stdlib.h>
#include <time.h>

/* Seconds from which on a first call, with the caches yet to fill, counts like any other. */
static const double LONG_CALL = 0.1;

static double now(void) {
    struct timespec t;
    clock_gettime(CLOCK_PROCESS_CPUTIME_ID, &t);
    return (double)t.tv_sec + (double)t.tv_nsec / 1e9;
}

/* What reading the clock costs by itself, found once. */
static double cost_of_clock(void) {
    static double least = -1;
    if (least >= 0) return least;
    least = 1;
    for (int k = 0; k < 1000; k++) {
        double began = now(), took = now() - began;
        if (took < least) least = took;
    }
    return least;
}

static double mean_of(int calls, action *before, action *work, void *with) {
    double sum = 0;
    for (int k = 0; k < calls; k++) {
        if (before != NULL) before(with);
        double began = now();
        work(with);
        sum += now() - began - cost_of_clock();
    }
    return sum / calls;
}

double time_of(int runs, int calls, action *before, action *work, void *with) {
    double best = mean_of(calls, before, work, with);
    for (int run = 1; run < runs; run++) {
        double mean = mean_of(calls, before, work, with);
        if (mean < best) best = mean;
    }
    return best;
}

static int calls_in_time(double once) { return once > 0.01 ? 1 : (int)(0.01 / (once > 1e-6 ? once : 1e-6)); }

int calls_for(action *before, action *work, void *with) { return calls_in_time(mean_of(1, before, work, with)); }

double best_time(int runs, action *work, void *with) {
    double first = mean_of(1, NULL, work, with);
    if (first < LONG_CALL) return time_of(runs, calls_in_time(first), NULL, work, with);
    if (runs == 1) return first;
    double others = time_of(runs - 1, 1, NULL, work, with);
    return first < others ? first : others;
}

/* ---- rows */

static void heading(const char *title, const char *engine, const char *other) {
    printf("\n%s\n%-44s %13s  %-22s %13s %8s\n", title, "", engine, "beside", other, "ratio");
}

void tell_heading(const char *title) { heading(title, "engine, us", "its time, us"); }

void tell_heading_of_bytes(const char *title) { heading(title, "engine, bytes", "its bytes"); }

static void tell_row(const char *what, int decimals, double engine, const char *other_name, double other) {
    double ratio = engine / other;
    printf("%-44s %13.*f  %-22s %13.*f %8.*f\n", what, decimals, engine, other_name, decimals, other, ratio < 0.1 ? 5 : 2, ratio);
    fflush(stdout);
}

void tell(const char *what, double engine, const char *other_name, double other) { tell_row(what, 2, engine * 1e6, other_name, other * 1e6); }

void tell_bytes(const char *what, size_t engine, const char *other_name, size_t other) {
    tell_row(what, 0, (double)engine, other_name, (double)other);
}

void demand(int holds, const char *what) {
    if (holds) return;
    printf("FAILED: %s\n", what);
    exit(1);
}
