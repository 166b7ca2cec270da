/* The clock, and the rows that are printed. */
#ifndef MEASURE_H
#define MEASURE_H

#include <stddef.h>

typedef void action(void *with);

/* The time of one call: the mean of `calls` calls, the best of `runs` such means, in seconds of the processor, which other work on the machine
 * disturbs least. `before`, which may be NULL, is done before each call and not timed. */
double time_of(int runs, int calls, action *before, action *work, void *with);

/* Calls that take about a hundredth of a second together. */
int calls_for(action *before, action *work, void *with);

/* The best of `runs` such times, with as many calls as that makes; of a long call its first counts as a run. */
double best_time(int runs, action *work, void *with);

/* One row: what was done, the engine's time, what it is compared with and its time, and the engine's time over that. */
void tell_heading(const char *title);
void tell(const char *what, double engine, const char *other_name, double other);

/* The same of bytes in place of times. */
void tell_heading_of_bytes(const char *title);
void tell_bytes(const char *what, size_t engine, const char *other_name, size_t other);

/* Ends the program where the two sides disagree. */
void demand(int holds, const char *what);

#endif
