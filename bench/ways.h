/* The ways in which a list of calls is made: by the proved code call by call, by its own loop over a list, and in C. */
#ifndef BENCH_WAYS_H
#define BENCH_WAYS_H

#include "script.h"

enum way { IN_C, BY_CALLS, BY_LIST, WAYS };
extern const char *const WAY_NAMES[WAYS];

/* Says whether a list is made this way: measured_calls makes the twelve calls, so a list with an old call is made in the other two. */
bool makes(enum way way, struct list l);

/* Loads and makes a list; gives 0, 20, 256 or 257. */
uint32_t run_way(enum way way, struct text text, uint32_t first, struct store store, struct list l, uint32_t *answers, size_t room);

#endif
