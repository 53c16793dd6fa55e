/* The calls that are measured: for each a list that leads to a state, and behind it turns of calls that come back to where they began. */
#ifndef BENCH_CASES_H
#define BENCH_CASES_H

#include "script.h"

/* How large the state is. */
struct state_size { const char *name; size_t clusters, needs, packages; };
extern const struct state_size LARGE, SMALL;

enum { CALLS_MOST = 12 };

/* A list under construction: the id that the next TransferStart is given, and where the turns begin. */
struct plan { const struct state_size *size; struct script script; uint32_t next_id; size_t set_up_words; };

struct measured_case {
    const char *name;
    void (*build)(struct plan *plan, size_t turns);
    size_t turns, calls;
    size_t copied; /* the bytes of a block that is compared with memcpy, else 0 */
    size_t store_length;
    uint8_t kinds[CALLS_MOST]; /* of each answer of a turn */
};

extern const struct measured_case CASES[];
extern const size_t CASE_COUNT;

#endif
