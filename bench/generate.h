/* Cluster lists, packages and lists of calls by chance, from a fixed seed. */
#ifndef BENCH_GENERATE_H
#define BENCH_GENERATE_H

#include "script.h"

/* Gives a number below a limit. */
uint32_t chance(uint32_t below);

/* Gives a first transfer id: a low one, one of the last four, or now and then 0. */
uint32_t chance_first(void);

void chance_list(struct text *text);
struct package_plan chance_package(void);
void damage(struct text *text, size_t from);

/* A list of calls under construction, of the first calls of enum call, so many: the C version's state after the calls so far says which
   call leads on. */
struct generator { struct state state; struct store store; struct script script; uint32_t call_count; };
void generate(struct generator *g, struct text *text, uint32_t first);

#endif
