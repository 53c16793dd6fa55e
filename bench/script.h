/* Cluster lists, packages and lists of calls as texts and rows. */
#ifndef BENCH_SCRIPT_H
#define BENCH_SCRIPT_H

#include "c/state.h"

/* A growing text. */
struct text { uint8_t *bytes; size_t length, room; };

/* A growing list of calls: rows of six words and the bytes of their blocks. */
struct script { uint32_t *words; size_t word_count, word_room; struct text blocks; };

void text_add(struct text *text, const char *format, ...);
void text_add_bytes(struct text *text, const uint8_t *bytes, size_t length);
void text_clear(struct text *text);

void script_clear(struct script *script);
void script_call(struct script *script, enum call call, uint32_t first);
void script_block(struct script *script, uint32_t id, uint32_t counter, size_t start, size_t length);
struct list script_list(const struct script *script);

/* A cluster list of `count` clusters 10, 20, .. in version 1.0.0.0, each with `needs` needs of the clusters before it, in a circle; all are
   met. Five names, the last cluster stays. */
void write_list(struct text *text, size_t count, size_t needs);

/* The longest list that can be read: every number has all its digits, every need a line of its own. */
void write_longest_list(struct text *text);

/* A package: an install or update of a part to a version, or a remove, with so many payload bytes and needs. */
struct package_plan { enum change change; uint32_t part, version; size_t payload, needs; bool wrong_sum; };
void write_package(struct text *text, struct package_plan plan);

#endif
