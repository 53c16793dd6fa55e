/* Compares the answers of the proved code with those of the C version. Each function gives the number of differences and says what
   differs. */
#ifndef BENCH_COMPARE_H
#define BENCH_COMPARE_H

#include "script.h"

/* One list of calls from a Load: by wozkindu_load_and_run and in C, and by measured_calls if no old call is in it, with so much room for
   answers. */
size_t compare_list(const char *name, struct text text, uint32_t first, size_t store_length, struct list list, size_t room);

/* How often each kind of answer, each refusal, each number for a whole list and a list without an old call was seen. */
struct seen { size_t calls, kinds[OLD_ANSWER + 1], refusals[STAYS + 1], made, bad_loads, malformed, short_answers, of_the_twelve; };
void print_seen(const struct seen *seen);

/* Generated lists of calls, and generated texts of packages and lists, from a fixed seed. */
size_t compare_generated_lists(size_t count, struct seen *seen);
size_t compare_generated_texts(size_t count);

#endif
