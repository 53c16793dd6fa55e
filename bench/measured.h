/* What the proved code exports and this program measures, beside wozkindu_load_and_run. A slice is a pointer and a number of elements. */
#ifndef BENCH_MEASURED_H
#define BENCH_MEASURED_H

#include "../include/wozkindu.h"

/* Load, and then each call of the list, which are of the twelve, with its own check of soundness. */
uint32_t measured_calls(const uint8_t *list, size_t list_length, uint32_t first, uint8_t *store, size_t store_length, const uint32_t *words,
    size_t word_count, const uint8_t *bytes, size_t byte_count, uint32_t *answers, size_t room);

/* Load alone. */
uint32_t measured_load(const uint8_t *list, size_t list_length, uint32_t first, uint8_t *store, size_t store_length);

uint32_t measured_sum(const uint8_t *bytes, size_t length);
uint32_t measured_read_package(const uint8_t *area, size_t length);
size_t measured_needs_met(const uint8_t *list, size_t list_length, const uint8_t *turns, size_t turn_count);

#endif
