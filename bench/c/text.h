/* Fields of a line of text: numbers, versions, columns. */
#ifndef BENCH_TEXT_H
#define BENCH_TEXT_H

#include "state.h"

struct field { const uint8_t *bytes; size_t length; };

/* The fields of a line, parted by commas; a names line has at most seven. */
enum { FIELDS_MOST = 7 };
struct line { struct field fields[FIELDS_MOST]; size_t count; };

/* Reads the line at `*at` and goes behind its LF; false where there is no LF or there are more than seven fields. */
bool c_read_line(const uint8_t *text, size_t length, size_t *at, struct line *line);

bool c_is_word(struct field field, const char *word);
bool c_read_number(struct field field, uint32_t most, uint32_t *number);
bool c_read_version(struct field field, struct version *version);

/* Reads the two fields of a need: *filled says whether there is one. */
bool c_read_need(struct field part, struct field least, bool *filled, struct need *need);

/* Finds at which column each of the names stands; false unless the line has each once and nothing else. */
bool c_find_columns(const struct line *line, const char *const *names, size_t count, size_t *columns);

#endif
