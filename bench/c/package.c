/* Reads the text of a package: its names line, value lines and empty line, and where its payload lies. */
#include "text.h"

#include <string.h>

enum { ACTION, CLUSTER, VERSION, PAYLOAD, SUM, NEEDS, LEAST, NAME_COUNT };
static const char *const NAMES[] = { "action", "cluster", "version", "payload", "sum", "needs", "least" };

/* Reads the word of an action. */
static bool read_change(struct field field, enum change *change)
{
    static const char *const WORDS[] = { "install", "update", "remove" };
    for (int i = 0; i < 3; i++)
        if (c_is_word(field, WORDS[i])) {
            *change = (enum change)i;
            return true;
        }
    return false;
}

/* Puts a need behind the others; the lines leave room for it. */
static void put_need(struct cluster *c, bool filled, struct need need)
{
    if (filled)
        c->needs[c->need_count++] = need;
}

/* Reads the first value line into the action, the payload's count and the sum. */
static bool read_heading(const struct line *line, const size_t *columns, struct package_text *text)
{
    struct cluster *c = &text->action.cluster;
    struct need need;
    bool filled;
    if (!read_change(line->fields[columns[ACTION]], &text->action.change))
        return false;
    if (!c_read_number(line->fields[columns[CLUSTER]], UINT32_MAX, &c->part) || c->part == 0)
        return false;
    if (!c_read_number(line->fields[columns[PAYLOAD]], PAYLOAD_MOST, &text->count))
        return false;
    if (!c_read_number(line->fields[columns[SUM]], SUM_MOST, &text->sum))
        return false;
    if (!c_read_need(line->fields[columns[NEEDS]], line->fields[columns[LEAST]], &filled, &need))
        return false;
    if (text->action.change == REMOVE)
        return line->fields[columns[VERSION]].length == 0 && text->count == 0 && !filled;
    put_need(c, filled, need);
    return c_read_version(line->fields[columns[VERSION]], &c->version);
}

/* Reads a value line behind the first, which has a need and nothing else. */
static bool read_further(const struct line *line, const size_t *columns, struct cluster *c)
{
    struct need need;
    bool filled;
    for (int name = ACTION; name <= SUM; name++)
        if (line->fields[columns[name]].length > 0)
            return false;
    if (!c_read_need(line->fields[columns[NEEDS]], line->fields[columns[LEAST]], &filled, &need))
        return false;
    put_need(c, filled, need);
    return filled;
}

/* Reads the lines up to the empty one and gives the place behind it. */
static bool read_lines(const uint8_t *bytes, size_t length, size_t *at, struct package_text *text)
{
    struct line line;
    size_t columns[NAME_COUNT];
    if (!c_read_line(bytes, length, at, &line) || !c_find_columns(&line, NAMES, NAME_COUNT, columns))
        return false;
    if (!c_read_line(bytes, length, at, &line) || line.count != NAME_COUNT || !read_heading(&line, columns, text))
        return false;
    int further = text->action.change == REMOVE ? 0 : 3;
    while (c_read_line(bytes, length, at, &line)) {
        if (line.count == 1 && line.fields[0].length == 0)
            return true;
        if (further-- == 0 || line.count != NAME_COUNT || !read_further(&line, columns, &text->action.cluster))
            return false;
    }
    return false;
}

/* Reads the text of a package in its area. */
struct package_text c_read_package(const uint8_t *bytes, size_t length)
{
    struct package_text text;
    size_t at = 0;
    memset(&text, 0, sizeof text);
    if (!read_lines(bytes, length, &at, &text))
        text.refusal = INVALID_MANIFEST;
    else if (length - at != text.count)
        text.refusal = PACKAGE_INCONSISTENT;
    text.start = (uint32_t)at;
    return text;
}
