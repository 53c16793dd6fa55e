/* Fields of a line of text. */
#include "text.h"

#include <string.h>

bool c_read_line(const uint8_t *text, size_t length, size_t *at, struct line *line)
{
    size_t start = *at;
    line->count = 0;
    for (size_t i = *at; i < length; i++) {
        if (text[i] != ',' && text[i] != '\n')
            continue;
        if (line->count == FIELDS_MOST)
            return false;
        line->fields[line->count++] = (struct field){ text + start, i - start };
        start = i + 1;
        if (text[i] == '\n') {
            *at = start;
            return true;
        }
    }
    return false;
}

bool c_is_word(struct field field, const char *word)
{
    return field.length == strlen(word) && memcmp(field.bytes, word, field.length) == 0;
}

/* Reads a number without leading zeros from the start of some bytes; gives the number of its digits, 0 where there is none. */
static size_t read_digits(const uint8_t *bytes, size_t length, uint32_t most, uint32_t *number)
{
    uint64_t value = 0;
    size_t i = 0;
    while (i < length && bytes[i] >= '0' && bytes[i] <= '9') {
        if (i == 1 && value == 0)
            return 0;
        value = 10 * value + (bytes[i] - '0');
        if (value > most)
            return 0;
        i++;
    }
    *number = (uint32_t)value;
    return i;
}

bool c_read_number(struct field field, uint32_t most, uint32_t *number)
{
    return field.length > 0 && read_digits(field.bytes, field.length, most, number) == field.length;
}

bool c_read_version(struct field field, struct version *version)
{
    uint32_t parts[4];
    size_t at = 0;
    for (int i = 0; i < 4; i++) {
        if (i > 0 && (at >= field.length || field.bytes[at++] != '.'))
            return false;
        uint32_t most = i < 3 ? VERSION_PART_MOST : UINT32_MAX;
        size_t digits = read_digits(field.bytes + at, field.length - at, most, &parts[i]);
        if (digits == 0)
            return false;
        at += digits;
    }
    *version = (struct version){ parts[0], parts[1], parts[2], parts[3] };
    return at == field.length;
}

bool c_read_need(struct field part, struct field least, bool *filled, struct need *need)
{
    *filled = part.length > 0 || least.length > 0;
    if (!*filled)
        return true;
    return c_read_number(part, UINT32_MAX, &need->part) && need->part > 0 && c_read_version(least, &need->least);
}

bool c_find_columns(const struct line *line, const char *const *names, size_t count, size_t *columns)
{
    if (line->count != count)
        return false;
    for (size_t n = 0; n < count; n++) {
        size_t i = 0;
        while (i < count && !c_is_word(line->fields[i], names[n]))
            i++;
        if (i == count)
            return false;
        columns[n] = i;
    }
    return true;
}
