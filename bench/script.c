/* Cluster lists, packages and lists of calls as texts and rows. */
#include "script.h"

#include <stdarg.h>
#include <stdio.h>
#include <stdlib.h>
#include <string.h>

/* Gives more memory, or ends the program. */
static void *grown(void *memory, size_t bytes)
{
    void *more = realloc(memory, bytes);
    if (!more) {
        fputs("measure: out of memory\n", stderr);
        exit(2);
    }
    return more;
}

/* Adds bytes to a text. */
void text_add_bytes(struct text *text, const uint8_t *bytes, size_t length)
{
    if (text->length + length > text->room) {
        text->room = 2 * (text->length + length);
        text->bytes = grown(text->bytes, text->room);
    }
    memcpy(text->bytes + text->length, bytes, length);
    text->length += length;
}

/* Adds a formatted line of at most 199 bytes to a text. */
void text_add(struct text *text, const char *format, ...)
{
    char line[200];
    va_list arguments;
    va_start(arguments, format);
    int length = vsnprintf(line, sizeof line, format, arguments);
    va_end(arguments);
    text_add_bytes(text, (const uint8_t *)line, (size_t)length);
}

void text_clear(struct text *text) { text->length = 0; }

void script_clear(struct script *script)
{
    script->word_count = 0;
    text_clear(&script->blocks);
}

/* Adds a row of six words. */
static void add_row(struct script *script, const uint32_t row[6])
{
    if (script->word_count + 6 > script->word_room) {
        script->word_room = 2 * (script->word_count + 6);
        script->words = grown(script->words, script->word_room * sizeof *script->words);
    }
    memcpy(script->words + script->word_count, row, 6 * sizeof *row);
    script->word_count += 6;
}

void script_call(struct script *script, enum call call, uint32_t first)
{
    add_row(script, (uint32_t[6]){ call, 0, first, 0, 0, 0 });
}

void script_block(struct script *script, uint32_t id, uint32_t counter, size_t start, size_t length)
{
    add_row(script, (uint32_t[6]){ TRANSFER_DATA, 0, id, counter, (uint32_t)start, (uint32_t)length });
}

/* A slice of no elements has an address too. */
struct list script_list(const struct script *script)
{
    static const uint32_t no_word;
    static const uint8_t no_byte;
    const uint32_t *words = script->words ? script->words : &no_word;
    const uint8_t *bytes = script->blocks.bytes ? script->blocks.bytes : &no_byte;
    return (struct list){ words, script->word_count, bytes, script->blocks.length };
}

/* Writes a list whose needs are all met. */
void write_list(struct text *text, size_t count, size_t needs)
{
    text_clear(text);
    text_add(text, "cluster,version,needs,least,stays\n");
    for (size_t i = 0; i < count; i++) {
        unsigned stays = i + 1 == count;
        if (needs == 0)
            text_add(text, "%zu,1.0.0.0,,,%u\n", 10 * (i + 1), stays);
        for (size_t k = 0; k < needs; k++) {
            size_t needed = 10 * ((i + count - 1 - k % count) % count + 1);
            if (k == 0)
                text_add(text, "%zu,1.0.0.0,%zu,1.0.0.0,%u\n", 10 * (i + 1), needed, stays);
            else
                text_add(text, ",,%zu,1.0.0.0,\n", needed);
        }
    }
}

/* Writes the longest list that can be read. */
void write_longest_list(struct text *text)
{
    text_clear(text);
    text_add(text, "cluster,version,needs,least,stays\n");
    for (uint32_t i = 0; i < CLUSTERS_MOST; i++) {
        text_add(text, "%u,65535.65535.65535.4294967295,,,1\n", UINT32_MAX - CLUSTERS_MOST + 1 + i);
        for (uint32_t k = 0; k < NEEDS_MOST; k++)
            text_add(text, ",,%u,65535.65535.65535.4294967295,\n", UINT32_MAX - (i + k) % CLUSTERS_MOST);
    }
}

/* Writes a package behind what the text has. */
void write_package(struct text *text, struct package_plan plan)
{
    static const char *const WORDS[] = { "install", "update", "remove" };
    struct sums sums = { 0, 0 };
    for (size_t i = 0; i < plan.payload; i++) {
        uint8_t byte = (uint8_t)('a' + i % 26);
        sums = c_sum_naive(sums, &byte, 1);
    }
    unsigned sum = (256 * sums.c1 + sums.c0) ^ (plan.wrong_sum ? 1 : 0);
    text_add(text, "action,cluster,version,payload,sum,needs,least\n");
    if (plan.change == REMOVE)
        text_add(text, "remove,%u,,0,%u,,\n", plan.part, sum);
    else if (plan.needs == 0)
        text_add(text, "%s,%u,1.0.0.%u,%zu,%u,,\n", WORDS[plan.change], plan.part, plan.version, plan.payload, sum);
    for (size_t k = 0; k < plan.needs && plan.change != REMOVE; k++)
        if (k == 0)
            text_add(text, "%s,%u,1.0.0.%u,%zu,%u,10,1.0.0.0\n", WORDS[plan.change], plan.part, plan.version, plan.payload, sum);
        else
            text_add(text, ",,,,,%zu,1.0.0.0\n", 10 * (k + 1));
    text_add(text, "\n");
    for (size_t i = 0; i < plan.payload && plan.change != REMOVE; i++)
        text_add_bytes(text, &(uint8_t){ (uint8_t)('a' + i % 26) }, 1);
}
