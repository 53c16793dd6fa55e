/* Compares the answers of the proved code with those of the C version. */
#include "compare.h"
#include "generate.h"
#include "measured.h"
#include "ways.h"

#include <stdio.h>
#include <stdlib.h>
#include <string.h>

/* ---- one list of calls, three ways; with an old call in it, two */

/* What one way is lent and gives. */
struct outcome { uint32_t number; uint8_t *store; uint32_t *answers; };

/* Says at which row two ways differ first. */
static void tell_difference(const char *name, int way, struct list list, const struct outcome *c, const struct outcome *other, size_t room)
{
    printf("DIFFERENT %s: %s gives %u, C gives %u\n", name, WAY_NAMES[way], other->number, c->number);
    for (size_t i = 0; i + 1 < room && i < list.word_count / 3; i += 2)
        if (memcmp(c->answers + i, other->answers + i, 2 * sizeof *c->answers) != 0) {
            const uint32_t *row = list.words + 3 * i;
            printf("  row %zu (%u %u %u): %s answers %u %u, C %u %u\n", i / 2, row[0], row[2], row[3], WAY_NAMES[way], other->answers[i],
                other->answers[i + 1], c->answers[i], c->answers[i + 1]);
            return;
        }
    printf("  the answers are equal: the number, the store or a word behind the answers is not\n");
}

size_t compare_list(const char *name, struct text text, uint32_t first, size_t store_length, struct list list, size_t room)
{
    struct outcome outcomes[WAYS] = { 0 };
    size_t differences = 0;
    for (int way = 0; way < WAYS; way++) {
        struct outcome *o = &outcomes[way];
        if (!makes((enum way)way, list))
            continue;
        o->store = malloc(store_length + 1);
        o->answers = malloc((room + 1) * sizeof *o->answers);
        memset(o->store, 0xa5, store_length + 1);
        memset(o->answers, 0x5a, (room + 1) * sizeof *o->answers);
        o->number = run_way((enum way)way, text, first, (struct store){ o->store, store_length }, list, o->answers, room);
        if (o->number != outcomes[0].number || memcmp(o->store, outcomes[0].store, store_length + 1) != 0
            || memcmp(o->answers, outcomes[0].answers, (room + 1) * sizeof *o->answers) != 0) {
            tell_difference(name, way, list, &outcomes[0], o, room);
            differences++;
        }
    }
    for (int way = 0; way < WAYS; way++) {
        free(outcomes[way].store);
        free(outcomes[way].answers);
    }
    return differences;
}

/* ---- generated lists of calls */

/* Counts what the C version answers. */
static void note_seen(struct seen *seen, struct text text, uint32_t first, struct store store, struct list list, size_t room)
{
    uint32_t *answers = calloc(room + 1, sizeof *answers);
    uint32_t number = c_load_and_run(text.bytes, text.length, first, store, list, answers, room);
    seen->made += number == 0;
    seen->bad_loads += number == BAD_LOAD;
    seen->malformed += number == 256;
    seen->short_answers += number == 257;
    seen->of_the_twelve += makes(BY_CALLS, list);
    for (size_t i = 0; number == 0 && i < list.word_count / 6; i++) {
        seen->calls++;
        seen->kinds[answers[2 * i]]++;
        if (answers[2 * i] == REFUSED)
            seen->refusals[answers[2 * i + 1]]++;
    }
    free(answers);
}

/* Prints what was seen. */
void print_seen(const struct seen *seen)
{
    printf("generated lists: %zu made, %zu refused by 20, ", seen->made, seen->bad_loads);
    printf("%zu malformed, %zu without room; ", seen->malformed, seen->short_answers);
    printf("%zu without an old call; %zu calls, by kind of answer", seen->of_the_twelve, seen->calls);
    for (int kind = 0; kind <= OLD_ANSWER; kind++)
        printf(" %d:%zu", kind, seen->kinds[kind]);
    printf("; refused by");
    for (int number = 1; number <= STAYS; number++)
        if (seen->refusals[number] > 0)
            printf(" %d:%zu", number, seen->refusals[number]);
    printf("\n");
}

size_t compare_generated_lists(size_t count, struct seen *seen)
{
    static struct generator g;
    static uint8_t bytes[4096];
    struct text text = { 0 };
    size_t differences = 0;
    for (size_t i = 0; i < count; i++) {
        uint32_t first = chance_first();
        g.store = (struct store){ bytes, chance(4) == 0 ? chance(300) : sizeof bytes };
        generate(&g, &text, first);
        struct list list = script_list(&g.script);
        size_t room = list.word_count / 3 + chance(3);
        room -= room > 0 && chance(25) == 0;
        note_seen(seen, text, first, g.store, list, room);
        differences += compare_list("a generated list", text, first, g.store.length, list, room);
    }
    free(text.bytes);
    return differences;
}

/* ---- generated texts */

/* Compares the part number that a package names. */
static size_t compare_package(struct text text)
{
    struct package_text read = c_read_package(text.bytes, text.length);
    uint32_t part = read.refusal ? 0 : read.action.cluster.part;
    uint32_t proved = measured_read_package(text.bytes, text.length);
    if (part != proved)
        printf("DIFFERENT package: part %u in the proved code, %u in C, of\n%.*s\n", proved, part, (int)text.length, (char *)text.bytes);
    return part != proved;
}

/* Compares whether the table of a list meets its needs. */
static size_t compare_needs(struct text text)
{
    static struct table table;
    if (!c_read_list(text.bytes, text.length, &table))
        table.count = 0;
    size_t met = c_needs_met(&table);
    size_t proved = measured_needs_met(text.bytes, text.length, (uint8_t[1]){ 1 }, 1);
    if (met != proved)
        printf("DIFFERENT needs: %zu in the proved code, %zu in C, of\n%.*s\n", proved, met, (int)text.length, (char *)text.bytes);
    return met != proved;
}

/* Compares what Load of a list answers, and the store then. */
static size_t compare_load(struct text text, uint32_t first)
{
    static uint8_t in_c[64], proved[64];
    memset(in_c, 1, sizeof in_c);
    memset(proved, 1, sizeof proved);
    uint32_t number = c_load_and_run(text.bytes, text.length, first, (struct store){ in_c, sizeof in_c }, (struct list){ 0 }, NULL, 0);
    uint32_t given = measured_load(text.bytes, text.length, first, proved, sizeof proved);
    bool equal = number == given && memcmp(in_c, proved, sizeof in_c) == 0;
    if (!equal)
        printf("DIFFERENT Load: %u in the proved code, %u in C, of\n%.*s\n", given, number, (int)text.length, (char *)text.bytes);
    return !equal;
}

/* Compares the sum of some bytes, three ways. */
static size_t compare_sums(struct text text)
{
    struct sums naive = c_sum_naive((struct sums){ 0, 0 }, text.bytes, text.length);
    struct sums table = c_sum_by_table((struct sums){ 0, 0 }, text.bytes, text.length);
    uint32_t proved = measured_sum(text.bytes, text.length);
    bool equal = proved == 256 * naive.c1 + naive.c0 && proved == 256 * table.c1 + table.c0;
    if (!equal)
        printf("DIFFERENT sum: %u in the proved code of %zu bytes\n", proved, text.length);
    return !equal;
}

size_t compare_generated_texts(size_t count)
{
    struct text text = { 0 };
    size_t differences = 0;
    for (size_t i = 0; i < count; i++) {
        text_clear(&text);
        write_package(&text, chance_package());
        for (uint32_t times = chance(3); times > 0; times--)
            damage(&text, 0);
        differences += compare_package(text) + compare_sums(text);
        chance_list(&text);
        for (uint32_t times = chance(2); times > 0; times--)
            damage(&text, 0);
        differences += compare_needs(text) + compare_load(text, chance_first()) + compare_sums(text);
    }
    free(text.bytes);
    return differences;
}
