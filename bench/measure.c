/* Measures the proved code beside the C version: first compares the answers of both, then prints one table. Exit status 1 says that they
   differ. */
#include "cases.h"
#include "clock.h"
#include "compare.h"
#include "measured.h"
#include "parts.h"
#include "ways.h"

#include <stdio.h>
#include <stdlib.h>
#include <string.h>

enum { ROUNDS = 7, ROUNDS_MOST = 200, CASE_NS = 200000000, GENERATED_LISTS = 4000, GENERATED_TEXTS = 20000 };

static uint8_t store_bytes[STORE_MOST];
static uint32_t *answers;
static size_t answer_room;
static volatile uint32_t sink;

/* ---- what is lent */

/* A measured case for one size of the state: its cluster list and its list of calls. */
struct prepared { const struct measured_case *measured; struct text list; struct plan plan; };

/* Builds the lists of a case and makes room for its answers. */
static void prepare(struct prepared *p, const struct measured_case *measured, const struct state_size *size)
{
    p->measured = measured;
    p->plan.size = size;
    p->plan.next_id = 1;
    script_clear(&p->plan.script);
    write_list(&p->list, size->clusters, size->needs);
    measured->build(&p->plan, measured->turns);
    size_t room = p->plan.script.word_count / 3;
    if (room > answer_room) {
        answer_room = room;
        free(answers);
        answers = malloc(room * sizeof *answers);
    }
}

/* ---- times */

/* Makes the first words of a case's list. */
static void run(enum way way, const struct prepared *p, size_t word_count)
{
    struct list l = script_list(&p->plan.script);
    struct store store = { store_bytes, p->measured->store_length };
    l.word_count = word_count;
    run_way(way, p->list, 1, store, l, answers, answer_room);
}

/* Times that. */
static double timed(enum way way, const struct prepared *p, size_t word_count)
{
    double before = now_ns();
    run(way, p, word_count);
    return now_ns() - before;
}

/* Gives the time of one call by each way: the least time of the whole list less that of its set-up. */
static void time_case(const struct prepared *p, double ns[WAYS])
{
    double set_up[WAYS] = { 0 }, whole[WAYS] = { 0 };
    double begin = now_ns();
    for (int round = 0; round < ROUNDS || (round < ROUNDS_MOST && now_ns() - begin < CASE_NS); round++)
        for (int way = 0; way < WAYS; way++) {
            keep_least(&set_up[way], timed((enum way)way, p, p->plan.set_up_words));
            keep_least(&whole[way], timed((enum way)way, p, p->plan.script.word_count));
        }
    for (int way = 0; way < WAYS; way++)
        ns[way] = (whole[way] - set_up[way]) / (double)(p->measured->turns * p->measured->calls);
}

/* Gives the time of memcpy of one block: the same blocks to places one behind the other in a store that was cleared. */
static double time_memcpy(const struct prepared *p)
{
    double least = 0;
    const uint8_t *block = p->plan.script.blocks.bytes;
    for (int round = 0; round < ROUNDS_MOST; round++) {
        memset(store_bytes, 0, p->measured->store_length);
        double before = now_ns();
        for (size_t i = 0; i < p->measured->turns; i++)
            memcpy(store_bytes + i * p->measured->copied, block, p->measured->copied);
        keep_least(&least, now_ns() - before);
        sink = store_bytes[round];
    }
    return least / (double)p->measured->turns;
}

/* ---- before anything is timed */

/* Says whether every turn was answered as the case's name says. */
static bool answered_as_named(const struct prepared *p)
{
    run(IN_C, p, p->plan.script.word_count);
    const uint32_t *given = answers + p->plan.set_up_words / 3;
    for (size_t i = 0; i < p->measured->turns * p->measured->calls; i++)
        if (given[2 * i] != p->measured->kinds[i % p->measured->calls]) {
            printf("NOT AS NAMED: %s, %s state: call %zu is answered %u\n", p->measured->name, p->plan.size->name, i, given[2 * i]);
            return false;
        }
    return true;
}

/* Compares all that is measured and what is generated; gives the number of differences. */
static size_t compare_all(void)
{
    static struct prepared p;
    size_t differences = 0;
    for (size_t i = 0; i < 2 * CASE_COUNT; i++) {
        prepare(&p, &CASES[i / 2], i % 2 ? &SMALL : &LARGE);
        differences += !answered_as_named(&p);
        size_t room = p.plan.script.word_count / 3;
        differences += compare_list(p.measured->name, p.list, 1, p.measured->store_length, script_list(&p.plan.script), room);
    }
    struct seen seen = { 0 };
    differences += compare_generated_lists(GENERATED_LISTS, &seen) + compare_generated_texts(GENERATED_TEXTS);
    printf("answers compared: %zu measured lists, %d generated lists of calls, %d generated packages and cluster lists\n", 2 * CASE_COUNT,
        GENERATED_LISTS, GENERATED_TEXTS);
    print_seen(&seen);
    printf("differences: %zu\n\n", differences);
    return differences;
}

/* ---- the tables */

/* Times a case and prints its row. */
static void print_case(const struct measured_case *measured, const struct state_size *size)
{
    static struct prepared p;
    double ns[WAYS];
    prepare(&p, measured, size);
    time_case(&p, ns);
    printf("| %s | %s | %.0f | %.0f | ", measured->name, size->name, ns[BY_CALLS], ns[IN_C]);
    printf("%.2f | %.0f |", ns[BY_CALLS] / ns[IN_C], ns[BY_LIST]);
    if (measured->copied > 0)
        printf(" %.2f", ns[BY_CALLS] / time_memcpy(&p));
    printf(" |\n");
    fflush(stdout);
}

static void print_calls(void)
{
    printf("| call | state | ns | ns in C | ratio | ns in a list | to memcpy |\n|---|---|---|---|---|---|---|\n");
    for (size_t i = 0; i < CASE_COUNT; i++) {
        print_case(&CASES[i], &LARGE);
        print_case(&CASES[i], &SMALL);
    }
}

/* Times Load of a state's list with a store of a length. */
static void print_load(const struct state_size *size, size_t store_length)
{
    struct measured_case load = { .store_length = store_length };
    struct prepared p = { .measured = &load };
    char name[80];
    double proved = 0, in_c = 0;
    enum { LOADS = 10 };
    write_list(&p.list, size->clusters, size->needs);
    for (int round = 0; round < 2 * ROUNDS; round++) {
        double t0 = now_ns();
        for (int i = 0; i < LOADS; i++)
            run(IN_C, &p, 0);
        double t1 = now_ns();
        for (int i = 0; i < LOADS; i++)
            sink = measured_load(p.list.bytes, p.list.length, 1, store_bytes, store_length);
        double t2 = now_ns();
        keep_least(&in_c, (t1 - t0) / LOADS);
        keep_least(&proved, (t2 - t1) / LOADS);
    }
    snprintf(name, sizeof name, "Load, %s state, store of %zu bytes", size->name, store_length);
    print_part(name, proved, in_c, "ns");
    free(p.list.bytes);
}

int main(void)
{
    if (compare_all() > 0)
        return 1;
    print_calls();
    printf("\n| part | proved | in C | ratio | unit |\n|---|---|---|---|---|\n");
    print_parts();
    print_load(&LARGE, 4096);
    print_load(&SMALL, 4096);
    print_load(&LARGE, STORE_MOST);
    return 0;
}
