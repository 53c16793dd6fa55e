/* Parts of the calls by themselves: the sum, the reader of a list, the needs, the reader of a package. */
#include "parts.h"
#include "cases.h"
#include "clock.h"
#include "measured.h"

#include <stdio.h>
#include <stdlib.h>
#include <string.h>

enum { ROUNDS = 7 };

static volatile uint32_t sink;

void print_part(const char *name, double proved, double c, const char *unit)
{
    printf("| %s | %.*f | %.*f | %.2f | %s |\n", name, proved < 100 ? 2 : 0, proved, c < 100 ? 2 : 0, c, proved / c, unit);
}

/* Times the sum over a megabyte. */
static void print_sums(void)
{
    enum { LENGTH = 1 << 20 };
    static uint8_t bytes[LENGTH];
    double proved = 0, naive = 0, table = 0;
    for (int i = 0; i < LENGTH; i++)
        bytes[i] = (uint8_t)(i * 31 + i / 251);
    for (int round = 0; round < ROUNDS; round++) {
        double t0 = now_ns();
        sink = measured_sum(bytes, LENGTH);
        double t1 = now_ns();
        sink = c_sum_naive((struct sums){ 0, 0 }, bytes, LENGTH).c1;
        double t2 = now_ns();
        sink = c_sum_by_table((struct sums){ 0, 0 }, bytes, LENGTH).c1;
        double t3 = now_ns();
        keep_least(&proved, t1 - t0);
        keep_least(&naive, t2 - t1);
        keep_least(&table, t3 - t2);
    }
    print_part("the sum, against C's naive loop", proved / LENGTH, naive / LENGTH, "ns a byte");
    print_part("the sum, against C's table", proved / LENGTH, table / LENGTH, "ns a byte");
}

/* Reads a list in C and asks its needs at so many turns. The table's address is read anew at each turn, so that it is asked anew. */
static size_t c_turns_met(const struct text *list, size_t turns)
{
    static struct table table;
    size_t met = 0;
    if (!c_read_list(list->bytes, list->length, &table))
        return 0;
    for (size_t i = 0; i < turns; i++) {
        struct table *volatile asked = &table;
        met += c_needs_met(asked);
    }
    return met;
}

/* Gives the least times of reading a list alone and of reading it and asking its needs at each turn. */
static void time_list(const struct text *list, size_t turns, double proved[2], double c[2])
{
    enum { READS = 20 };
    static uint8_t ones[1000];
    memset(ones, 1, sizeof ones);
    for (int round = 0; round < 2 * ROUNDS; round++)
        for (int with = 0; with < 2; with++) {
            double t0 = now_ns();
            for (int i = 0; i < READS; i++)
                sink = (uint32_t)measured_needs_met(list->bytes, list->length, ones, with ? turns : 0);
            double t1 = now_ns();
            for (int i = 0; i < READS; i++)
                sink = (uint32_t)c_turns_met(list, with ? turns : 0);
            double t2 = now_ns();
            keep_least(&proved[with], (t1 - t0) / READS);
            keep_least(&c[with], (t2 - t1) / READS);
        }
}

/* Times reading the longest list, and reading and asking the lists of both states. */
static void print_lists(void)
{
    enum { TURNS = 100 };
    struct text list = { 0 };
    char name[80];
    double proved[2] = { 0 }, c[2] = { 0 };
    write_longest_list(&list);
    time_list(&list, 0, proved, c);
    snprintf(name, sizeof name, "read_list, the longest: %zu bytes", list.length);
    print_part(name, proved[0], c[0], "ns");
    for (int i = 0; i < 2; i++) {
        const struct state_size *size = i == 0 ? &LARGE : &SMALL;
        memset(proved, 0, sizeof proved);
        memset(c, 0, sizeof c);
        write_list(&list, size->clusters, size->needs);
        time_list(&list, TURNS, proved, c);
        snprintf(name, sizeof name, "read_list, %s state: %zu bytes", size->name, list.length);
        print_part(name, proved[0], c[0], "ns");
        snprintf(name, sizeof name, "needs_met, %s state", size->name);
        print_part(name, (proved[1] - proved[0]) / TURNS, (c[1] - c[0]) / TURNS, "ns");
    }
    free(list.bytes);
}

/* Times reading the text of a package. */
static void print_package(size_t payload)
{
    enum { TIMES = 1000 };
    struct text text = { 0 };
    char name[80];
    double proved = 0, c = 0;
    write_package(&text, (struct package_plan){ UPDATE, 4294967295, 4294967295, payload, 4, false });
    for (int round = 0; round < ROUNDS; round++) {
        double t0 = now_ns();
        for (int i = 0; i < TIMES; i++)
            sink = measured_read_package(text.bytes, text.length);
        double t1 = now_ns();
        for (int i = 0; i < TIMES; i++)
            sink = c_read_package(text.bytes, text.length).action.cluster.part;
        double t2 = now_ns();
        keep_least(&proved, t1 - t0);
        keep_least(&c, t2 - t1);
    }
    snprintf(name, sizeof name, "read_package, four needs, payload %zu", payload);
    print_part(name, proved / TIMES, c / TIMES, "ns");
    free(text.bytes);
}

void print_parts(void)
{
    print_sums();
    print_lists();
    print_package(0);
    print_package(65536);
}
