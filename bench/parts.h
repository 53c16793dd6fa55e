/* Parts of the calls by themselves. */
#ifndef BENCH_PARTS_H
#define BENCH_PARTS_H

/* Prints a row of the table of parts. */
void print_part(const char *name, double proved, double c, const char *unit);

/* Times the parts and prints their rows. */
void print_parts(void);

#endif
