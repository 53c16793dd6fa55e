/* The sum over bytes: as the specification writes it, and with a table of 510 remainders. */
#include "state.h"

/* Sums as the specification writes it. */
struct sums c_sum_naive(struct sums sums, const uint8_t *bytes, size_t length)
{
    for (size_t i = 0; i < length; i++) {
        sums.c0 = (sums.c0 + bytes[i]) % 255;
        sums.c1 = (sums.c1 + sums.c0) % 255;
    }
    return sums;
}

static uint8_t remainders[510];

/* Fills the table at the first use. */
static const uint8_t *remainder_table(void)
{
    if (remainders[1] == 0)
        for (int i = 0; i < 510; i++)
            remainders[i] = (uint8_t)(i % 255);
    return remainders;
}

/* Sums by the table of remainders. */
struct sums c_sum_by_table(struct sums sums, const uint8_t *bytes, size_t length)
{
    const uint8_t *table = remainder_table();
    for (size_t i = 0; i < length; i++) {
        sums.c0 = table[sums.c0 + bytes[i]];
        sums.c1 = table[sums.c1 + sums.c0];
    }
    return sums;
}
