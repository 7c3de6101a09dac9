/*
 * How long the slowest try takes that we know. Trying 1 false sets all 256 variables, and each round of the closing sets one of them alone: the
 * clauses "v or not v + 1" stand from the last to the first. What is left of 4,096 entries is one clause in which all but the last two
 * literals are false at once: it is gone through three times in every round.
 */
#define _POSIX_C_SOURCE 199309L
#include "igbezolum.h"
#include <stdio.h>
#include <stdlib.h>
#include <time.h>

enum { TIMES = 101 };

static int by_time(const void *a, const void *b)
{
    double x = *(const double *)a, y = *(const double *)b;
    return (x > y) - (x < y);
}

int main(void)
{
    static int32_t entries[IGB_ENTRIES_MAX];
    static uint8_t values[IGB_VALUES_LEN];
    static double took[TIMES];
    size_t n = 0;
    for (int32_t v = IGB_VARS_MAX - 1; v >= 1; v--) {
        entries[n++] = v;
        entries[n++] = -(v + 1);
        entries[n++] = 0;
    }
    while (n < IGB_ENTRIES_MAX - 3)
        entries[n++] = 1;
    entries[n++] = IGB_VARS_MAX - 1;
    entries[n++] = -IGB_VARS_MAX;
    entries[n++] = 0;
    for (size_t k = 0; k < TIMES; k++) {
        struct timespec before, after;
        clock_gettime(CLOCK_MONOTONIC, &before);
        igb_report got = igb_setup(entries, n, IGB_VARS_MAX, NULL, 0, UINT32_MAX, values, IGB_VALUES_LEN);
        clock_gettime(CLOCK_MONOTONIC, &after);
        if (got.answer != IGB_OK || got.tries != 1) {
            printf("one try: answer %u after %u tries\n", (unsigned)got.answer, (unsigned)got.tries);
            return 1;
        }
        took[k] = (double)(after.tv_sec - before.tv_sec) * 1e3 + (double)(after.tv_nsec - before.tv_nsec) / 1e6;
    }
    qsort(took, TIMES, sizeof *took, by_time);
    printf("one try: %.2f ms, the median of %d; the quickest %.2f ms\n", took[TIMES / 2], TIMES, took[0]);
    return 0;
}
