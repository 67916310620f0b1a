/* What the times of calls are taken with: processor time, since no call waits, and the median of nine laps. */
#ifndef TIMING_H
#define TIMING_H

#define _POSIX_C_SOURCE 199309L
#include <stdio.h>
#include <stdlib.h>
#include <string.h>
#include <time.h>

#include "fochillun.h"

#define TEXT(text) (const uint8_t *)(text), strlen(text)
enum { LAPS = 9 };

static double now(void) {
    struct timespec t;
    clock_gettime(CLOCK_PROCESS_CPUTIME_ID, &t);
    return (double)t.tv_sec * 1e9 + (double)t.tv_nsec;
}

static int by_size(const void *a, const void *b) { return (*(const double *)a > *(const double *)b) - (*(const double *)a < *(const double *)b); }

/* A row of a figure, by its laps. */
static void tell(const char *what, double *laps, const char *unit) {
    qsort(laps, LAPS, sizeof *laps, by_size);
    printf("c\t%s\t%.1f\t%s\tfrom %.1f to %.1f\n", what, laps[LAPS / 2], unit, laps[0], laps[LAPS - 1]);
}

#endif
