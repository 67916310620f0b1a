/* A malloc and a realloc that refuse from some request on. For programs linked with -Wl,--wrap=malloc,--wrap=realloc. */
#ifndef REFUSING_H
#define REFUSING_H

#include <stdio.h>
#include <stdlib.h>
#include <string.h>

#include "fochillun.h"

#define TEXT(text) (const uint8_t *)(text), strlen(text)
#define COUNT(list) (sizeof(list) / sizeof *(list))

static long countdown = -1; /* how many more succeed; -1: all */
static unsigned long refusals;

void *__real_malloc(size_t size);
void *__real_realloc(void *block, size_t size);

static bool refuses(void) {
    if (countdown < 0) return false;
    if (countdown > 0) {
        countdown--;
        return false;
    }
    refusals++;
    return true;
}

void *__wrap_malloc(size_t size) { return refuses() ? NULL : __real_malloc(size); }
void *__wrap_realloc(void *block, size_t size) { return refuses() ? NULL : __real_realloc(block, size); }

static void stop(const char *what) {
    fprintf(stderr, "refused memory: %s\n", what);
    exit(1);
}

#endif
