/* Allocations, counted and refused: a program with these is linked with -Wl,--wrap=malloc,--wrap=realloc,--wrap=free. */
#ifndef COUNTED_H
#define COUNTED_H

#include "checked.h"

#include <malloc.h>

void *__real_malloc(size_t size);
void *__real_realloc(void *at, size_t size);
void __real_free(void *at);
void *__wrap_malloc(size_t size);
void *__wrap_realloc(void *at, size_t size);
void __wrap_free(void *at);

/* the blocks that are there, and their bytes */
static long blocks;
static size_t bytes_in_blocks;

/* how many more allocations go well before one is refused; less than 0 where none is */
static long until_refused = -1;

/* whether all behind it are refused too */
static bool stays_refused;

static inline bool is_refused(void) {
    if (until_refused == 0 && stays_refused) {
        return true;
    }
    return until_refused >= 0 && until_refused-- == 0;
}

static inline void *counted(void *at) {
    if (at != NULL) {
        blocks++;
        bytes_in_blocks += malloc_usable_size(at);
    }
    return at;
}

static inline void uncounted(void *at) {
    if (at != NULL) {
        blocks--;
        bytes_in_blocks -= malloc_usable_size(at);
    }
}

void *__wrap_malloc(size_t size) {
    return is_refused() ? NULL : counted(__real_malloc(size));
}

void *__wrap_realloc(void *at, size_t size) {
    if (is_refused()) {
        return NULL;
    }
    uncounted(at);
    void *moved = __real_realloc(at, size);
    return counted(moved == NULL ? at : moved) == NULL ? NULL : moved;
}

void __wrap_free(void *at) {
    uncounted(at);
    __real_free(at);
}

#endif
