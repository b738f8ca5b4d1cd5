/* What the C programs of this folder share: checks that are counted, and calls that read all that was said. */
#ifndef CHECKED_H
#define CHECKED_H

#include "peertext.h"

#include <stddef.h>
#include <stdio.h>
#include <stdlib.h>
#include <string.h>

/* a handle as the library has it */
_Static_assert(sizeof(pt_site) == 16 && offsetof(pt_site, held) == 0 && offsetof(pt_site, slot) == 8, "a flag, and a pointer behind it");

static int passed, failed;

static inline void check(bool holds, const char *what, int line) {
    if (holds) {
        passed++;
    } else {
        failed++;
        printf("failed: line %d: %s\n", line, what);
    }
}

#define CHECK(it) check((it), #it, __LINE__)

/* The last line of a program, and its status. */
static inline int told_of_all(void) {
    printf("%d passed, %d failed\n", passed, failed);
    return failed != 0;
}

static inline int32_t run(pt_site *site, const char *line) {
    return pt_command(site, (const uint8_t *)line, strlen(line));
}

/* All that was said, in memory that the caller frees, with a zero byte behind it; `len` gets its length. NULL for want of memory. */
static inline char *said(pt_site *site, size_t *len) {
    uint8_t none[1];
    ptrdiff_t whole = pt_said(site, none, 0);
    char *text = whole < 0 ? NULL : malloc((size_t)whole + 1);
    if (text != NULL) {
        pt_said(site, (uint8_t *)text, (size_t)whole);
        text[whole] = 0;
        *len = (size_t)whole;
    }
    return text;
}

/* Whether just this was said. */
static inline bool says(pt_site *site, const char *want) {
    size_t len = 0;
    char *text = said(site, &len);
    bool same = text != NULL && len == strlen(want) && memcmp(text, want, len) == 0;
    if (!same) {
        printf("said %s and not %s", text == NULL ? "nothing" : text, want);
    }
    free(text);
    return same;
}

/* Whether a line is answered a code and a reply line. */
static inline bool answers(pt_site *site, const char *line, int32_t code, const char *want) {
    int32_t got = run(site, line);
    if (got != code) {
        printf("answered %d and not %d: %s\n", got, code, line);
    }
    return got == code && says(site, want);
}

#endif
