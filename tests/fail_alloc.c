/* For tests/drive.py and tests/refusals.py, loaded before the program's own allocator: refuses one allocation.

   FAIL_ALLOC=N refuses the N-th one that the program makes.

   Where FAIL_REPORT names a descriptor, a script's lines are handed out one by one, and each count ends where the next line is
   asked for. A line `#refuse N`, a comment to the program, refuses the N-th allocation that is made from the line behind it on, or
   from the script's end on. FAIL_ALLOC then holds up to the first line. Of each count the descriptor gets a line: how many
   allocations were made, and 1 where one of them was refused, else 0. */
#define _GNU_SOURCE
#include <dlfcn.h>
#include <errno.h>
#include <stdio.h>
#include <stdlib.h>
#include <string.h>
#include <unistd.h>

static int is_begun, report = -1;
/* whether allocations are counted, how many were, which one is refused, whether it was */
static int is_counting, is_refused;
static long made, refused;

static void begin(void) {
    const char *number = getenv("FAIL_ALLOC"), *descriptor = getenv("FAIL_REPORT");
    is_begun = 1;
    refused = number ? atol(number) : 0;
    report = descriptor ? atoi(descriptor) : -1;
    is_counting = number != NULL;
}

static int fails(void) {
    if (!is_begun) begin();
    if (!is_counting || ++made != refused) return 0;
    is_refused = 1;
    return 1;
}

void *malloc(size_t size) {
    static void *(*real)(size_t);
    if (!real) real = dlsym(RTLD_NEXT, "malloc");
    if (fails()) { errno = ENOMEM; return NULL; }
    return real(size);
}

void *realloc(void *old, size_t size) {
    static void *(*real)(void *, size_t);
    if (!real) real = dlsym(RTLD_NEXT, "realloc");
    if (fails()) { errno = ENOMEM; return NULL; }
    return real(old, size);
}

int posix_memalign(void **out, size_t align, size_t size) {
    static int (*real)(void **, size_t, size_t);
    if (!real) real = dlsym(RTLD_NEXT, "posix_memalign");
    if (fails()) return ENOMEM;
    return real(out, align, size);
}

void *aligned_alloc(size_t align, size_t size) {
    static void *(*real)(size_t, size_t);
    if (!real) real = dlsym(RTLD_NEXT, "aligned_alloc");
    if (fails()) { errno = ENOMEM; return NULL; }
    return real(align, size);
}

/* The script as a whole, and how much of it was handed out. */
static char script[1 << 23];
static size_t length, at;
/* whether a line begins there; whether the next line's allocations are to be counted */
static int is_whole = 1, is_armed;

static void end_count(void) {
    char line[64];
    int size = snprintf(line, sizeof line, "%ld %d\n", made, is_refused);
    is_counting = 0;
    if (write(report, line, size) != size) abort();
}

static void begin_count(void) {
    is_armed = 0;
    is_counting = 1;
    is_refused = 0;
    made = 0;
}

static void read_script(ssize_t (*real)(int, void *, size_t)) {
    ssize_t more;
    while ((more = real(0, script + length, sizeof script - length)) > 0) length += more;
    if (more < 0 || length == sizeof script) abort();
}

ssize_t read(int file, void *out, size_t size) {
    static ssize_t (*real)(int, void *, size_t);
    static int has_script;
    if (!real) real = dlsym(RTLD_NEXT, "read");
    if (!is_begun) begin();
    if (file != 0 || report < 0) return real(file, out, size);
    if (is_whole && is_counting) end_count();
    if (!has_script) { has_script = 1; read_script(real); }
    if (is_whole && is_armed) begin_count();
    const char *front = script + at, *end = memchr(front, '\n', length - at);
    if (is_whole && strncmp(front, "#refuse ", 8) == 0) { is_armed = 1; refused = atol(front + 8); }
    size_t left = end ? (size_t) (end + 1 - front) : length - at, handed = left < size ? left : size;
    is_whole = end && handed == left;
    memcpy(out, front, handed);
    at += handed;
    return handed;
}

__attribute__((destructor)) static void end(void) {
    if (report >= 0 && is_counting) end_count();
}
