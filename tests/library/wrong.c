/* Wrong use that the library answers: handles that hold nothing, no room, bytes that are no file, lines that are no text. */
#include "checked.h"

#include <sys/mman.h>

static const uint8_t path[] = ".t";

static void empty_handles(void) {
    pt_site none = PT_NONE;
    uint8_t out[4] = "abc";
    pt_received told = {1, 2, 3, 5, 6};
    pt_stamp stamp = {7, 8};
    size_t place = 9;
    CHECK(run(&none, ".t get 1.0 end") == PT_NO_SITE);
    CHECK(pt_said(&none, out, sizeof out) == PT_NO_SITE);
    CHECK(pt_receive(&none, out, 3, &told) == PT_NO_SITE);
    CHECK(pt_changes(&none, &place) == PT_NO_SITE && place == 9);
    CHECK(pt_change(&none, 0) == PT_NO_SITE);
    CHECK(pt_export(&none) == PT_NO_SITE);
    CHECK(pt_ends(&none) == PT_NO_SITE);
    CHECK(pt_export_since(&none, out, 0) == PT_NO_SITE);
    CHECK(pt_stamp_at(&none, path, 2, 0, &stamp) == PT_NO_SITE);
    CHECK(pt_place_at(&none, path, 2, path, 2, &place) == PT_NO_SITE);
    CHECK(pt_place_of(&none, path, 2, &stamp, &place) == PT_NO_SITE);
    CHECK(memcmp(out, "abc", 4) == 0);
    CHECK(told.fresh == 1 && told.repeats == 2 && told.held == 3 && told.offset == 5 && told.fault == 6);
    CHECK(stamp.count == 7 && stamp.site == 8 && place == 9);
    pt_site_free(&none);
    CHECK(!none.held && none.slot.at == NULL);
}

static void numbers(void) {
    pt_site site = PT_NONE;
    CHECK(pt_site_new(&site, 0) == PT_BAD_NUMBER);
    CHECK(!site.held && site.slot.at == NULL);
    CHECK(pt_site_new(&site, UINT32_MAX) == PT_DONE);
    CHECK(site.held && site.slot.at != NULL);
    CHECK(answers(&site, ".t insert 1.0 ab", 0, "=\n"));
    CHECK(pt_site_new(&site, 2) == PT_IS_HELD);
    CHECK(pt_site_new(&site, 0) == PT_IS_HELD && pt_site_new(&site, UINT32_MAX) == PT_IS_HELD);
    CHECK(answers(&site, ".t get 1.0 end", 0, "= \"ab\\n\"\n"));
    pt_site_free(&site);
    CHECK(!site.held && site.slot.at == NULL);
    pt_site_free(&site);
    CHECK(run(&site, ".t get 1.0 end") == PT_NO_SITE);
    CHECK(pt_site_new(&site, 1) == PT_DONE);
    CHECK(answers(&site, ".t get 1.0 end", 0, "= \"\\n\"\n"));
    pt_site_free(&site);
}

static void rooms(pt_site *site) {
    uint8_t out[8];
    CHECK(answers(site, ".t get 1.0 1.2", 0, "= ab\n"));
    for (size_t room = 0; room <= sizeof out; room++) {
        memset(out, '.', sizeof out);
        CHECK(pt_said(site, out, room) == 5);
        size_t count = room < 5 ? room : 5;
        CHECK(memcmp(out, "= ab\n", count) == 0);
        CHECK(memcmp(out + count, "........", sizeof out - count) == 0);
    }
}

static void lines(pt_site *site) {
    char *longest = malloc(PT_MOST_LINE_BYTES + 1);
    memset(longest, 'a', PT_MOST_LINE_BYTES + 1);
    CHECK(answers(site, "", 0, "") && answers(site, " \t", 0, "") && answers(site, "# .t frob", 0, ""));
    CHECK(answers(site, ".t frob", PT_FAULT_BAD_COMMAND, "! 4 BadCommand\n"));
    CHECK(answers(site, ".none get 1.0", PT_FAULT_NO_WIDGET, "! 5 NoWidget\n"));
    CHECK(answers(site, ".t get {1.0", PT_FAULT_BAD_QUOTING, "! 19 BadQuoting\n"));
    CHECK(answers(site, ".t get 1.0 \xff", PT_FAULT_BAD_QUOTING, "! 19 BadQuoting\n"));
    CHECK(answers(site, "\xc3", PT_FAULT_BAD_QUOTING, "! 19 BadQuoting\n"));
    CHECK(answers(site, "# \xc3", PT_FAULT_BAD_QUOTING, "! 19 BadQuoting\n"));
    CHECK(answers(site, "receive a", PT_FAULT_NO_FILE, "! 20 NoFile\n"));
    CHECK(pt_command(site, (const uint8_t *)longest, PT_MOST_LINE_BYTES + 1) == PT_FAULT_BAD_QUOTING);
    CHECK(says(site, "! 19 BadQuoting\n"));
    CHECK(pt_command(site, (const uint8_t *)longest, PT_MOST_LINE_BYTES) == PT_FAULT_NO_WIDGET);
    CHECK(pt_command(site, (const uint8_t *)".t get\0 1.0", 11) == PT_FAULT_BAD_COMMAND);
    CHECK(answers(site, ".t get 1.0 end", 0, "= \"ab\\n\"\n"));
    free(longest);
}

/* A newline in a line, and a return at its end, are characters as any other. */
static void newlines(void) {
    pt_site site = PT_NONE;
    CHECK(pt_site_new(&site, 1) == PT_DONE);
    CHECK(answers(&site, ".t insert 1.0 \"a\nb\"", 0, "=\n"));
    CHECK(answers(&site, ".t insert 1.0 x\r", 0, "=\n"));
    CHECK(answers(&site, ".t get 1.0 end", 0, "= \"x\\ra\\nb\\n\"\n"));
    CHECK(answers(&site, ".t get 1.0 end\n", PT_FAULT_BAD_INDEX, "! 2 BadIndex\n"));
    CHECK(answers(&site, "\n", PT_FAULT_NO_WIDGET, "! 5 NoWidget\n"));
    pt_site_free(&site);
}

/* A handle that is moved, and one in memory that is all zero. */
static void moved(void) {
    pt_site one = PT_NONE, other, *allocated = calloc(1, sizeof *allocated);
    CHECK(pt_site_new(&one, 1) == PT_DONE && answers(&one, ".t insert 1.0 ab", 0, "=\n"));
    other = one;
    CHECK(answers(&other, ".t get 1.0 end", 0, "= \"ab\\n\"\n"));
    pt_site_free(&other);
    CHECK(run(allocated, ".t index end") == PT_NO_SITE && pt_site_new(allocated, 2) == PT_DONE);
    CHECK(answers(allocated, ".t index end", 0, "= 2.0\n"));
    pt_site_free(allocated);
    free(allocated);
}

/* Zero bytes of a text go in and come out as they are. */
static void zero_bytes(void) {
    static const char line[] = ".t insert 1.0 a\0b";
    uint8_t out[16];
    pt_site site = PT_NONE;
    CHECK(pt_site_new(&site, 1) == PT_DONE);
    CHECK(pt_command(&site, (const uint8_t *)line, sizeof line - 1) == PT_DONE);
    CHECK(run(&site, ".t get 1.0 1.3") == PT_DONE && pt_said(&site, out, sizeof out) == 6 && memcmp(out, "= a\0b\n", 6) == 0);
    pt_site_free(&site);
}

/* The ends of several sites come by rising numbers. */
static void ends_rise(void) {
    static const uint32_t numbers[] = {70000, 7, UINT32_MAX, 256, 2};
    static const uint8_t rising[] = {0, 0, 0, 2, 0, 0, 0, 7, 0, 0, 1, 0, 0, 1, 17, 112, 255, 255, 255, 255};
    pt_site to = PT_NONE;
    uint8_t ends[64] = {0};
    CHECK(pt_site_new(&to, 1) == PT_DONE);
    for (size_t at = 0; at < sizeof numbers / sizeof *numbers; at++) {
        pt_site from = PT_NONE;
        pt_received told;
        size_t len = 0;
        CHECK(pt_site_new(&from, numbers[at]) == PT_DONE && run(&from, ".t insert 1.0 a") == PT_DONE && pt_export(&from) == PT_DONE);
        char *file = said(&from, &len);
        CHECK(pt_receive(&to, (const uint8_t *)file, len, &told) == PT_DONE && told.fault == 0);
        free(file);
        pt_site_free(&from);
    }
    CHECK(pt_ends(&to) == PT_DONE && pt_said(&to, ends, sizeof ends) == 60);
    for (size_t at = 0; at < 5; at++) {
        CHECK(memcmp(ends + 12 * at, rising + 4 * at, 4) == 0);
    }
    pt_site_free(&to);
}

/* A site that goes on from its own file, before any line, gives its stamps on; one that doesn't gives some again. */
static void kept(void) {
    pt_site before = PT_NONE, site = PT_NONE, lost = PT_NONE;
    pt_received told;
    size_t len = 0;
    CHECK(pt_site_new(&before, 1) == PT_DONE && answers(&before, ".t insert 1.0 ab", 0, "=\n") && pt_export(&before) == PT_DONE);
    char *file = said(&before, &len);
    CHECK(pt_site_new(&site, 1) == PT_DONE && pt_receive(&site, (const uint8_t *)file, len, &told) == PT_DONE && told.fault == 0);
    CHECK(answers(&site, ".t insert 1.0 c", 0, "=\n") && answers(&site, ".t get 1.0 1.3", 0, "= cab\n"));
    CHECK(pt_site_new(&lost, 1) == PT_DONE && answers(&lost, ".t insert 1.0 xy", 0, "=\n"));
    CHECK(pt_receive(&lost, (const uint8_t *)file, len, &told) == PT_DONE && told.fault == PT_FAULT_CONFLICT && told.offset == 8);
    free(file);
    pt_site_free(&before);
    pt_site_free(&site);
    pt_site_free(&lost);
}

/* A file is received, and is at fault; the text stays. */
static bool refused(pt_site *site, const char *bytes, size_t len, uint8_t fault, uint64_t offset) {
    pt_received told = {9, 9, 9, 9, 9};
    bool same = answers(site, ".t get 1.0 end", 0, "= \"ab\\n\"\n");
    size_t count = 9;
    int32_t code = pt_receive(site, (const uint8_t *)bytes, len, &told);
    same = same && pt_changes(site, &count) == PT_DONE && count == 0;
    if (told.fault != fault || told.offset != offset) {
        printf("fault %d at %d\n", told.fault, (int)told.offset);
    }
    return same && code == PT_DONE && told.fault == fault && told.offset == offset && told.fresh == 0 && told.repeats == 0 && told.held == 0
        && pt_change(site, 0) == PT_NOT_THERE && answers(site, ".t get 1.0 end", 0, "= \"ab\\n\"\n");
}

static void files(pt_site *site) {
    static const char unsound[] = "RGATEXT1\0\0\0\x1f\1\0\0\0\0\0\0\0\3\0\2\0\0\0\0\0\0\0\3\0\0\0\0\0\0\0\0\0\0\0Y";
    CHECK(refused(site, "", 0, PT_FAULT_TRUNCATED, 0));
    CHECK(refused(site, "RGATEXT", 7, PT_FAULT_TRUNCATED, 0));
    CHECK(refused(site, "RGATEXT3", 8, PT_FAULT_BAD_VERSION, 0));
    CHECK(refused(site, "no file", 7, PT_FAULT_BAD_MAGIC, 0));
    CHECK(refused(site, "RGATEXT1\0\0\0", 11, PT_FAULT_TRUNCATED, 8));
    CHECK(refused(site, "RGATEXT1\0\0\0\1a", 13, PT_FAULT_BAD_RECORD, 8));
    CHECK(refused(site, unsound, sizeof unsound - 1, PT_FAULT_BAD_STAMP, 8));
    CHECK(refused(site, "RGATEXT1", 8, 0, 0));
    CHECK(refused(site, "RGATEXT2", 8, 0, 0));
    CHECK(refused(site, "RGATEXT2\0\0\0\x14", 12, PT_FAULT_BAD_RECORD, 8));
    CHECK(refused(site, "RGATEXT2\0\0\0\x15", 12, PT_FAULT_TRUNCATED, 8));
}

static void too_many_bytes(pt_site *site) {
    pt_received told = {1, 2, 3, 5, 6};
    size_t len = (size_t)PT_MOST_BYTES + 1;
    void *bytes = mmap(NULL, len, PROT_READ, MAP_PRIVATE | MAP_ANONYMOUS | MAP_NORESERVE, -1, 0);
    CHECK(bytes != MAP_FAILED);
    CHECK(answers(site, ".t index end", 0, "= 2.0\n"));
    CHECK(pt_receive(site, bytes, len, &told) == PT_BAD_BYTES);
    CHECK(told.fresh == 1 && told.repeats == 2 && told.held == 3 && told.offset == 5 && told.fault == 6);
    CHECK(says(site, "= 2.0\n"));
    munmap(bytes, len);
}

static void counts(pt_site *site) {
    static const uint8_t ends[37] = {0, 0, 0, 1, 0, 0, 0, 0, 0, 0, 0, 2};
    static const uint8_t first_holds[24] = {0, 0, 0, 1, 0, 0, 0, 0, 0, 0, 0, 2, 0, 0, 0, 1};
    static const uint8_t within[12] = {0, 0, 0, 1, 0, 0, 0, 0, 0, 0, 0, 1};
    static const uint8_t others[24] = {0, 0, 0, 0, 0, 0, 0, 0, 0, 0, 0, 2, 255, 255, 255, 255, 255, 255, 255, 255, 255, 255, 255, 255};
    uint8_t own[12];
    CHECK(pt_ends(site) == PT_DONE && pt_said(site, own, 12) == 12 && memcmp(own, ends, 12) == 0);
    for (size_t len = 0; len <= sizeof ends; len++) {
        CHECK(pt_export_since(site, ends, len) == (len % 12 == 0 ? PT_DONE : PT_BAD_BYTES));
    }
    CHECK(pt_export_since(site, ends, 12) == PT_DONE && says(site, "RGATEXT1"));
    CHECK(pt_export_since(site, first_holds, 24) == PT_DONE && says(site, "RGATEXT1"));
    CHECK(pt_export_since(site, within, 12) == PT_DONE && pt_said(site, own, 0) == 44);
    CHECK(pt_export_since(site, others, 24) == PT_DONE && pt_said(site, own, 0) == 44);
    CHECK(pt_export_since(site, ends, 0) == PT_DONE && pt_said(site, own, 0) == 44);
    CHECK(pt_export_since(site, ends, 9) == PT_BAD_BYTES && pt_said(site, own, 0) == 44);
}

static void indices(pt_site *site) {
    static const uint8_t end[] = "end";
    size_t place = 9;
    CHECK(pt_place_at(site, (const uint8_t *)".none", 5, end, 3, &place) == PT_FAULT_NO_WIDGET);
    CHECK(pt_place_at(site, (const uint8_t *)"\xff", 1, end, 3, &place) == PT_FAULT_BAD_QUOTING);
    CHECK(pt_place_at(site, path, 2, (const uint8_t *)"\xff", 1, &place) == PT_FAULT_BAD_QUOTING);
    CHECK(pt_place_at(site, path, 2, end, 0, &place) == PT_FAULT_BAD_INDEX);
    CHECK(pt_place_at(site, path, 2, end, 2, &place) == PT_FAULT_BAD_INDEX);
    CHECK(pt_place_at(site, path, 2, (const uint8_t *)"sel.first", 9, &place) == PT_FAULT_NONE_TAGGED && place == 9);
    CHECK(pt_place_at(site, path, 2, end, 3, &place) == PT_DONE && place == 3);
    CHECK(pt_place_at(site, path, 2, (const uint8_t *)"end - 2 chars", 13, &place) == PT_DONE && place == 1);
}

static void cursors(pt_site *site) {
    pt_stamp stamp = {7, 8};
    size_t place = 9;
    CHECK(pt_stamp_at(site, (const uint8_t *)".none", 5, 0, &stamp) == PT_NOT_THERE);
    CHECK(pt_stamp_at(site, (const uint8_t *)"\xff", 1, 0, &stamp) == PT_NOT_THERE);
    CHECK(pt_stamp_at(site, path, 0, 0, &stamp) == PT_NOT_THERE);
    CHECK(pt_stamp_at(site, path, 2, 3, &stamp) == PT_NOT_THERE);
    CHECK(pt_stamp_at(site, path, 2, SIZE_MAX, &stamp) == PT_NOT_THERE);
    CHECK(stamp.count == 7 && stamp.site == 8);
    CHECK(pt_place_of(site, path, 2, &stamp, &place) == PT_NOT_THERE);
    CHECK(pt_place_of(site, (const uint8_t *)".none", 5, &(pt_stamp){1, 1}, &place) == PT_NOT_THERE);
    CHECK(pt_place_of(site, path, 2, &(pt_stamp){UINT64_MAX, UINT32_MAX}, &place) == PT_NOT_THERE);
    CHECK(place == 9);
    CHECK(pt_stamp_at(site, path, 2, 1, &stamp) == PT_DONE && stamp.count == 2 && stamp.site == 1);
    CHECK(pt_place_of(site, path, 2, &stamp, &place) == PT_DONE && place == 1);
    CHECK(pt_stamp_at(site, path, 2, 2, &stamp) == PT_DONE);
    CHECK(pt_place_of(site, path, 2, &stamp, &place) == PT_DONE && place == 2);
}

int main(void) {
    pt_site site = PT_NONE;
    empty_handles();
    numbers();
    newlines();
    moved();
    zero_bytes();
    ends_rise();
    kept();
    CHECK(pt_site_new(&site, 1) == PT_DONE);
    CHECK(pt_said(&site, (uint8_t[1]){0}, 1) == 0);
    CHECK(answers(&site, ".t insert 1.0 ab", 0, "=\n"));
    rooms(&site);
    lines(&site);
    files(&site);
    too_many_bytes(&site);
    counts(&site);
    indices(&site);
    cursors(&site);
    CHECK(answers(&site, ".t get 1.0 end", 0, "= \"ab\\n\"\n"));
    pt_site_free(&site);
    return told_of_all();
}
