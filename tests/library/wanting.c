/* Each allocation of each call refused in turn. What a call answers then is what it answers with memory, or that memory was wanting, and then
   all is as it was; once more, with memory, it answers as ever. In the end no block is left. */
#include "counted.h"

#define ROOM 65536

typedef struct {
    size_t len;
    char bytes[ROOM];
} text;

static text before, after, now;
static long refusals, unknown;
static char file[ROOM], first[ROOM], behind[ROOM];
static size_t file_len, first_len, behind_len;

/* Puts what was said behind a text. */
static void put_said(pt_site *site, text *into) {
    ptrdiff_t len = pt_said(site, (uint8_t *)into->bytes + into->len, ROOM - into->len);
    CHECK(len >= 0 && (size_t)len <= ROOM - into->len);
    into->len += (size_t)len;
}

/* All that lines ask of a site, and its operations. */
static void state(pt_site *site, text *into) {
    static const char *const lines[] = {".t get 1.0 end", ".t dump 1.0 end", ".t tag names", ".t mark names", ".t configure -undo", ".t edit modified",
                                        ".t peer names"};
    into->len = 0;
    for (size_t at = 0; at < sizeof lines / sizeof *lines; at++) {
        CHECK(run(site, lines[at]) >= 0);
        put_said(site, into);
    }
    CHECK(pt_export(site) == PT_DONE);
    put_said(site, into);
}

static bool same(const text *one, const text *other) {
    return one->len == other->len && memcmp(one->bytes, other->bytes, one->len) == 0;
}

/* The site that each call begins with: it has text, tags and something to undo, and says a reply. */
static void begin(pt_site *site) {
    CHECK(pt_site_new(site, 1) == PT_DONE);
    CHECK(run(site, ".t configure -undo 1") == 0 && run(site, ".t insert 1.0 \"milk and bread\\nbutter\" {red fine}") == 0);
    CHECK(run(site, ".t tag add big 1.2 2.2") == 0 && run(site, ".t index end") == 0);
}

/* A line whose N-th allocation is refused: whether one was. */
static bool refused_line(const char *line, long refused, int32_t code, const char *reply) {
    pt_site site = PT_NONE;
    begin(&site);
    until_refused = refused;
    int32_t got = run(&site, line);
    bool was_refused = until_refused < 0;
    until_refused = -1;
    size_t count;
    int32_t known = pt_changes(&site, &count);
    CHECK(known == PT_DONE || (known == PT_NOT_KNOWN && was_refused && got == code));
    unknown += known == PT_NOT_KNOWN;
    bool wanted = got == PT_FAULT_NO_MEMORY && says(&site, "! 1 NoMemory\n");
    bool answered = !wanted && got == code && says(&site, reply);
    CHECK(wanted || answered);
    state(&site, &now);
    CHECK(same(&now, answered ? &after : &before));
    CHECK(answered || answers(&site, line, code, reply));
    pt_site_free(&site);
    refusals += was_refused;
    return was_refused;
}

static void lines(void) {
    static const char *const all[] = {
        ".t insert 1.3 XY", ".t insert end \"text\\nin lines\" {red blue} more green", ".t delete 1.1 1.3", ".t replace 1.0 1.4 cream",
        ".t tag add small 1.0 2.0", ".t tag remove red 1.0 1.5", ".t mark set here 1.5", ".t get 1.0 end", ".t dump 1.0 end", ".t search -all b 1.0",
        ".t tag ranges red", ".t count -lines -chars 1.0 end", ".t index \"1.0 + 3 chars + 1 lines linestart + 2 chars + 1 chars\"",
        ".t edit undo", ".t configure -undo 0", ".t configure", ".t peer create .p", ".t frob", ".t get {1.0", "destroy .t", "receive a", "# none",
    };
    for (size_t at = 0; at < sizeof all / sizeof *all; at++) {
        pt_site site = PT_NONE;
        size_t len = 0;
        begin(&site);
        state(&site, &before);
        int32_t code = run(&site, all[at]);
        char *reply = said(&site, &len);
        state(&site, &after);
        pt_site_free(&site);
        for (long refused = 0; refused_line(all[at], refused, code, reply); refused++) {
        }
        free(reply);
    }
}

/* A line is run, and its reply finds no memory until it is asked again. */
static void reply_later(void) {
    uint8_t out[16];
    long later = 0;
    for (long refused = 0; refused < 200; refused++) {
        pt_site site = PT_NONE;
        begin(&site);
        until_refused = refused;
        stays_refused = true;
        int32_t code = run(&site, ".t tag ranges red");
        memset(out, '.', sizeof out);
        bool is_later = code == PT_DONE && pt_said(&site, out, sizeof out) == PT_NO_MEMORY;
        stays_refused = false;
        until_refused = -1;
        CHECK(!is_later || memcmp(out, "................", sizeof out) == 0);
        CHECK(code == PT_DONE ? says(&site, "= 1.0 2.6\n") : code == PT_FAULT_NO_MEMORY && says(&site, "! 1 NoMemory\n"));
        later += is_later;
        pt_site_free(&site);
    }
    CHECK(later > 0);
}

static void sites(void) {
    bool was_refused = true;
    for (long refused = 0; was_refused; refused++) {
        pt_site site = PT_NONE;
        until_refused = refused;
        int32_t code = pt_site_new(&site, 1);
        was_refused = until_refused < 0;
        until_refused = -1;
        refusals += was_refused;
        CHECK(code == (was_refused ? PT_NO_MEMORY : PT_DONE) && site.held == !was_refused);
        CHECK(!was_refused || pt_site_new(&site, 1) == PT_DONE);
        CHECK(answers(&site, ".t get 1.0 end", 0, "= \"\\n\"\n"));
        pt_site_free(&site);
    }
}

static int32_t export_some(pt_site *site) {
    static const uint8_t ends[24] = {0, 0, 0, 1, 0, 0, 0, 0, 0, 0, 0, 2, 0, 0, 0, 9};
    return pt_export_since(site, ends, 24);
}

static int32_t change(pt_site *site) {
    return pt_change(site, 0);
}

/* A call that says bytes, after a line: these, or want of memory, and then what was said stays. */
static void saying(int32_t (*call)(pt_site *), const char *line, const char *reply) {
    pt_site site = PT_NONE;
    pt_received told;
    begin(&site);
    CHECK(pt_receive(&site, (const uint8_t *)file, file_len, &told) == PT_DONE && told.fresh > 0);
    CHECK(answers(&site, line, 0, reply) && call(&site) == PT_DONE);
    after.len = 0;
    put_said(&site, &after);
    bool was_refused = true;
    for (long refused = 0; was_refused; refused++) {
        CHECK(answers(&site, line, 0, reply));
        until_refused = refused;
        int32_t code = call(&site);
        was_refused = until_refused < 0;
        until_refused = -1;
        refusals += was_refused;
        CHECK(code == PT_DONE || (was_refused && code == PT_NO_MEMORY && says(&site, reply)));
        CHECK(code == PT_DONE || call(&site) == PT_DONE);
        now.len = 0;
        put_said(&site, &now);
        CHECK(same(&now, &after));
    }
    pt_site_free(&site);
}

/* A file is received, and then once more: after both the site has all of it. */
static void received(void) {
    pt_site site = PT_NONE;
    pt_received told;
    begin(&site);
    CHECK(pt_receive(&site, (const uint8_t *)file, file_len, &told) == PT_DONE && told.fault == 0);
    state(&site, &after);
    pt_site_free(&site);
    bool was_refused = true;
    for (long refused = 0; was_refused; refused++) {
        begin(&site);
        until_refused = refused;
        int32_t code = pt_receive(&site, (const uint8_t *)file, file_len, &told);
        was_refused = until_refused < 0;
        until_refused = -1;
        refusals += was_refused;
        CHECK(code == PT_DONE && (told.fault == 0 || (was_refused && told.fault == PT_FAULT_NO_MEMORY && told.offset >= 8)));
        CHECK(pt_receive(&site, (const uint8_t *)file, file_len, &told) == PT_DONE && told.fault == 0);
        state(&site, &now);
        CHECK(same(&now, &after));
        pt_site_free(&site);
    }
}

/* The file that a site said, in some room. */
static size_t file_said(pt_site *site, int32_t code, char *into) {
    ptrdiff_t len = code == PT_DONE ? pt_said(site, (uint8_t *)into, ROOM) : -1;
    CHECK(len >= 8 && len <= ROOM);
    return (size_t)len;
}

/* The file of another site, that of its first operation alone, and that of an operation which a third site made upon this. */
static void make_files(void) {
    static const uint8_t end_of_first[12] = {0, 0, 0, 3, 0, 0, 0, 0, 0, 0, 0, 255};
    pt_site site = PT_NONE, third = PT_NONE;
    pt_received told;
    CHECK(pt_site_new(&site, 3) == PT_DONE && run(&site, ".t insert 1.0 \"cheese, \" red") == 0);
    first_len = file_said(&site, pt_export(&site), first);
    CHECK(run(&site, ".t delete 1.2") == 0 && run(&site, ".t tag add new 1.0 1.4") == 0);
    file_len = file_said(&site, pt_export(&site), file);
    CHECK(pt_site_new(&third, 2) == PT_DONE && pt_receive(&third, (const uint8_t *)first, first_len, &told) == PT_DONE && told.fresh == 1);
    CHECK(run(&third, ".t insert 1.2 \"text that is copied where it is told\" {red {not red} fine big new}") == 0);
    behind_len = file_said(&third, pt_export_since(&third, end_of_first, 12), behind);
    pt_site_free(&site);
    pt_site_free(&third);
}

/* A held operation for which memory is wanting stays held, which no fault tells; it is taken behind the next one that is accepted. */
static void stays_held(void) {
    pt_received told;
    long stayed = 0;
    bool was_refused = true;
    for (long refused = 0; was_refused; refused++) {
        pt_site site = PT_NONE;
        begin(&site);
        CHECK(pt_receive(&site, (const uint8_t *)behind, behind_len, &told) == PT_DONE && told.held == 1 && told.fresh == 0);
        until_refused = refused;
        CHECK(pt_receive(&site, (const uint8_t *)first, first_len, &told) == PT_DONE);
        was_refused = until_refused < 0;
        until_refused = -1;
        refusals += was_refused;
        CHECK(told.fresh + told.held == (told.fault == 0 ? 2 : 1));
        CHECK(was_refused || told.held == 0);
        if (told.fault == 0 && told.held == 1) {
            stayed++;
            CHECK(run(&site, ".t insert 1.0 x") == 0);
            CHECK(pt_receive(&site, (const uint8_t *)"RGATEXT1", 8, &told) == PT_DONE && told.held == 0);
        }
        pt_site_free(&site);
    }
    CHECK(stayed > 0);
}

int main(void) {
    make_files();
    lines();
    sites();
    reply_later();
    saying(pt_export, ".t index end", "= 3.0\n");
    saying(pt_ends, ".t index end", "= 3.0\n");
    saying(export_some, ".t index end", "= 3.0\n");
    saying(change, ".t insert 1.0 x", "=\n");
    received();
    stays_held();
    CHECK(blocks == 0 && bytes_in_blocks == 0);
    CHECK(unknown > 0);
    printf("%ld refusals, of which %ld left unknown what a line changed\n", refusals, unknown);
    return told_of_all();
}
