/* Many calls, after which as much memory is held as before: many ROUNDS. */
#include "counted.h"

static const uint8_t path[] = ".t";

/* The file of a site's operations, which is the caller's to free. */
static char *file_of(pt_site *site, size_t *len) {
    return pt_export(site) == PT_DONE ? said(site, len) : NULL;
}

/* A round of twelve calls that leave the text as it is. */
static bool round_of(pt_site *site, const char *file, size_t len, const char *ends, size_t ends_len) {
    pt_received told;
    pt_stamp stamp;
    size_t place;
    uint8_t out[64];
    bool right = run(site, ".t get 1.0 end") == 0 && pt_said(site, out, sizeof out) == 22;
    right = right && run(site, ".t index \"end - 1 chars\"") == 0 && run(site, ".t frob") == PT_FAULT_BAD_COMMAND;
    right = right && run(site, ".t tag ranges big") == 0 && run(site, "# nothing") == 0 && pt_said(site, out, 0) == 0;
    right = right && pt_receive(site, (const uint8_t *)file, len, &told) == PT_DONE && told.fresh == 0 && told.fault == 0;
    right = right && pt_stamp_at(site, path, 2, 3, &stamp) == PT_DONE && pt_place_of(site, path, 2, &stamp, &place) == PT_DONE && place == 3;
    return right && pt_export_since(site, (const uint8_t *)ends, ends_len) == PT_DONE && pt_export(site) == PT_DONE;
}

static void rounds(long count) {
    pt_site site = PT_NONE;
    size_t len = 0, ends_len = 0;
    CHECK(pt_site_new(&site, 1) == PT_DONE);
    CHECK(run(&site, ".t insert 1.0 \"milk\\nand bread\"") == 0 && run(&site, ".t tag add big 1.0 1.2") == 0);
    char *file = file_of(&site, &len);
    CHECK(file != NULL && pt_ends(&site) == PT_DONE);
    char *ends = said(&site, &ends_len);
    CHECK(ends_len == 12);
    CHECK(round_of(&site, file, len, ends, ends_len));
    long blocks_then = blocks;
    size_t bytes_then = bytes_in_blocks;
    bool right = true;
    for (long at = 0; at < count; at++) {
        right = right && round_of(&site, file, len, ends, ends_len);
    }
    CHECK(right);
    CHECK(blocks == blocks_then && bytes_in_blocks == bytes_then);
    printf("%ld rounds of 12 calls: %ld blocks and %zu bytes, and then %ld and %zu\n", count, blocks_then, bytes_then, blocks, bytes_in_blocks);
    free(file);
    free(ends);
    pt_site_free(&site);
}

/* Two sites that exchange their operations, and go. */
static bool lives(void) {
    pt_site one = PT_NONE, two = PT_NONE;
    pt_received told = {0};
    size_t len = 0;
    bool right = pt_site_new(&one, 1) == PT_DONE && pt_site_new(&two, 2) == PT_DONE;
    right = right && run(&one, ".t configure -undo 1") == 0 && run(&one, ".t insert 1.0 \"milk, bread\" {big red}") == 0;
    right = right && run(&one, ".t delete 1.0 1.3") == 0 && run(&one, ".t edit undo") == 0 && run(&one, ".t peer create .p") == 0;
    char *file = right ? file_of(&one, &len) : NULL;
    right = right && pt_receive(&two, (const uint8_t *)file, len, &told) == PT_DONE && told.fresh > 0;
    right = right && pt_change(&two, 0) == PT_DONE && answers(&two, ".t get 1.0 1.end", 0, "= \"milk, bread\"\n");
    free(file);
    pt_site_free(&one);
    pt_site_free(&two);
    return right;
}

static void begun_and_ended(long count) {
    long blocks_then = blocks;
    bool right = true;
    for (long at = 0; at < count; at++) {
        right = right && lives();
    }
    CHECK(right);
    CHECK(blocks == blocks_then);
}

int main(int words, char **word) {
    long count = words > 1 ? strtol(word[1], NULL, 10) : 1000;
    rounds(count);
    begun_and_ended(count / 10);
    CHECK(blocks == 0 && bytes_in_blocks == 0);
    return told_of_all();
}
