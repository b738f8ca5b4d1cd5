/* Two threads, each with a site that it makes and frees, which make calls at one time. Then the files that they left are received. */
#include "checked.h"

#include <pthread.h>

#define EDITS 300

typedef struct {
    uint32_t number;
    bool right;
    char *file;
    size_t len;
} part;

static bool edit(pt_site *site) {
    pt_stamp stamp;
    size_t place;
    return answers(site, ".t insert 1.0 {a b} red", 0, "=\n") && answers(site, ".t delete 1.1", 0, "=\n")
        && answers(site, ".t get 1.0 1.2", 0, "= ab\n") && pt_export(site) == PT_DONE
        && pt_stamp_at(site, (const uint8_t *)".t", 2, 0, &stamp) == PT_DONE
        && pt_place_of(site, (const uint8_t *)".t", 2, &stamp, &place) == PT_DONE && place == 0;
}

static void *edits(void *given) {
    part *mine = given;
    pt_site site = PT_NONE;
    mine->right = pt_site_new(&site, mine->number) == PT_DONE;
    for (int at = 0; at < EDITS; at++) {
        mine->right = mine->right && edit(&site);
    }
    mine->right = mine->right && pt_export(&site) == PT_DONE;
    mine->file = said(&site, &mine->len);
    pt_site_free(&site);
    return NULL;
}

/* The text of a new site that receives two files. */
static char *text_of(const part *one, const part *other) {
    pt_site site = PT_NONE;
    pt_received told = {0};
    size_t len = 0;
    CHECK(pt_site_new(&site, 3) == PT_DONE);
    CHECK(pt_receive(&site, (const uint8_t *)one->file, one->len, &told) == PT_DONE && told.fresh == 2 * EDITS && told.fault == 0);
    CHECK(pt_receive(&site, (const uint8_t *)other->file, other->len, &told) == PT_DONE && told.fresh == 2 * EDITS && told.fault == 0);
    CHECK(run(&site, ".t get 1.0 end") == 0);
    char *text = said(&site, &len);
    CHECK(len > 4 * EDITS);
    pt_site_free(&site);
    return text;
}

int main(void) {
    part parts[2] = {{1, false, NULL, 0}, {2, false, NULL, 0}};
    pthread_t threads[2];
    for (int at = 0; at < 2; at++) {
        CHECK(pthread_create(&threads[at], NULL, edits, &parts[at]) == 0);
    }
    for (int at = 0; at < 2; at++) {
        CHECK(pthread_join(threads[at], NULL) == 0 && parts[at].right);
    }
    char *one = text_of(&parts[0], &parts[1]), *other = text_of(&parts[1], &parts[0]);
    CHECK(strcmp(one, other) == 0);
    free(one);
    free(other);
    free(parts[0].file);
    free(parts[1].file);
    return told_of_all();
}
