/* Sites that are driven through the library by the lines of standard input, and answer on standard output. A line that begins with a byte
   of 1 is for this program, each other one for the site in use, whose reply line is written. Its lines, by their first words:
       site H N        the handle H, 0 to 9, lets go of what it holds and gets a new site of the number N; it is in use then
       use H           the handle H is in use
       free H          the handle H lets go of what it holds
       receive HEX     the site in use receives these bytes, and what became of them and what changed is written
       give H          it receives the file of all operations of the site of H
       lack H          it receives the file of those of H that are past its ends
       own             how many operations the last line made or let in, and what each changed
       export          the file of its operations, in hexadecimal digits
       stamp PLACE     the stamp of the character at a place of the widget .t
       place C.S       the place of a stamp */
#include "checked.h"

#include <inttypes.h>

#define HANDLES 10

static pt_site sites[HANDLES];
static pt_site *used = sites;

static void write_said(void) {
    size_t len = 0;
    char *text = said(used, &len);
    if (text == NULL) {
        printf("wanting\n");
        return;
    }
    fwrite(text, 1, len, stdout);
    free(text);
}

static pt_site *handle(const char *word) {
    return &sites[(unsigned)(*word - '0') % HANDLES];
}

/* What changed, of each of some operations. */
static void write_changes(size_t count) {
    for (size_t number = 0; number < count; number++) {
        if (pt_change(used, number) != PT_DONE) {
            printf("no change\n");
        }
        write_said();
    }
    if (pt_change(used, count) != PT_NOT_THERE) {
        printf("one change more\n");
    }
}

static void write_own(void) {
    size_t count = 0;
    int32_t code = pt_changes(used, &count);
    printf("own %" PRId32 " %zu\n", code, count);
    write_changes(count);
}

static void receive(const uint8_t *bytes, size_t len) {
    pt_received told = {0};
    int32_t code = pt_receive(used, bytes, len, &told);
    printf("received %" PRId32 " new %" PRIu64 " repeat %" PRIu64 " held %" PRIu64 " fault %d at %" PRIu64 "\n", code, told.fresh, told.repeats,
           told.held, told.fault, told.offset);
    size_t count = 0;
    if (pt_changes(used, &count) != PT_DONE || count != told.fresh) {
        printf("changes %zu\n", count);
    }
    write_changes(count);
}

static void receive_said_of(pt_site *from) {
    size_t len = 0;
    char *file = said(from, &len);
    if (file == NULL) {
        printf("wanting\n");
        return;
    }
    receive((const uint8_t *)file, len);
    free(file);
}

static void give(pt_site *from) {
    printf("export %" PRId32 "\n", pt_export(from));
    receive_said_of(from);
}

static void give_lacking(pt_site *from) {
    size_t len = 0;
    printf("ends %" PRId32 "\n", pt_ends(used));
    char *ends = said(used, &len);
    if (ends == NULL) {
        printf("wanting\n");
        return;
    }
    printf("export %" PRId32 "\n", pt_export_since(from, (const uint8_t *)ends, len));
    free(ends);
    receive_said_of(from);
}

static void receive_digits(const char *digits) {
    size_t len = strlen(digits) / 2;
    uint8_t *bytes = malloc(len + 1);
    for (size_t at = 0; at < len; at++) {
        char two[3] = {digits[2 * at], digits[2 * at + 1], 0};
        bytes[at] = (uint8_t)strtoul(two, NULL, 16);
    }
    receive(bytes, len);
    free(bytes);
}

static void write_digits(void) {
    size_t len = 0;
    int32_t code = pt_export(used);
    char *file = said(used, &len);
    printf("exported %" PRId32 " ", code);
    for (size_t at = 0; file != NULL && at < len; at++) {
        printf("%02x", (unsigned)(uint8_t)file[at]);
    }
    printf("\n");
    free(file);
}

static void write_stamp(size_t place) {
    pt_stamp stamp = {0};
    int32_t code = pt_stamp_at(used, (const uint8_t *)".t", 2, place, &stamp);
    printf("stamp %" PRId32 " %" PRIu64 ".%" PRIu32 "\n", code, stamp.count, stamp.site);
}

static void write_place(const char *word) {
    char *dot = NULL;
    pt_stamp stamp = {0};
    size_t place = 0;
    stamp.count = strtoull(word, &dot, 10);
    stamp.site = (uint32_t)strtoul(dot + 1, NULL, 10);
    int32_t code = pt_place_of(used, (const uint8_t *)".t", 2, &stamp, &place);
    printf("place %" PRId32 " %zu\n", code, place);
}

/* What a line for this program asks: its word, and the rest behind a space. */
static void directed(const char *word, const char *rest) {
    if (strcmp(word, "site") == 0) {
        used = handle(rest);
        pt_site_free(used);
        printf("site %" PRId32 "\n", pt_site_new(used, (uint32_t)strtoul(rest + 1, NULL, 10)));
    } else if (strcmp(word, "use") == 0) {
        used = handle(rest);
    } else if (strcmp(word, "free") == 0) {
        pt_site_free(handle(rest));
    } else if (strcmp(word, "receive") == 0) {
        receive_digits(rest);
    } else if (strcmp(word, "give") == 0) {
        give(handle(rest));
    } else if (strcmp(word, "lack") == 0) {
        give_lacking(handle(rest));
    } else if (strcmp(word, "own") == 0) {
        write_own();
    } else if (strcmp(word, "export") == 0) {
        write_digits();
    } else if (strcmp(word, "stamp") == 0) {
        write_stamp(strtoul(rest, NULL, 10));
    } else {
        write_place(rest);
    }
}

static void line(char *text, size_t len) {
    if (len > 0 && text[0] == 1) {
        text[len] = 0;
        char *rest = strchr(text + 1, ' ');
        if (rest != NULL) {
            *rest = 0;
        }
        directed(text + 1, rest == NULL ? "" : rest + 1);
        return;
    }
    int32_t code = pt_command(used, (const uint8_t *)text, len);
    if (code < 0) {
        printf("code %" PRId32 "\n", code);
        return;
    }
    write_said();
}

/* All of standard input, and its length. */
static char *input(size_t *len) {
    size_t room = 1 << 16, got;
    char *text = malloc(room + 1);
    *len = 0;
    while (text != NULL && (got = fread(text + *len, 1, room - *len, stdin)) > 0) {
        *len += got;
        if (*len == room) {
            room *= 2;
            text = realloc(text, room + 1);
        }
    }
    return text;
}

int main(void) {
    size_t len = 0, from = 0;
    char *text = input(&len);
    while (text != NULL && from < len) {
        char *end = memchr(text + from, '\n', len - from);
        size_t stop = end == NULL ? len : (size_t)(end - text);
        /* a carriage return before a newline is none of the line's */
        size_t dropped = end != NULL && stop > from && text[stop - 1] == '\r';
        line(text + from, stop - from - dropped);
        from = stop + 1;
    }
    free(text);
    for (size_t at = 0; at < HANDLES; at++) {
        pt_site_free(&sites[at]);
    }
    return 0;
}
