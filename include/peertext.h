/* peertext: a replicated text widget that C holds. docs/LIBRARY.md tells how it is built, linked and used.

   A pt_site is a handle: it holds one site, or none. It begins as PT_NONE, which is all zero, in allocated memory by
   calloc or memset. Its `held` tells whether it holds a site, and may be read; nothing of it is written but by these
   functions. A handle isn't copied, since one copy would be used after another had freed the site. It may be moved: it
   is copied, and its old place is set to PT_NONE, as by `site = (pt_site)PT_NONE;`, or not used again.

   What a handle points to belongs to the library, which takes its memory by malloc and realloc and gives it back by
   free. The caller frees none of it: bytes go out into memory that the caller gives. The library keeps no pointer that
   it was given.

   Two handles share nothing: two threads may use two of them at the same time. A handle stays on one thread, and is
   never in two calls at once. No call waits, reads a file or starts a thread, and none is made from a signal handler,
   nor in a child that was forked of a process with threads.

   No pointer is NULL, not even where its length or room is 0. What two pointers of one call point to doesn't overlap.
   Lengths count bytes, and no zero byte ends what goes in or comes out. All text is UTF-8. */
#ifndef PEERTEXT_H
#define PEERTEXT_H

#include <stdbool.h>
#include <stddef.h>
#include <stdint.h>

#ifdef __cplusplus
extern "C" {
#endif

typedef struct {
    bool held;
    struct {
        void *at;
    } slot;
} pt_site;

/* A handle that holds no site, as in `pt_site site = PT_NONE;`. */
#define PT_NONE { false, { NULL } }

/* What functions answer. After an answer below 0 all is as it was before the call: the site, what it said, the changes
   that it keeps, and what pointers point to. */
enum {
    PT_DONE = 0,
    PT_NO_SITE = -1,    /* the handle holds no site */
    PT_NO_MEMORY = -2,  /* memory was wanting; the call may be made again when there is more */
    PT_IS_HELD = -3,    /* the handle holds a site already */
    PT_BAD_NUMBER = -4, /* no site has the number 0 */
    PT_BAD_BYTES = -5,  /* more than PT_MOST_BYTES bytes, or counts that aren't 12 bytes each */
    PT_NOT_THERE = -6,  /* there is no such change, widget, character or place */
    PT_NOT_KNOWN = -7   /* what the last line changed isn't known */
};

/* The most bytes of a file of operations that is received. */
#define PT_MOST_BYTES 1073741824

/* The most bytes of a line. */
#define PT_MOST_LINE_BYTES 1048576

/* Faults, by their numbers (docs/SCRIPTS.md has their causes): of a line 1 to 20, of a file 1, 18 and those from 30 on.
   1 also comes where numbers run out, and then comes again. 36, 40 and 41 never come: what is made upon an operation
   that isn't known is held, and no file is read or written. */
enum {
    PT_FAULT_NO_MEMORY = 1,
    PT_FAULT_BAD_INDEX = 2,
    PT_FAULT_NONE_TAGGED = 3,
    PT_FAULT_BAD_COMMAND = 4,
    PT_FAULT_NO_WIDGET = 5,
    PT_FAULT_WIDGET_EXISTS = 6,
    PT_FAULT_NO_TAG = 7,
    PT_FAULT_NO_MARK = 8,
    PT_FAULT_BAD_OPTION = 9,
    PT_FAULT_BACKWARDS_RANGE = 10,
    PT_FAULT_EMPTY_PATTERN = 11,
    PT_FAULT_NOTHING_TO_UNDO = 12,
    PT_FAULT_NOTHING_TO_REDO = 13,
    PT_FAULT_BAD_NAME = 14,
    PT_FAULT_BAD_VIEW = 15,
    PT_FAULT_LAST_WIDGET = 16,
    PT_FAULT_CLOCK_SPENT = 17,
    PT_FAULT_TEXT_FULL = 18,
    PT_FAULT_BAD_QUOTING = 19,
    PT_FAULT_NO_FILE = 20,
    PT_FAULT_BAD_MAGIC = 30,
    PT_FAULT_BAD_VERSION = 31,
    PT_FAULT_TRUNCATED = 32,
    PT_FAULT_BAD_RECORD = 33,
    PT_FAULT_BAD_STAMP = 34,
    PT_FAULT_CONFLICT = 35,
    PT_FAULT_NOT_YET = 36,
    PT_FAULT_BAD_TARGET = 37,
    PT_FAULT_WAITING_FULL = 38,
    PT_FAULT_READ_FAULT = 40,
    PT_FAULT_WRITE_FAULT = 41
};

/* What became of a file that was received. A held operation is tried again after each operation that is accepted. If
   memory is wanting for it then, it stays held, which no fault and no code tells. */
typedef struct {
    uint64_t fresh;   /* how many operations were accepted, held ones among them; pt_changes tells as many then */
    uint64_t repeats; /* how many of the file's operations the site had or held already */
    uint64_t held;    /* how many operations the site holds in the end, since they came early */
    uint64_t offset;  /* where the record of the fault begins in the file; 0 without a fault */
    uint8_t fault;    /* the number of the fault that ended the file early, or 0; never one of a held operation */
} pt_received;

/* The stamp of a character, which keeps it for good, on every site. That of the text's last newline is count 1 of site
   0; {0, 0} is no character's. */
typedef struct {
    uint64_t count;
    uint32_t site;
} pt_stamp;

/* Makes a new site of a number from 1 to 4294967295, which no other site of the text ever has. It is new: to go on with a
   text that it had before, it receives what it exported then, before any line (docs/LIBRARY.md, "To keep a site").
   PT_DONE; else PT_IS_HELD, PT_BAD_NUMBER or PT_NO_MEMORY. */
int32_t pt_site_new(pt_site *site, uint32_t number);

/* Frees the site of a handle, which then holds none. Of a handle that holds none nothing is done. */
void pt_site_free(pt_site *site);

/* Runs a line of a script (docs/SCRIPTS.md) of at most PT_MOST_LINE_BYTES bytes, and says its reply line, with a
   newline; of an empty line, one of blanks and a comment what is said is empty. The line is to have no newline at its
   end: nothing but `len` ends it, and a newline or return left there is the last character of its last word.
   PT_DONE; the number of the fault by which the line was refused, above 0, with its reply line `! N Name` said; else
   PT_NO_SITE. A refused line leaves the site as it was, also that which finds no memory (PT_FAULT_NO_MEMORY). No file
   can be named: `receive NAME` is refused by PT_FAULT_NO_FILE. A longer line is refused by PT_FAULT_BAD_QUOTING, and so
   is one that isn't UTF-8. What the line changed is kept for pt_change, and what was kept before goes, whatever the
   line is. */
int32_t pt_command(pt_site *site, const uint8_t *line, size_t len);

/* Copies what was said last by pt_command, pt_change, pt_export, pt_ends or pt_export_since: its first `room` bytes, or
   all of it where it has fewer. The rest of `out` stays as it was: no zero byte comes behind what was said, and zero
   bytes of a text come out as they are. What was said stays, so it can be read again.
   The length of all that was said, which may be more than `room`; else PT_NO_SITE or PT_NO_MEMORY. With a room of 0 it
   tells the length alone, and `out` isn't NULL then either. PT_NO_MEMORY comes only of a reply line for which there was
   no memory when its line was run. The line was run all the same, and its reply isn't lost: ask again. */
ptrdiff_t pt_said(pt_site *site, uint8_t *out, size_t room);

/* Receives the bytes of a file of operations (docs/FILES.md), and tells what became of it. What was said last stays.
   PT_DONE, also where the file or one of its operations has a fault, which `told` has. What came before the fault was
   taken. PT_FAULT_NO_MEMORY there says that memory was wanting for an operation of the file; the same bytes may be
   received again. Else PT_NO_SITE or PT_BAD_BYTES. */
int32_t pt_receive(pt_site *site, const uint8_t *bytes, size_t len, pt_received *told);

/* Tells how many operations were made or accepted by the last pt_command or pt_receive: those that the line made, or
   that the file had, and held ones that these let in. A line that changes no text and no tags has none. pt_change says
   what each of them changed.
   PT_DONE; else PT_NO_SITE, or PT_NOT_KNOWN: the line was run, but what it changed isn't known, for want of memory.
   Then read the text anew. */
int32_t pt_changes(pt_site *site, size_t *count);

/* Says what an operation changed in the visible text, of those that pt_changes counts, in an order in which they could
   be accepted. Their numbers are those from 0 on. Read them all before the next pt_command, also one that only asks, or
   pt_receive: each change is of the text that all before it left. It says lines, each with a newline, or what is said
   is empty where nothing changes:
       insert AT TEXT TAG ..     TEXT comes in before the character at AT, with just these tags
       delete FROM TO            the characters from FROM up to TO are gone, without that at TO
       tag NAME FROM TO          these characters get a tag
       untag NAME FROM TO        they lose it
   Words are written as in a reply. Places count characters from 0 in the whole text, whichever lines a widget shows.
   PT_DONE; else PT_NO_SITE, PT_NO_MEMORY, or PT_NOT_THERE: there is no such operation, or nothing is known. */
int32_t pt_change(pt_site *site, size_t number);

/* Says the file of all operations that the site accepted or made. Those that it holds (`held` of pt_received) are not
   in it, and are to be received again after a restart. More than PT_MOST_BYTES bytes can't be received.
   PT_DONE; else PT_NO_SITE or PT_NO_MEMORY. */
int32_t pt_export(pt_site *site);

/* Says its ends, the last count that the site knows of each site: 12 bytes for each, the number of that site (4) and
   the count (8), highest byte first. The numbers rise.
   PT_DONE; else PT_NO_SITE or PT_NO_MEMORY. */
int32_t pt_ends(pt_site *site);

/* Says the file of the operations that another site lacks, by the ends that the other one said by pt_ends: those whose last
   count is past that of their site. Of a site that isn't named there all operations are said; of one that is named
   twice the first count holds.
   PT_DONE; else PT_NO_SITE, PT_BAD_BYTES or PT_NO_MEMORY. */
int32_t pt_export_since(pt_site *site, const uint8_t *ends, size_t len);

/* Tells the stamp of the character at a place of what the widget of a path, as `.t`, shows. Places count characters
   from 0, from where the widget's lines begin.
   PT_DONE; else PT_NO_SITE, or PT_NOT_THERE: no such widget, or no character at the place. */
int32_t pt_stamp_at(pt_site *site, const uint8_t *path, size_t len, size_t place, pt_stamp *stamp);

/* Tells the place of an index, as "2.3", "end" or "insert - 1 chars", in what the widget of a path shows, counted from
   0 up to how many characters it shows.
   PT_DONE; the number of the fault by which it is refused: PT_FAULT_NO_WIDGET, PT_FAULT_BAD_INDEX,
   PT_FAULT_NONE_TAGGED, PT_FAULT_BAD_QUOTING where the path or the index is no UTF-8, or PT_FAULT_NO_MEMORY; else
   PT_NO_SITE. */
int32_t pt_place_at(pt_site *site, const uint8_t *path, size_t len, const uint8_t *index, size_t index_len,
    size_t *place);

/* Tells the place of the character of a stamp: how many characters stand before it in what the widget of a path shows.
   Where it is gone, that is the place at which it stood; where it stands outside of the widget's lines, their nearer
   end.
   PT_DONE; else PT_NO_SITE, or PT_NOT_THERE: no such widget, or no character of the stamp. */
int32_t pt_place_of(pt_site *site, const uint8_t *path, size_t len, const pt_stamp *stamp, size_t *place);

#ifdef __cplusplus
}
#endif

#endif
