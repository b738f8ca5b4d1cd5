/* A Tcl package over the C library, for Tcl 8.6. README.md tells how it is built.

   `peertext::site NAME NUMBER` makes a command NAME, which holds a new site:

       NAME do WORD ..          runs a line of these words; answers the list of the words of its reply
       NAME receive BYTES       takes a file; answers a dict of fresh, repeats, held, fault and offset
       NAME changes             the changes that the last of these two made, a list each, to be made in order:
                                {insert AT TEXT TAG ..} {delete FROM TO} {tag NAME FROM TO} {untag NAME FROM TO}
       NAME export              the file of all operations, as bytes
       NAME ends                what the site has of each site, as bytes
       NAME since ENDS          the file of the operations past such ends, as bytes
       NAME stamp PATH PLACE    the stamp of the character at a place, a list of a count and a site's number
       NAME place PATH STAMP    the place of the character of a stamp
       NAME free                takes the command away, as `rename NAME {}` does; its site is freed

   What is refused is an error, whose errorCode is {PEERTEXT number name}, as {PEERTEXT 2 BadIndex}. The numbers are
   those of peertext.h. `free` and wrong numbers of words have the error codes of Tcl.

   Most builds of Tcl 8.6 have characters of 16 bits (TCL_UTF_MAX is 3) and count one above U+FFFF twice. Then such a
   character goes in as what it is and comes out as one U+FFFD, so that places count alike in the site and in Tcl. */
#include "peertext.h"

#include <string.h>
#include <tcl.h>

typedef struct {
    pt_site site;
    Tcl_Command command;
} Site;

/* What was said, in memory that ckfree gives back. */
typedef struct {
    char *bytes;
    size_t length;
} Said;

static const char *name_of(int code) {
    switch (code) {
    case PT_NO_SITE:
        return "NoSite";
    case PT_NO_MEMORY:
        return "NoMemory";
    case PT_IS_HELD:
        return "IsHeld";
    case PT_BAD_NUMBER:
        return "BadNumber";
    case PT_BAD_BYTES:
        return "BadBytes";
    case PT_NOT_THERE:
        return "NotThere";
    case PT_NOT_KNOWN:
        return "NotKnown";
    default:
        return "Refused";
    }
}

static int refuse(Tcl_Interp *interp, int code, const char *name) {
    Tcl_Obj *words[3] = {Tcl_NewStringObj("PEERTEXT", -1), Tcl_NewIntObj(code), Tcl_NewStringObj(name, -1)};
    Tcl_SetObjErrorCode(interp, Tcl_NewListObj(3, words));
    Tcl_SetObjResult(interp, Tcl_ObjPrintf("peertext: %d %s", code, name));
    return TCL_ERROR;
}

static int refuse_code(Tcl_Interp *interp, int code) {
    return refuse(interp, code, name_of(code));
}

/* Reads all that the site said last. */
static int read_said(Tcl_Interp *interp, pt_site *site, Said *said) {
    size_t room = 256;
    for (;;) {
        said->bytes = ckalloc((unsigned)room);
        ptrdiff_t whole = pt_said(site, (uint8_t *)said->bytes, room);
        if (whole >= 0 && (size_t)whole <= room) {
            said->length = (size_t)whole;
            return TCL_OK;
        }
        ckfree(said->bytes);
        if (whole < 0 || whole > PT_MOST_BYTES) {
            return refuse_code(interp, whole < 0 ? (int)whole : PT_NO_MEMORY);
        }
        room = (size_t)whole;
    }
}

/* The text of UTF-8 bytes, as Tcl keeps it: a zero takes two bytes, what Tcl can't hold as one character is U+FFFD. */
static Tcl_Obj *text_of(const char *bytes, size_t length) {
    Tcl_DString text;
    Tcl_DStringInit(&text);
    for (size_t i = 0; i < length;) {
        unsigned char first = (unsigned char)bytes[i];
        int size = first < 0x80 ? 1 : first < 0xE0 ? 2 : first < 0xF0 ? 3 : 4;
        if (first == 0) {
            Tcl_DStringAppend(&text, "\xC0\x80", 2);
        } else if (size == 4 && sizeof(Tcl_UniChar) == 2) {
            Tcl_DStringAppend(&text, "\xEF\xBF\xBD", 3);
        } else {
            Tcl_DStringAppend(&text, bytes + i, size);
        }
        i += (size_t)size;
    }
    Tcl_Obj *made = Tcl_NewStringObj(Tcl_DStringValue(&text), Tcl_DStringLength(&text));
    Tcl_DStringFree(&text);
    return made;
}

/* The UTF-8 bytes of a text. Half of a pair stays what it is, which the library refuses by BadQuoting. */
static void utf8_of(Tcl_Obj *text, Tcl_DString *bytes) {
    int length;
    const char *from = Tcl_GetStringFromObj(text, &length);
    Tcl_Encoding encoding = Tcl_GetEncoding(NULL, "utf-8");
    Tcl_UtfToExternalDString(encoding, from, length, bytes);
    Tcl_FreeEncoding(encoding);
}

/* Adds a word to a line, in quotes, whatever is in it. */
static void add_word(Tcl_DString *line, Tcl_Obj *word) {
    Tcl_DString bytes;
    utf8_of(word, &bytes);
    const char *from = Tcl_DStringValue(&bytes);
    Tcl_DStringAppend(line, Tcl_DStringLength(line) > 0 ? " \"" : "\"", -1);
    for (int i = 0; i < Tcl_DStringLength(&bytes); i++) {
        if (from[i] == '"' || from[i] == '\\') {
            Tcl_DStringAppend(line, "\\", 1);
        }
        Tcl_DStringAppend(line, from + i, 1);
    }
    Tcl_DStringAppend(line, "\"", 1);
    Tcl_DStringFree(&bytes);
}

/* Reads the words of a line that the library said, up to its newline, and answers where it ends. */
static const char *read_words(const char *at, const char *end, Tcl_Obj *words) {
    Tcl_DString word;
    Tcl_DStringInit(&word);
    while (at < end && *at != '\n') {
        if (*at == ' ') {
            at++;
            continue;
        }
        Tcl_DStringSetLength(&word, 0);
        if (*at == '"') {
            for (at++; at < end && *at != '"'; at++) {
                char it = *at;
                if (it == '\\' && at + 1 < end) {
                    at++;
                    it = *at == 'n' ? '\n' : *at == 't' ? '\t' : *at == 'r' ? '\r' : *at;
                }
                Tcl_DStringAppend(&word, &it, 1);
            }
            at += at < end;
        } else {
            const char *from = at;
            while (at < end && *at != ' ' && *at != '\n') {
                at++;
            }
            Tcl_DStringAppend(&word, from, (int)(at - from));
        }
        Tcl_ListObjAppendElement(NULL, words, text_of(Tcl_DStringValue(&word), (size_t)Tcl_DStringLength(&word)));
    }
    Tcl_DStringFree(&word);
    return at < end ? at + 1 : end;
}

static int run(Tcl_Interp *interp, pt_site *site, int count, Tcl_Obj *const words[]) {
    Tcl_DString line;
    Said said;
    Tcl_DStringInit(&line);
    for (int i = 0; i < count; i++) {
        add_word(&line, words[i]);
    }
    int code = pt_command(site, (const uint8_t *)Tcl_DStringValue(&line), (size_t)Tcl_DStringLength(&line));
    Tcl_DStringFree(&line);
    if (code < 0) {
        return refuse_code(interp, code);
    }
    if (read_said(interp, site, &said) != TCL_OK) {
        return TCL_ERROR;
    }
    Tcl_Obj *reply = Tcl_NewListObj(0, NULL);
    read_words(said.bytes, said.bytes + said.length, reply);
    ckfree(said.bytes);
    Tcl_IncrRefCount(reply);
    if (code > 0) {
        Tcl_Obj *name = NULL;
        Tcl_ListObjIndex(NULL, reply, 2, &name);
        refuse(interp, code, name != NULL ? Tcl_GetString(name) : name_of(code));
    } else {
        Tcl_ListObjReplace(NULL, reply, 0, 1, 0, NULL);
        Tcl_SetObjResult(interp, reply);
    }
    Tcl_DecrRefCount(reply);
    return code > 0 ? TCL_ERROR : TCL_OK;
}

/* Adds the changes of a number to a list. */
static int add_changes(Tcl_Interp *interp, pt_site *site, size_t number, Tcl_Obj *changes) {
    Said said;
    int code = pt_change(site, number);
    if (code != PT_DONE) {
        return refuse_code(interp, code);
    }
    if (read_said(interp, site, &said) != TCL_OK) {
        return TCL_ERROR;
    }
    const char *end = said.bytes + said.length;
    for (const char *at = said.bytes; at < end;) {
        Tcl_Obj *change = Tcl_NewListObj(0, NULL);
        at = read_words(at, end, change);
        Tcl_ListObjAppendElement(NULL, changes, change);
    }
    ckfree(said.bytes);
    return TCL_OK;
}

static int tell_changes(Tcl_Interp *interp, pt_site *site) {
    size_t count = 0;
    int code = pt_changes(site, &count);
    if (code != PT_DONE) {
        return refuse_code(interp, code);
    }
    Tcl_Obj *changes = Tcl_NewListObj(0, NULL);
    Tcl_IncrRefCount(changes);
    int status = TCL_OK;
    for (size_t number = 0; number < count && status == TCL_OK; number++) {
        status = add_changes(interp, site, number, changes);
    }
    if (status == TCL_OK) {
        Tcl_SetObjResult(interp, changes);
    }
    Tcl_DecrRefCount(changes);
    return status;
}

/* The bytes of a value, or NULL with an error where it has a character that is no byte. */
static const unsigned char *bytes_of(Tcl_Interp *interp, Tcl_Obj *value, int *length) {
    if (value->bytes != NULL) {
        const char *at = value->bytes, *end = at + value->length;
        while (at < end) {
            Tcl_UniChar it = 0;
            at += Tcl_UtfToUniChar(at, &it);
            if (it > 0xFF) {
                refuse_code(interp, PT_BAD_BYTES);
                return NULL;
            }
        }
    }
    return Tcl_GetByteArrayFromObj(value, length);
}

static void put(Tcl_Obj *dict, const char *key, uint64_t value) {
    Tcl_DictObjPut(NULL, dict, Tcl_NewStringObj(key, -1), Tcl_NewWideIntObj((Tcl_WideInt)value));
}

static int receive(Tcl_Interp *interp, pt_site *site, Tcl_Obj *value) {
    int length;
    pt_received told;
    const unsigned char *bytes = bytes_of(interp, value, &length);
    if (bytes == NULL) {
        return TCL_ERROR;
    }
    int code = pt_receive(site, bytes, (size_t)length, &told);
    if (code != PT_DONE) {
        return refuse_code(interp, code);
    }
    Tcl_Obj *dict = Tcl_NewDictObj();
    put(dict, "fresh", told.fresh);
    put(dict, "repeats", told.repeats);
    put(dict, "held", told.held);
    put(dict, "fault", told.fault);
    put(dict, "offset", told.offset);
    Tcl_SetObjResult(interp, dict);
    return TCL_OK;
}

/* Answers the bytes that a call said which answered a code. */
static int tell_bytes(Tcl_Interp *interp, pt_site *site, int code) {
    Said said;
    if (code != PT_DONE) {
        return refuse_code(interp, code);
    }
    if (read_said(interp, site, &said) != TCL_OK) {
        return TCL_ERROR;
    }
    Tcl_SetObjResult(interp, Tcl_NewByteArrayObj((const unsigned char *)said.bytes, (int)said.length));
    ckfree(said.bytes);
    return TCL_OK;
}

static int tell_since(Tcl_Interp *interp, pt_site *site, Tcl_Obj *ends) {
    int length;
    const unsigned char *bytes = bytes_of(interp, ends, &length);
    return bytes == NULL ? TCL_ERROR : tell_bytes(interp, site, pt_export_since(site, bytes, (size_t)length));
}

static int tell_stamp(Tcl_Interp *interp, pt_site *site, Tcl_Obj *path, Tcl_Obj *at) {
    Tcl_WideInt place;
    Tcl_DString bytes;
    pt_stamp stamp;
    if (Tcl_GetWideIntFromObj(interp, at, &place) != TCL_OK) {
        return TCL_ERROR;
    }
    utf8_of(path, &bytes);
    int code = pt_stamp_at(site, (const uint8_t *)Tcl_DStringValue(&bytes), (size_t)Tcl_DStringLength(&bytes),
                           (size_t)place, &stamp);
    Tcl_DStringFree(&bytes);
    if (code != PT_DONE) {
        return refuse_code(interp, code);
    }
    Tcl_Obj *words[2] = {Tcl_NewWideIntObj((Tcl_WideInt)stamp.count), Tcl_NewIntObj(stamp.site)};
    Tcl_SetObjResult(interp, Tcl_NewListObj(2, words));
    return TCL_OK;
}

static int tell_place(Tcl_Interp *interp, pt_site *site, Tcl_Obj *path, Tcl_Obj *value) {
    Tcl_WideInt count, number;
    Tcl_Obj **words;
    int length;
    Tcl_DString bytes;
    size_t place = 0;
    if (Tcl_ListObjGetElements(interp, value, &length, &words) != TCL_OK) {
        return TCL_ERROR;
    }
    if (length != 2) {
        return refuse_code(interp, PT_NOT_THERE);
    }
    if (Tcl_GetWideIntFromObj(interp, words[0], &count) != TCL_OK ||
        Tcl_GetWideIntFromObj(interp, words[1], &number) != TCL_OK) {
        return TCL_ERROR;
    }
    if (number < 0 || number > UINT32_MAX) {
        return refuse_code(interp, PT_NOT_THERE);
    }
    pt_stamp stamp = {(uint64_t)count, (uint32_t)number};
    utf8_of(path, &bytes);
    int code = pt_place_of(site, (const uint8_t *)Tcl_DStringValue(&bytes), (size_t)Tcl_DStringLength(&bytes), &stamp,
                           &place);
    Tcl_DStringFree(&bytes);
    if (code != PT_DONE) {
        return refuse_code(interp, code);
    }
    Tcl_SetObjResult(interp, Tcl_NewWideIntObj((Tcl_WideInt)place));
    return TCL_OK;
}

static const char *const ASKED[] = {"changes", "do",      "ends",  "export", "free",
                                    "place",   "receive", "since", "stamp",  NULL};
enum { CHANGES, DO, ENDS, EXPORT, FREE, PLACE, RECEIVE, SINCE, STAMP };

/* What each takes behind its name, in how many words; `do` takes one at least. */
static const char *const MEANT[] = {NULL,         "word ?word ...?", NULL,   NULL,        NULL,
                                    "path stamp", "bytes",           "ends", "path place"};
static const int TAKEN[] = {0, 1, 0, 0, 0, 2, 1, 1, 2};

static int ask(ClientData data, Tcl_Interp *interp, int count, Tcl_Obj *const words[]) {
    Site *it = data;
    pt_site *site = &it->site;
    int asked;
    if (count < 2) {
        Tcl_WrongNumArgs(interp, 1, words, "option ?word ...?");
        return TCL_ERROR;
    }
    if (Tcl_GetIndexFromObj(interp, words[1], ASKED, "option", TCL_EXACT, &asked) != TCL_OK) {
        return TCL_ERROR;
    }
    if (asked == DO ? count < 3 : count != 2 + TAKEN[asked]) {
        Tcl_WrongNumArgs(interp, 2, words, MEANT[asked]);
        return TCL_ERROR;
    }
    switch (asked) {
    case CHANGES:
        return tell_changes(interp, site);
    case DO:
        return run(interp, site, count - 2, words + 2);
    case ENDS:
        return tell_bytes(interp, site, pt_ends(site));
    case EXPORT:
        return tell_bytes(interp, site, pt_export(site));
    case FREE:
        Tcl_DeleteCommandFromToken(interp, it->command);
        return TCL_OK;
    case PLACE:
        return tell_place(interp, site, words[2], words[3]);
    case RECEIVE:
        return receive(interp, site, words[2]);
    case SINCE:
        return tell_since(interp, site, words[2]);
    default:
        return tell_stamp(interp, site, words[2], words[3]);
    }
}

static void free_site(ClientData data) {
    Site *it = data;
    pt_site_free(&it->site);
    ckfree((char *)it);
}

static int make_site(ClientData data, Tcl_Interp *interp, int count, Tcl_Obj *const words[]) {
    Tcl_WideInt number;
    (void)data;
    if (count != 3) {
        Tcl_WrongNumArgs(interp, 1, words, "name number");
        return TCL_ERROR;
    }
    if (Tcl_GetWideIntFromObj(interp, words[2], &number) != TCL_OK) {
        return TCL_ERROR;
    }
    const char *name = Tcl_GetString(words[1]);
    if (Tcl_FindCommand(interp, name, NULL, TCL_GLOBAL_ONLY) != NULL) {
        return refuse_code(interp, PT_IS_HELD);
    }
    Site *it = (Site *)ckalloc(sizeof *it);
    memset(it, 0, sizeof *it);
    int code = number < 1 || number > UINT32_MAX ? PT_BAD_NUMBER : pt_site_new(&it->site, (uint32_t)number);
    if (code != PT_DONE) {
        ckfree((char *)it);
        return refuse_code(interp, code);
    }
    it->command = Tcl_CreateObjCommand(interp, name, ask, it, free_site);
    Tcl_SetObjResult(interp, words[1]);
    return TCL_OK;
}

extern int Peertext_Init(Tcl_Interp *interp);

int Peertext_Init(Tcl_Interp *interp) {
    if (Tcl_InitStubs(interp, "8.6", 0) == NULL) {
        return TCL_ERROR;
    }
    Tcl_CreateObjCommand(interp, "::peertext::site", make_site, NULL, NULL);
    return Tcl_PkgProvide(interp, "peertext", "1.0");
}
