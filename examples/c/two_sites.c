/* Two sites that edit one text, exchange their operations and then show the same. docs/LIBRARY.md tells how it is
   built. */
#include "peertext.h"

#include <stdio.h>
#include <stdlib.h>
#include <string.h>

static uint8_t bytes[65536];

/* Puts what a site said into the bytes, and answers how many there are. What needs more room ends the program. */
static size_t said(pt_site *site) {
    ptrdiff_t whole = pt_said(site, bytes, sizeof bytes);
    if (whole < 0 || (size_t)whole > sizeof bytes) {
        exit(1);
    }
    return (size_t)whole;
}

/* Runs a line. Its reply is in the bytes then, and its length is answered. */
static size_t ask(pt_site *site, const char *line) {
    if (pt_command(site, (const uint8_t *)line, strlen(line)) != PT_DONE) {
        exit(1);
    }
    return said(site);
}

/* Gives a site all operations of another one. */
static void send(pt_site *from, pt_site *to) {
    pt_received told;
    if (pt_export(from) != PT_DONE) {
        exit(1);
    }
    size_t len = said(from);
    if (pt_receive(to, bytes, len, &told) != PT_DONE || told.fault != 0) {
        exit(1);
    }
}

static void show(const char *name, pt_site *site) {
    size_t len = ask(site, ".t get 1.0 end");
    printf("%s: ", name);
    fwrite(bytes, 1, len, stdout);
}

int main(void) {
    pt_site one = PT_NONE, two = PT_NONE;
    if (pt_site_new(&one, 1) != PT_DONE || pt_site_new(&two, 2) != PT_DONE) {
        return 1;
    }
    ask(&one, ".t insert 1.0 \"milk, bread\"");
    send(&one, &two);
    ask(&one, ".t insert 1.0 \"buy \"");
    ask(&two, ".t replace 1.6 1.11 butter");
    send(&one, &two);
    send(&two, &one);
    show("one", &one);
    show("two", &two);
    pt_site_free(&one);
    pt_site_free(&two);
    return 0;
}
