/* Finds the page's program by where the console stands, so that an installed folder can be moved,
   and puts a table into it as base64: no byte of a file means anything to a browser then. */
#define _POSIX_C_SOURCE 200809L

#include "program.h"

#include <stdlib.h>
#include <string.h>
#include <unistd.h>

#include "input.h"
#include "views.h"

enum { PATH = 4096 };

/* What page/page.html has in place of a table and before its version, and how it is written with a
   table. */
static const char EMPTY[] = "<div hidden id=\"table\" data-name=\"\"></div>";
static const char VERSION[] = "<meta name=\"generator\" content=\"star ";
static const char OPENS[] = "<div hidden id=\"table\" data-name=\"";

/* From the folder of the console: as it is built, and as it is installed. */
static const char *const FILES[] = {"star.html", "../share/star/star.html"};

/* The length of the path of the console's folder, with the last '/'; 0 if it is not known. */
static size_t folder(char path[PATH]) {
    ssize_t len = readlink("/proc/self/exe", path, PATH);
    if (len <= 0 || len == PATH) return 0;
    while (len > 0 && path[len - 1] != '/') len--;
    return (size_t)len;
}

/* Where a text first stands in the program; the program's length if it does not. */
static size_t place_of(const struct program *p, const char *text) {
    size_t word = strlen(text), at;
    for (at = 0; at + word <= p->len; at++)
        if (memcmp(p->bytes + at, text, word) == 0) return at;
    return p->len;
}

/* Whether the program's version is the console's; says so where it is not. */
static int same_version(const struct program *p, const char *path) {
    const char *told = "unknown", *end = p->bytes + p->len;
    size_t at = place_of(p, VERSION), len = strlen(told);
    if (at < p->len) {
        told = p->bytes + at + sizeof VERSION - 1;
        for (len = 0; told + len < end && told[len] != '"' && len < FIGURES;) len++;
    }
    if (len == strlen(star_version()) && memcmp(told, star_version(), len) == 0) return 1;
    fprintf(
        stderr,
        "star: the page's program, %s, has the version %.*s, and this console has %s: no page is "
        "written. 'make page' builds the program anew; --static needs none.\n",
        path, (int)len, told, star_version());
    return 0;
}

static int program_read(struct program *p, const char *path) {
    FILE *from = fopen(path, "rb");
    if (!from) return 0;
    p->bytes = input_whole(from, &p->len);
    fclose(from);
    if (!p->bytes) return 0;
    p->place = place_of(p, EMPTY);
    if (p->place < p->len) return 1;
    program_close(p);
    return 0;
}

enum found program_open(struct program *p) {
    char path[PATH + sizeof "../share/star/star.html"];
    size_t len = folder(path), k;
    memset(p, 0, sizeof *p);
    for (k = 0; len > 0 && k < sizeof FILES / sizeof FILES[0]; k++) {
        strcpy(path + len, FILES[k]);
        if (!program_read(p, path)) continue;
        if (same_version(p, path)) return FOUND;
        program_close(p);
        return OTHER_VERSION;
    }
    fputs("star: the page's program is not installed ('make page' builds it): the page is written "
          "without it, as by --static\n",
          stderr);
    return NOT_FOUND;
}

void program_close(struct program *p) {
    free(p->bytes);
    p->bytes = NULL;
}

static void base64(FILE *to, const unsigned char *at, size_t len) {
    static const char digit[] = "ABCDEFGHIJKLMNOPQRSTUVWXYZabcdefghijklmnopqrstuvwxyz0123456789+/";
    size_t k;
    for (; len > 0; at += k, len -= k) {
        unsigned long bits = (unsigned long)at[0] << 16;
        k = len < 3 ? len : 3;
        if (k > 1) bits |= (unsigned long)at[1] << 8;
        if (k > 2) bits |= at[2];
        putc(digit[bits >> 18], to);
        putc(digit[bits >> 12 & 63], to);
        putc(k > 1 ? digit[bits >> 6 & 63] : '=', to);
        putc(k > 2 ? digit[bits & 63] : '=', to);
    }
}

void program_write(FILE *to, const struct program *p, const struct table *t, const char *name) {
    size_t rest = p->place + sizeof EMPTY - 1;
    const char *bytes = t->text.at - t->order_mark;
    fwrite(p->bytes, 1, p->place, to);
    fputs(OPENS, to);
    html_value(to, name);
    fputs("\">", to);
    base64(to, (const unsigned char *)bytes, t->text.len + t->order_mark);
    fputs("</div>", to);
    fwrite(p->bytes + rest, 1, p->len - rest, to);
}
