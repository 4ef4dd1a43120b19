/* Files, byte order marks, and which of the two layouts a text has. */
#define _POSIX_C_SOURCE 200809L

#include "input.h"

#include <errno.h>
#include <stdlib.h>
#include <string.h>

#include "reading.h"
#include "status.h"
#include "stp.h"

/* The longest file that is read: far above what 1,024 trenches need. */
enum { MOST = 1 << 24 };

char *input_whole(FILE *from, size_t *len) {
    size_t room = 1 << 16, got;
    char *bytes = malloc(room), *more;
    *len = 0;
    while (bytes && *len <= MOST && (got = fread(bytes + *len, 1, room - *len, from)) > 0) {
        *len += got;
        if (*len < room) continue;
        more = realloc(bytes, room *= 2);
        if (!more) free(bytes);
        bytes = more;
    }
    if (bytes && ferror(from)) {
        free(bytes);
        bytes = NULL;
    }
    return bytes;
}

static int opens(struct span text, const char *bytes) {
    return text.len >= strlen(bytes) && memcmp(text.at, bytes, strlen(bytes)) == 0;
}

static int unreadable(const struct input *in, struct message *fault, const char *why) {
    say_place(fault, in->file, 0);
    say(fault, "%s", why);
    return EXIT_UNREADABLE;
}

int input_open(struct input *in, const char *file, struct message *fault) {
    FILE *from = stdin;
    size_t len = 0;
    memset(in, 0, sizeof *in);
    in->file = "standard input";
    errno = 0;
    if (file && strcmp(file, "-") != 0) {
        in->file = file;
        from = fopen(file, "rb");
    }
    if (from) in->id = file_open(fileno(from));
    if (from) in->bytes = input_whole(from, &len);
    if (!in->bytes) unreadable(in, fault, errno ? strerror(errno) : "it cannot be read");
    if (from && from != stdin) fclose(from);
    if (!in->bytes) return EXIT_UNREADABLE;
    if (len > MOST)
        return unreadable(in, fault,
                          "it has more than 16777216 bytes, far more than 1024 trenches need");
    in->text.at = in->bytes;
    in->text.len = len;
    if (opens(in->text, "\xff\xfe") || opens(in->text, "\xfe\xff"))
        return unreadable(in, fault, "it is UTF-16 text; save it as UTF-8 or ASCII");
    len = reading_order_mark(in->text.at, in->text.len);
    in->text.at += len;
    in->text.len -= len;
    in->stp = reading_is_stp(in->text.at, in->text.len);
    return 0;
}

int input_table(const struct input *in, struct table *t, struct message *fault) {
    memset(t, 0, sizeof *t);
    t->file = in->file;
    t->text = in->text;
    t->order_mark = (size_t)(in->text.at - in->bytes);
    t->stp = in->stp;
    if (in->stp) return stp_read(t, in->text, fault) ? 0 : EXIT_REFUSED;
    return table_read(t, fault);
}

void input_close(struct input *in) { free(in->bytes); }
