/* Output whose errors are told. What is written is put together first, and written when all of it
   is there: a file is replaced as a whole, and an error of standard output has its reason. */
#define _POSIX_C_SOURCE 200809L

#include "output.h"

#include <errno.h>
#include <inttypes.h>
#include <stdlib.h>
#include <string.h>
#include <unistd.h>

#include "faults.h"
#include "status.h"

static void complain(const struct output *o, const char *what) {
    fprintf(stderr, "%s: %s: %s\n", o->file ? o->file : "standard output", what,
            errno ? strerror(errno) : "no reason given");
}

static const char UNWRITTEN[] = "it could not be written";

/* Whether standard output is a file that is named. */
static int barred;

void output_bar(struct file_id named) {
    if (file_same(file_open(STDOUT_FILENO), named)) barred = 1;
}

FILE *output_open(struct output *o) {
    if (!o->file && barred) {
        fputs("standard output: it is a file that is named, and is left as it is\n", stderr);
        return NULL;
    }
    errno = 0;
    if (!o->to) o->to = open_memstream(&o->bytes, &o->len);
    if (!o->to) complain(o, UNWRITTEN);
    return o->to;
}

/* Ends a stream; 0 with errno if something is lost. */
static int ended(FILE *to) {
    int lost, why;
    errno = 0;
    lost = fflush(to) != 0 || ferror(to);
    why = errno;
    if (fclose(to) != 0 && !lost) {
        lost = 1;
        why = errno;
    }
    errno = why;
    return !lost;
}

/* Other names of a file that was replaced stand for the old one. */
static void tell_names(const struct output *o, struct file_id old) {
    uintmax_t others = old.names - 1;
    if (!old.regular || old.names < 2 || !file_replaced(o->file)) return;
    fprintf(stderr, "%s: the file had %" PRIuMAX " other %s the old one\n", o->file, others,
            others == 1 ? "name, which keeps" : "names, which keep");
}

static int put_in_place(const struct output *o) {
    struct file_id old = file_named(o->file);
    const struct file_id *read = o->read.regular ? &o->read : NULL;
    enum file_written said = file_write(o->file, o->bytes, o->len, read);
    if (said == FILE_WRITTEN) tell_names(o, old);
    if (said == FILE_UNWRITTEN) complain(o, UNWRITTEN);
    if (said == FILE_CHANGED)
        fprintf(stderr, "%s: it was changed after it was read, and is left as it is\n", o->file);
    if (said == FILE_UNSURE) complain(o, "it is written, but the disk did not confirm it");
    return said == FILE_WRITTEN;
}

static int put_out(const struct output *o) {
    int done;
    errno = 0;
    done = fwrite(o->bytes, 1, o->len, stdout) == o->len && ended(stdout);
    if (!done) complain(o, UNWRITTEN);
    return done;
}

int output_close(struct output *o) {
    int done;
    if (!o->to) return 1;
    done = ended(o->to);
    o->to = NULL;
    if (!done) complain(o, UNWRITTEN);
    else done = o->file ? put_in_place(o) : put_out(o);
    free(o->bytes);
    o->bytes = NULL;
    return done;
}

void output_drop(struct output *o) {
    if (!o->to || !o->file) return;
    fclose(o->to);
    free(o->bytes);
    o->to = NULL;
    o->bytes = NULL;
}

/* What is wrong, in words that --json has too. */
static int spared(const char *name, const char *why) {
    struct message words = {{0}, 0};
    say(&words, "star: %.200s is the file that is read, and is left as it is%s", name, why);
    fault_tell(&words);
    return EXIT_USAGE;
}

int output_spares(struct output *o, struct file_id read, const char *command, int table) {
    struct message why = {{0}, 0};
    if (file_same(file_open(STDOUT_FILENO), read)) {
        barred = 1;
        return spared("standard output", "; '-o FILE' replaces a file as a whole");
    }
    if (!o->file || !file_same(file_named(o->file), read)) return 0;
    if (!file_replaced(o->file)) return spared(o->file, "; it is a stream that is open");
    say(&why, ": what '%s' writes is no table that can take its place", command);
    if (!table) return spared(o->file, why.text);
    o->read = read;
    return 0;
}
