#define _POSIX_C_SOURCE 200809L

#include "folder.h"

#include <dirent.h>
#include <fcntl.h>
#include <limits.h>
#include <stdio.h>
#include <stdlib.h>
#include <string.h>
#include <sys/stat.h>
#include <unistd.h>

enum { MOST = 1 << 22 };

/* Nothing here has to outlive a power failure. */
int fsync(int descriptor) {
    (void)descriptor;
    return 0;
}

static char path[PATH_MAX];
static FILE *own_output;
static int own_descriptor;

static void must(int done, const char *what) {
    if (done) return;
    perror(what);
    _exit(2);
}

static int is_kept(const char *name) {
    return !strcmp(name, ".") || !strcmp(name, "..") || !strcmp(name, "within") ||
           !strcmp(name, "link");
}

/* Each call removed its files. */
static void folder_remove(void) {
    if (unlink("link") == 0 && rmdir("within") == 0 && chdir("..") == 0) rmdir(path);
}

static void folder_make(void) {
    const char *at = getenv("TMPDIR");
    if (path[0]) return;
    snprintf(path, sizeof path, "%s/star-fuzz-XXXXXX", at && *at ? at : "/tmp");
    must(mkdtemp(path) && chdir(path) == 0, "the folder");
    must(symlink("plan", "link") == 0 && mkdir("within", 0700) == 0, "the folder's files");
    own_output = stdout;
    own_descriptor = dup(STDOUT_FILENO);
    atexit(folder_remove);
}

static void write_file(const char *name, struct bytes bytes) {
    FILE *to = fopen(name, "wb");
    must(to && fwrite(bytes.at, 1, bytes.len, to) == bytes.len && fclose(to) == 0, name);
}

/* The console closes standard output when it has written to it. */
static void output_opened(void) {
    int to = open("said", O_WRONLY | O_CREAT | O_TRUNC, 0600);
    must(to >= 0 && dup2(to, STDOUT_FILENO) == STDOUT_FILENO && close(to) == 0, "said");
    stdout = fdopen(STDOUT_FILENO, "wb");
    must(stdout != NULL, "standard output");
}

static void output_restored(void) {
    if (fcntl(STDOUT_FILENO, F_GETFD) >= 0) fclose(stdout);
    must(dup2(own_descriptor, STDOUT_FILENO) == STDOUT_FILENO, "standard output");
    stdout = own_output;
}

void folder_fill(struct bytes plan, struct bytes other) {
    folder_make();
    write_file("plan", plan);
    write_file("other", other);
    must(freopen("plan", "rb", stdin) != NULL, "standard input");
    output_opened();
}

/* A file's bytes; none if it is too long. */
static struct bytes read_file(const char *name, uint8_t *room) {
    struct bytes read = {room, 0};
    FILE *from = fopen(name, "rb");
    must(from != NULL, name);
    read.len = fread(room, 1, MOST, from);
    if (read.len == MOST) read.len = 0;
    fclose(from);
    return read;
}

static int same(struct bytes one, struct bytes other) {
    return one.len == other.len && (one.len == 0 || memcmp(one.at, other.at, one.len) == 0);
}

/* Counts a file that is new, or not as it was, and keeps its bytes. */
static void count(struct left *left, struct bytes now, const struct bytes *before) {
    static uint8_t changed[MOST];
    if (before && same(now, *before)) return;
    memcpy(changed, now.at, now.len);
    left->changes++;
    left->changed.at = changed;
    left->changed.len = now.len;
}

struct left folder_look(struct bytes plan, struct bytes other) {
    static uint8_t said[MOST], room[MOST];
    struct left left = {{said, 0}, 2, {said, 0}}; /* plan and other, until they are found */
    const struct dirent *entry;
    DIR *folder;
    output_restored();
    folder = opendir(".");
    must(folder != NULL, "the folder");
    while ((entry = readdir(folder))) {
        const char *name = entry->d_name;
        int is_plan = !strcmp(name, "plan"), is_read = is_plan || !strcmp(name, "other");
        if (is_kept(name)) continue;
        if (is_read) left.changes--;
        if (!strcmp(name, "said")) left.said = read_file(name, said);
        else if (is_read) count(&left, read_file(name, room), is_plan ? &plan : &other);
        else count(&left, read_file(name, room), NULL);
        must(unlink(name) == 0, name);
    }
    closedir(folder);
    return left;
}
