/* Files by POSIX: identity, symbolic links, and replacement by a rename. */
#define _XOPEN_SOURCE 700

#include "files.h"

#include <errno.h>
#include <fcntl.h>
#include <limits.h>
#include <signal.h>
#include <stdio.h>
#include <stdlib.h>
#include <string.h>
#include <sys/stat.h>
#include <unistd.h>

/* The name of the new file beside the old one, and the symbolic links that are followed. */
#define BESIDE "/.star-XXXXXX"
enum { LINKS = 40 };

/* ---- Identity ---- */

static const struct file_id NONE = {0, 0, 0, 0, 0, 0, 0};

static struct file_id id_of(const struct stat *s) {
    struct file_id id;
    id.regular = S_ISREG(s->st_mode);
    id.device = (uintmax_t)s->st_dev;
    id.inode = (uintmax_t)s->st_ino;
    id.names = (uintmax_t)s->st_nlink;
    id.size = (intmax_t)s->st_size;
    id.seconds = (intmax_t)s->st_mtim.tv_sec;
    id.nanoseconds = (intmax_t)s->st_mtim.tv_nsec;
    return id;
}

struct file_id file_named(const char *name) {
    struct stat s;
    return stat(name, &s) == 0 ? id_of(&s) : NONE;
}

struct file_id file_open(int descriptor) {
    struct stat s;
    return fstat(descriptor, &s) == 0 ? id_of(&s) : NONE;
}

int file_same(struct file_id one, struct file_id other) {
    if (!one.regular || !other.regular) return 0;
    return one.device == other.device && one.inode == other.inode;
}

int file_unchanged(struct file_id one, struct file_id other) {
    if (!file_same(one, other) || one.size != other.size) return 0;
    return one.seconds == other.seconds && one.nanoseconds == other.nanoseconds;
}

/* ---- Names ---- */

/* Two pieces of a name, the first cut after some bytes. NULL where there is no room. */
static char *joined(const char *first, size_t len, const char *second) {
    char *both = malloc(len + strlen(second) + 1);
    if (!both) return NULL;
    memcpy(both, first, len);
    strcpy(both + len, second);
    return both;
}

/* The folder of a name, without the / after it; that of /x is empty. */
static char *folder_of(const char *name) {
    const char *end = strrchr(name, '/');
    return end ? joined(name, (size_t)(end - name), "") : joined(".", 1, "");
}

static const char *last_of(const char *name) {
    const char *end = strrchr(name, '/');
    return end ? end + 1 : name;
}

/* The number of an open stream that a name such as /dev/fd/1 or /proc/self/fd/1 stands for;
   -1 for other names. */
static int descriptor_of(const char *name) {
    char *folder = folder_of(name), *real = NULL, *own = realpath("/proc/self/fd", NULL), *end;
    const char *last = last_of(name);
    long number = -1;
    if (folder) real = realpath(folder, NULL);
    if (real && own && strcmp(real, own) == 0 && *last >= '0' && *last <= '9') {
        number = strtol(last, &end, 10);
        if (*end || number > INT_MAX) number = -1;
    }
    free(folder);
    free(real);
    free(own);
    return (int)number;
}

/* What a symbolic link names, from the folder that it stands in. */
static char *link_of(const char *name) {
    char to[PATH_MAX], *folder, *path;
    ssize_t len = readlink(name, to, sizeof to - 1);
    if (len == (ssize_t)sizeof to - 1) errno = ENAMETOOLONG;
    if (len < 0 || len == (ssize_t)sizeof to - 1) return NULL;
    to[len] = '\0';
    if (to[0] == '/') return joined(to, (size_t)len, "");
    folder = joined(name, (size_t)(last_of(name) - name), "");
    if (!folder) return NULL;
    path = joined(folder, strlen(folder), to);
    free(folder);
    return path;
}

/* Follows symbolic links, also to a name that stands for nothing yet. NULL with errno. Where the
   name stands for a stream that is open, its number is set, and -1 otherwise. */
static char *followed(const char *name, int *descriptor) {
    char *path = joined(name, strlen(name), ""), *next;
    struct stat s;
    int links;
    for (links = 0; path && links < LINKS; links++) {
        *descriptor = descriptor_of(path);
        if (*descriptor >= 0 || lstat(path, &s) != 0 || !S_ISLNK(s.st_mode)) return path;
        next = link_of(path);
        free(path);
        path = next;
    }
    if (path) errno = ELOOP;
    free(path);
    return NULL;
}

/* ---- Signals ---- */

/* The signals that end the program. */
static const int DEADLY[] = {SIGHUP,  SIGINT,  SIGQUIT, SIGTERM, SIGPIPE,
                             SIGALRM, SIGUSR1, SIGUSR2, SIGXCPU, SIGVTALRM};
enum { DEADLIES = sizeof DEADLY / sizeof DEADLY[0] };

/* Those of them that are not ignored. */
static void ends(sigset_t *set) {
    struct sigaction now;
    size_t i;
    sigemptyset(set);
    for (i = 0; i < DEADLIES; i++)
        if (sigaction(DEADLY[i], NULL, &now) == 0 && now.sa_handler != SIG_IGN)
            sigaddset(set, DEADLY[i]);
}

/* Whether one of a set has come since they were held back. */
static int waits(const sigset_t *held) {
    sigset_t come;
    size_t i;
    if (sigpending(&come) != 0) return 0;
    for (i = 0; i < DEADLIES; i++)
        if (sigismember(held, DEADLY[i]) == 1 && sigismember(&come, DEADLY[i]) == 1) return 1;
    return 0;
}

/* ---- Writing ---- */

static int put(int to, const char *bytes, size_t len) {
    while (len > 0) {
        ssize_t done = write(to, bytes, len);
        if (done < 0 && errno != EINTR) return 0;
        if (done > 0) {
            bytes += done;
            len -= (size_t)done;
        }
    }
    return 1;
}

/* Gives a new file the old one's owner, group and mode. Where the group cannot be kept, the new one
   gets what all others have, so that no one may do more than before. */
static int take_over(int to, const struct stat *old) {
    mode_t mode = old->st_mode & 07777;
    if (fchown(to, old->st_uid, old->st_gid) != 0) {
        mode &= 0777;
        if (fchown(to, (uid_t)-1, old->st_gid) != 0) mode = (mode & 0707) | (mode & 07) << 3;
    }
    return fchmod(to, mode) == 0;
}

/* The mode of a file that is new. */
static int as_new(int to) {
    mode_t mask = umask(0);
    umask(mask);
    return fchmod(to, 0666 & ~mask) == 0;
}

/* Flushes a folder, so that a rename in it lasts; not where the system does not let it. */
static int flush_folder(const char *folder) {
    int at = open(*folder ? folder : "/", O_RDONLY | O_DIRECTORY), done, why;
    if (at < 0) return 1;
    done = fsync(at) == 0 || errno == EINVAL || errno == ENOTSUP || errno == EBADF;
    why = errno;
    close(at);
    errno = why;
    return done;
}

/* Writes all of a new file; `old` is what it replaces, or NULL. */
static int fill(int to, const struct stat *old, const char *bytes, size_t len) {
    int done = put(to, bytes, len) && (old ? take_over(to, old) : as_new(to)) && fsync(to) == 0;
    int why = errno;
    if (close(to) != 0 && done) return 0;
    errno = why;
    return done;
}

/* What is to stand in a file, and what it replaces. */
struct written {
    const char *bytes;
    size_t len;
    const struct stat *old;     /* NULL where the file is new */
    const struct file_id *read; /* what it was when it was read, or NULL */
};

/* The last look before the rename: whether a signal has come, and whether the file is as it was. */
static enum file_written looked(const char *path, const struct written *w, const sigset_t *held) {
    errno = EINTR;
    if (waits(held)) return FILE_UNWRITTEN;
    if (w->read && !file_unchanged(file_named(path), *w->read)) return FILE_CHANGED;
    return FILE_WRITTEN;
}

/* Writes a file beside another, and renames it into its place, with signals held back. */
static enum file_written renamed(const char *path, char *beside, const struct written *w) {
    enum file_written said = FILE_UNWRITTEN;
    sigset_t held, before;
    int to, why;
    ends(&held);
    sigprocmask(SIG_BLOCK, &held, &before);
    to = mkstemp(beside);
    if (to >= 0 && fill(to, w->old, w->bytes, w->len)) said = looked(path, w, &held);
    if (said == FILE_WRITTEN && rename(beside, path) != 0) said = FILE_UNWRITTEN;
    why = errno;
    if (said != FILE_WRITTEN && to >= 0) unlink(beside);
    sigprocmask(SIG_SETMASK, &before, NULL);
    errno = why;
    return said;
}

static enum file_written replace(const char *path, const struct written *w) {
    char *folder = folder_of(path), *beside = NULL;
    enum file_written said = FILE_UNWRITTEN;
    int why;
    if (folder) beside = joined(folder, strlen(folder), BESIDE);
    if (beside) said = renamed(path, beside, w);
    if (said == FILE_WRITTEN && !flush_folder(folder)) said = FILE_UNSURE;
    why = errno;
    free(folder);
    free(beside);
    errno = why;
    return said;
}

/* Writes to a stream that is not replaced, and closes it. */
static enum file_written write_to(int to, const char *bytes, size_t len) {
    int done = to >= 0 && put(to, bytes, len), why = errno;
    if (to >= 0 && close(to) != 0 && done) return FILE_UNWRITTEN;
    errno = why;
    return done ? FILE_WRITTEN : FILE_UNWRITTEN;
}

/* A regular file has to be one that may be written: a file that is protected is not replaced. */
static enum file_written write_at(const char *path, struct written *w) {
    struct stat old;
    int at;
    if (stat(path, &old) != 0) return errno == ENOENT ? replace(path, w) : FILE_UNWRITTEN;
    if (!S_ISREG(old.st_mode)) return write_to(open(path, O_WRONLY | O_NOCTTY), w->bytes, w->len);
    at = open(path, O_WRONLY | O_NONBLOCK | O_NOCTTY);
    if (at < 0) return FILE_UNWRITTEN;
    close(at);
    w->old = &old;
    return replace(path, w);
}

enum file_written file_write(const char *name, const char *bytes, size_t len,
                             const struct file_id *read) {
    struct written w = {bytes, len, NULL, read};
    int descriptor, why;
    char *path = followed(name, &descriptor);
    enum file_written said;
    if (!path) return FILE_UNWRITTEN;
    if (descriptor >= 0) said = write_to(dup(descriptor), bytes, len);
    else said = write_at(path, &w);
    why = errno;
    free(path);
    errno = why;
    return said;
}

int file_replaced(const char *name) {
    int descriptor;
    char *path = followed(name, &descriptor);
    struct stat s;
    int replaced = path && descriptor < 0 && (stat(path, &s) != 0 || S_ISREG(s.st_mode));
    free(path);
    return replaced;
}

void file_limit_told(void) { signal(SIGXFSZ, SIG_IGN); }
