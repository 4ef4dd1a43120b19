/* Calls of the system that fail, for tests of the console: a library that is loaded before the
   C library's. FAILING names a call, FAILING_CALL which one in order (the first where it is not
   said), FAILING_WITH an error by its number, a signal as -NUMBER, sent before the call, or 0 for a
   call before which the shell runs FAILING_RUN. */
#define _GNU_SOURCE
#include <dlfcn.h>
#include <errno.h>
#include <signal.h>
#include <stdlib.h>
#include <string.h>
#include <sys/types.h>

static long number_in(const char *name, long otherwise) {
    const char *word = getenv(name);
    return word ? strtol(word, NULL, 10) : otherwise;
}

/* Whether this call of a function is to fail, with errno; a signal is sent here. */
static int fails(const char *call) {
    static long calls;
    const char *chosen = getenv("FAILING");
    long with = number_in("FAILING_WITH", EIO);
    if (!chosen || strcmp(chosen, call) != 0) return 0;
    if (++calls != number_in("FAILING_CALL", 1)) return 0;
    if (with < 0) {
        raise((int)-with);
        return 0;
    }
    if (with == 0) {
        unsetenv("LD_PRELOAD");
        return system(getenv("FAILING_RUN")) != 0;
    }
    errno = (int)with;
    return 1;
}

#define FAILING(type, name, taken, given) \
    type name taken { \
        type(*next) taken = (type(*) taken)dlsym(RTLD_NEXT, #name); \
        return fails(#name) ? (type)-1 : next given; \
    }

FAILING(int, mkstemp, (char *name), (name))
FAILING(ssize_t, write, (int to, const void *bytes, size_t len), (to, bytes, len))
FAILING(int, fchown, (int to, uid_t user, gid_t group), (to, user, group))
FAILING(int, fchmod, (int to, mode_t mode), (to, mode))
FAILING(int, fsync, (int to), (to))
FAILING(int, rename, (const char *from, const char *to), (from, to))
