/* Files of the system: which one a name stands for, and one that is replaced as a whole. */
#ifndef CONSOLE_FILES_H
#define CONSOLE_FILES_H

#include <stddef.h>
#include <stdint.h>

/* A regular file, by its device and inode: it is the same under each of its names. */
struct file_id {
    int regular; /* whether it is one; the rest counts only then */
    uintmax_t device, inode;
    uintmax_t names;
    intmax_t size, seconds, nanoseconds; /* its length, and when it was changed last */
};

struct file_id file_named(const char *name);
struct file_id file_open(int descriptor);
int file_same(struct file_id one, struct file_id other);

/* Whether it is also as it was. */
int file_unchanged(struct file_id one, struct file_id other);

/* Whether file_write replaces what a name stands for: a regular file, or none yet. It does not
   replace a device, a pipe or a stream that is open already, such as /dev/stdout. */
int file_replaced(const char *name);

/* Has a limit on the size of files told as an error, and not by a signal that ends the program. */
void file_limit_told(void);

enum file_written {
    FILE_UNWRITTEN, /* with errno; a file that was to be replaced is as it was */
    FILE_WRITTEN,
    FILE_UNSURE, /* with errno; it is replaced, but may be the old one after a power failure */
    FILE_CHANGED /* it is not as it was when it was read, and is left so */
};

/* Writes a file. One that is replaced is written beside the old one, flushed to the disk, gets the
   old one's mode and owner, and takes its place by a rename: at every moment the name stands for
   the old file or for the whole new one. A signal that ends the program before the rename leaves
   the old file and nothing beside it; SIGKILL may leave a file .star-XXXXXX. `read` is the file as
   it was when it was read, where it is to be replaced, or NULL. */
enum file_written file_write(const char *name, const char *bytes, size_t len,
                             const struct file_id *read);

#endif
