/* The files that are named, each handed to the reader; one that fails ends the program.
 * usage: replay FILE..   Ends in one line 'N passed, 0 failed'. */
#include <stdint.h>
#include <stdio.h>
#include <stdlib.h>
#include <string.h>

int LLVMFuzzerTestOneInput(const uint8_t *data, size_t size);

enum { MOST = 1 << 20 };

/* A file in memory of its own length, for the checks of memory. */
static uint8_t *whole(const char *name, size_t *size) {
    static uint8_t room[MOST];
    FILE *file = fopen(name, "rb");
    uint8_t *data;
    if (!file) exit(2);
    *size = fread(room, 1, MOST, file);
    fclose(file);
    data = malloc(*size ? *size : 1);
    if (!data) exit(2);
    memcpy(data, room, *size);
    return data;
}

int main(int count, char **files) {
    int k;
    for (k = 1; k < count; k++) {
        size_t size;
        uint8_t *data = whole(files[k], &size);
        LLVMFuzzerTestOneInput(data, size);
        free(data);
    }
    printf("%d passed, 0 failed\n", count - 1);
    return 0;
}
