/* The doors of a shared library. */
#include "library.h"

#include <dlfcn.h>
#include <stdio.h>
#include <stdlib.h>

void *library_open(const char *name) {
    void *library = dlopen(name, RTLD_NOW | RTLD_LOCAL);
    if (library) return library;
    fprintf(stderr, "%s\n", dlerror());
    exit(2);
}

door_pointer library_door(void *library, const struct door *door) {
    union {
        void *found;
        door_pointer door;
    } at;
    at.found = dlsym(library, door->name);
    if (at.found) return at.door;
    fprintf(stderr, "the library has no %s\n", door->name);
    exit(2);
}
