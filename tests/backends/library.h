/* The doors of a shared library. */
#ifndef BACKENDS_LIBRARY_H
#define BACKENDS_LIBRARY_H

#include "calls.h"

/* Opens a library; ends the program where it cannot be. */
void *library_open(const char *name);

/* The address of a door; ends the program where the library has none. */
door_pointer library_door(void *library, const struct door *door);

#endif
