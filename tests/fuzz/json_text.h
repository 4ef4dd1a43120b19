/* Whether a text is one JSON value in UTF-8 and a line end (RFC 8259). */
#ifndef FUZZ_JSON_TEXT_H
#define FUZZ_JSON_TEXT_H

#include "folder.h"

int json_sound(struct bytes text);

#endif
