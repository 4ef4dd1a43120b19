/* What include/star.c and console/places.h need of stddef.h where no C library is, as in WebAssembly. */
#ifndef FREESTANDING_STDDEF_H
#define FREESTANDING_STDDEF_H
typedef __SIZE_TYPE__ size_t;
#define NULL ((void *)0)
#endif
