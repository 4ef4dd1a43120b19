/* The functions whose code stands in the header, as functions of the library. */
#define STAR_INLINE
#include "star.h"
