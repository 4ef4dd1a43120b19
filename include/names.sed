# sed -n -f names.sed star.h: the names of the functions that the header declares or defines, a line each.
s/^\(STAR_INLINE \|const \)*[a-z].* \**\(star_[a-z0-9_]*\)(.*/\2/p
