/* Content types by the ending of a path. */
#ifndef EXAMPLES_TYPES_H
#define EXAMPLES_TYPES_H

/* Reads /etc/mime.types (Debian's package media-types), if it is there, for what is not among the few types that are known here. */
void types_begin(void);
/* The type of a path without its query. */
const char *types_of(const char *path);
void types_end(void);
#endif
