/* What http3.c sends of a list of fields. */
#ifndef EXAMPLES_HTTP3_LIST_H
#define EXAMPLES_HTTP3_LIST_H
#include "http3.h"

/* Sizes of names and values; after the last one stand the flags of each field, and then all bytes. */
struct http3_list {
  size_t count, len;
  h3_field_size sizes[];
};

static inline const uint8_t *list_flags(const http3_list *list) { return (const uint8_t *)(list->sizes + list->count); }
static inline const char *list_bytes(const http3_list *list) { return (const char *)(list_flags(list) + list->count); }
/* The section that was pulled last. NULL: out of memory. */
http3_list *list_of_item(h3_endpoint *, const h3_item *);
#endif
