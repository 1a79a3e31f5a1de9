/* Lists of fields as h3_send_head takes them. TEST is the program's name, a literal that it defines ahead. */
#ifndef FIELD_LIST_H
#define FIELD_LIST_H
#include <h3.h>
#include <stdio.h>
#include <stdlib.h>
#include <string.h>

enum { MOST_FIELDS = 2048, MOST_BYTES = 256 * 1024 };

typedef struct {
  h3_field_size sizes[MOST_FIELDS];
  size_t count, len;
  uint8_t bytes[MOST_BYTES];
} field_list;

/* a number below this one; a program gets the same numbers in each run (xorshift) */
static inline uint32_t random_below(uint32_t below) {
  static uint64_t state = 88172645463325252u;
  state ^= state << 13;
  state ^= state >> 7;
  state ^= state << 17;
  return (uint32_t)(state >> 33) % below;
}

/* its size as a field section (RFC 9114, section 4.2.2) */
static inline uint64_t size_of(const field_list *list) { return list->len + 32 * list->count; }

static inline void add_bytes(field_list *list, const char *name, const void *value, size_t value_len) {
  size_t name_len = strlen(name);
  if (list->count == MOST_FIELDS || list->len + name_len + value_len > MOST_BYTES) {
    puts("failed " TEST ": a list of the program itself is too long");
    exit(1);
  }
  memcpy(list->bytes + list->len, name, name_len);
  memcpy(list->bytes + list->len + name_len, value, value_len);
  list->len += name_len + value_len;
  list->sizes[list->count++] = (h3_field_size){(uint32_t)name_len, (uint32_t)value_len};
}

static inline void add_field(field_list *list, const char *name, const char *value) { add_bytes(list, name, value, strlen(value)); }

static inline void begin_request(field_list *list, const char *method) {
  list->count = list->len = 0;
  add_field(list, ":method", method);
  add_field(list, ":scheme", "https");
  add_field(list, ":authority", "a");
  add_field(list, ":path", "/");
}

static inline void begin_response(field_list *list, const char *status) {
  list->count = list->len = 0;
  add_field(list, ":status", status);
}

static inline uint32_t send_list(h3_endpoint *end, uint64_t id, const field_list *list) {
  return h3_send_head(end, id, list->sizes, NULL, list->count, list->bytes, list->len, NULL);
}

/* whether the head or trailer that was pulled last has the fields of this list, in its order */
static inline int is_list(h3_endpoint *end, const h3_item *item, const field_list *list) {
  static field_list came;
  if (item->fields != list->count || h3_item_fields(end, came.sizes, NULL, MOST_FIELDS, came.bytes, MOST_BYTES)) return 0;
  return !memcmp(came.sizes, list->sizes, list->count * sizeof *list->sizes) && !memcmp(came.bytes, list->bytes, list->len);
}
#endif
