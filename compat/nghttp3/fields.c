/* fields.c: lists of fields as h3.h and as nghttp3 have them, and nghttp3's checks of a name and a value. */
#include <stdlib.h>
#include <string.h>
#include "connection.h"

/* ---- to h3.h ---- */

/* The bytes that field_list_at writes, at most SIZE_MAX: then no memory is there for them. */
size_t field_list_size(const nghttp3_nv *fields, size_t count) {
  size_t size = count * (sizeof(h3_field_size) + 1), bits = 0; /* bits: those of all lengths */
  for (size_t i = 0; i < count; i++) {
    bits |= fields[i].namelen | fields[i].valuelen;
    size += fields[i].namelen + fields[i].valuelen;
  }
  return bits > UINT32_MAX ? SIZE_MAX : size;
}

/* memcpy, without a call for the few bytes that most names and values have. Answers the place after them. */
static inline uint8_t *copy(uint8_t *to, const uint8_t *from, size_t size) {
  if (size > 16) memcpy(to, from, size);
  else if (size >= 8) memcpy(to, from, 8), memcpy(to + size - 8, from + size - 8, 8);
  else if (size >= 4) memcpy(to, from, 4), memcpy(to + size - 4, from + size - 4, 4);
  else if (size >= 2) memcpy(to, from, 2), memcpy(to + size - 2, from + size - 2, 2);
  else if (size == 1) *to = *from;
  return to + size;
}

/* `place` is aligned for h3_field_size. */
inline field_list field_list_at(void *place, const nghttp3_nv *fields, size_t count) {
  field_list list = {count, 0, place, false};
  uint8_t *flags = field_list_flags(&list), *begin = flags + count, *to = begin;
  for (size_t i = 0; i < count; i++) {
    flags[i] = fields[i].flags & NGHTTP3_NV_FLAG_NEVER_INDEX ? H3_NEVER_INDEX : 0;
    list.has_flags |= flags[i] != 0;
    list.sizes[i] = (h3_field_size){(uint32_t)fields[i].namelen, (uint32_t)fields[i].valuelen};
    to = copy(to, fields[i].name, fields[i].namelen);
    to = copy(to, fields[i].value, fields[i].valuelen);
  }
  list.length = (size_t)(to - begin);
  return list;
}

/* Names without letters in upper case. Were there any? */
APART bool field_list_lower(const field_list *list) {
  bool has_upper = false;
  uint8_t *at = field_list_bytes(list);
  for (size_t i = 0; i < list->count; at += list->sizes[i++].value)
    for (const uint8_t *end = at + list->sizes[i].name; at < end; at++)
      if (*at >= 'A' && *at <= 'Z') *at = (uint8_t)(*at - 'A' + 'a'), has_upper = true;
  return has_upper;
}

/* ---- to nghttp3: names and values that the application may hold on to, each with a NUL after it ---- */

enum { STEP = 16 }; /* of copying, in bytes */

/* Copies bytes down to where they end. The STEP bytes from there on are not kept, and as many after `from` are read. */
static inline void copy_down(uint8_t *to, const uint8_t *from, size_t size) {
  if (size > 8 * STEP) {
    memmove(to, from, size);
    return;
  }
  size_t at = 0;
  do {
    uint64_t some[STEP / sizeof(uint64_t)];
    memcpy(some, from + at, STEP);
    memcpy(to + at, some, STEP);
  } while ((at += STEP) < size);
}

/* Names and values move down from `from`, to make room for the NULs. */
static void spread(section *all, size_t count, const h3_field_size *sizes, uint8_t *to, const uint8_t *from) {
  nghttp3_rcbuf *buffer = all->buffers;
  for (size_t i = 0; i < count; i++) {
    size_t lengths[] = {sizes[i].name, sizes[i].value};
    for (int part = 0; part < 2; part++, buffer++) {
      size_t size = lengths[part];
      *buffer = (nghttp3_rcbuf){all, {to, size}};
      copy_down(to, from, size);
      to[size] = 0;
      to += size + 1, from += size;
    }
  }
}

/* A section with room for so many bytes after its struct: the spare one, if it has. */
static section *section_of_room(nghttp3_conn *connection, size_t room) {
  section *all = connection->spare_section;
  connection->spare_section = NULL;
  if (all && all->room >= room) return all;
  free(all);
  all = malloc(sizeof *all + room);
  if (all) all->room = room;
  return all;
}

static void section_release(section *all) {
  if (--all->references == 0) free(all);
}

/* A section of which the application keeps nothing is used again. */
void section_give(nghttp3_conn *connection, section *all) {
  if (all->references == 1 && !connection->spare_section) connection->spare_section = all;
  else section_release(all);
}

section *section_take(nghttp3_conn *connection, const h3_item *item) {
  size_t count = item->fields, buffers = 2 * count * sizeof(nghttp3_rcbuf), text = item->len + 3 * count; /* with NULs, and flags */
  section *all = section_of_room(connection, buffers + count * sizeof(h3_field_size) + text + 2 * STEP);
  if (!all) return NULL;
  h3_field_size *sizes = (h3_field_size *)(all->buffers + 2 * count);
  uint8_t *to = (uint8_t *)(sizes + count) + count, *from = to + 2 * count + STEP;
  all->references = 1;
  all->flags = (uint8_t *)(sizes + count);
  if (h3_item_fields(&connection->endpoint, sizes, all->flags, count, from, item->len) == H3_OK) {
    spread(all, count, sizes, to, from);
    return all;
  }
  section_give(connection, all);
  return NULL;
}

EXPORT void nghttp3_rcbuf_incref(nghttp3_rcbuf *buffer) { buffer->all->references++; }
EXPORT void nghttp3_rcbuf_decref(nghttp3_rcbuf *buffer) {
  if (buffer) section_release(buffer->all);
}
EXPORT nghttp3_vec nghttp3_rcbuf_get_buf(const nghttp3_rcbuf *buffer) { return buffer->bytes; }

/* No buffer is static: names of the static table are copied like all others. */
EXPORT int nghttp3_rcbuf_is_static(const nghttp3_rcbuf *buffer) { return (void)buffer, 0; }

/* ---- checks ---- */

/* nghttp3 1.8 takes letters in upper case in this call, against its comment. Whatever it says, no message with one is taken or sent. */
static bool is_token_byte(uint8_t byte) {
#if defined HAS_VERSION_1 && !defined HAS_VERSION_1_17
  if (byte >= 'A' && byte <= 'Z') return true;
#endif
  return (byte >= 'a' && byte <= 'z') || (byte >= '0' && byte <= '9') || (byte && strchr("!#$%&'*+-.^_`|~", byte));
}

/* One colon may stand before the name. */
EXPORT int nghttp3_check_header_name(const uint8_t *name, size_t length) {
  if (length > 0 && *name == ':') name++, length--;
  for (size_t i = 0; i < length; i++)
    if (!is_token_byte(name[i])) return 0;
  return length > 0;
}

static bool is_blank(uint8_t byte) { return byte == ' ' || byte == '\t'; }

EXPORT int nghttp3_check_header_value(const uint8_t *value, size_t length) {
  if (length > 0 && (is_blank(value[0]) || is_blank(value[length - 1]))) return 0;
  for (size_t i = 0; i < length; i++)
    if ((value[i] < ' ' && value[i] != '\t') || value[i] == 0x7f) return 0;
  return 1;
}
