#include "http3_list.h"
#include <stdlib.h>
#include <string.h>

static http3_list *make_list(size_t count, size_t len) {
  http3_list *list = malloc(sizeof *list + count * (sizeof *list->sizes + 1) + len);
  if (list) *list = (http3_list){count, len};
  return list;
}

http3_list *http3_list_of_lines(const http3_line *lines, size_t count) {
  size_t len = 0;
  for (size_t i = 0; i < count; i++) len += lines[i].name_count + lines[i].value_count;
  http3_list *list = make_list(count, len);
  if (!list) return NULL;
  uint8_t *flags = (uint8_t *)list_flags(list);
  char *at = (char *)list_bytes(list);
  for (size_t i = 0; i < count; i++) {
    list->sizes[i] = (h3_field_size){(uint32_t)lines[i].name_count, (uint32_t)lines[i].value_count};
    flags[i] = lines[i].never_indexed ? H3_NEVER_INDEX : 0;
    at = mempcpy(at, lines[i].name, lines[i].name_count);
    at = mempcpy(at, lines[i].value, lines[i].value_count);
  }
  return list;
}

http3_line http3_line_of(const http3_field *field) {
  return (http3_line){field->name, field->value, strlen(field->name), strlen(field->value), false};
}

http3_list *http3_list_of(const http3_field *fields, size_t count) {
  http3_line lines[count];
  for (size_t i = 0; i < count; i++)
    lines[i] = http3_line_of(&fields[i]);
  return http3_list_of_lines(lines, count);
}

size_t http3_count(const http3_list *list) { return list->count; }

bool http3_next(const http3_list *list, http3_at *at, http3_line *line) {
  if (at->index == list->count) return false;
  line->never_indexed = list_flags(list)[at->index] == H3_NEVER_INDEX;
  const h3_field_size *size = &list->sizes[at->index++];
  line->name = list_bytes(list) + at->offset;
  line->name_count = size->name;
  line->value = line->name + size->name;
  line->value_count = size->value;
  at->offset += size->name + size->value;
  return true;
}

bool http3_is(const http3_line *line, const char *name) {
  return strlen(name) == line->name_count && memcmp(line->name, name, line->name_count) == 0;
}

static void take_value(http3_wanted *wanted, const http3_line *line) {
  wanted->too_long = line->value_count >= wanted->room || memchr(line->value, 0, line->value_count);
  if (wanted->too_long) return;
  memcpy(wanted->value, line->value, line->value_count);
  wanted->value[line->value_count] = 0;
  wanted->found = true;
}

bool http3_find(const http3_list *list, http3_wanted *wanted, size_t count) {
  http3_line line;
  bool found = true;
  for (http3_at at = {0}; http3_next(list, &at, &line);)
    for (size_t i = 0; i < count; i++)
      if (!wanted[i].found && !wanted[i].too_long && http3_is(&line, wanted[i].name)) take_value(&wanted[i], &line);
  for (size_t i = 0; i < count; i++) found &= wanted[i].found || wanted[i].optional;
  return found;
}

bool http3_priority(const http3_list *list, uint32_t *urgency, uint32_t *incremental) {
  char value[256];
  size_t count = 0;
  http3_line line;
  for (http3_at at = {0}; http3_next(list, &at, &line);) {
    if (http3_is(&line, "via") || http3_is(&line, "forwarded")) return false;
    if (!http3_is(&line, "priority") || count + 2 + line.value_count > sizeof value) continue;
    if (count > 0) value[count++] = ',', value[count++] = ' ';
    memcpy(value + count, line.value, line.value_count);
    count += line.value_count;
  }
  *urgency = 3; /* RFC 9218, section 4.1 and 4.2 */
  *incremental = 0;
  h3_priority_read(value, count, urgency, incremental); /* one that is no dictionary is ignored, and nothing is written */
  return true;
}

/* Reads the section that came last into a list that has room for it. */
static bool read_item(h3_endpoint *endpoint, http3_list *list) {
  return h3_item_fields(endpoint, list->sizes, (uint8_t *)list_flags(list), list->count, (char *)list_bytes(list), list->len) == H3_OK;
}

http3_list *list_of_item(h3_endpoint *endpoint, const h3_item *item) {
  http3_list *list = make_list(item->fields, item->len);
  if (list && read_item(endpoint, list)) return list;
  free(list);
  return NULL;
}
