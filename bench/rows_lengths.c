/* Lists of many fields, long and empty values, and strings of Huffman codes of one length. */
#include "measure.h"
#include "rows.h"
#include <stdio.h>
#include <stdlib.h>
#include <string.h>

enum { LISTS = 32 };

static field_lists no_lists(const char *name, size_t count) {
  return (field_lists){.name = name, .lists = calloc(count, sizeof(field_list)), .count = count};
}

static uint8_t *filled(size_t len, uint8_t byte) {
  uint8_t *bytes = malloc(len + 1);
  if (!bytes) stop("no memory", (long)len);
  memset(bytes, byte, len);
  return bytes;
}

static void add(field_lists *all, size_t list, const char *name, const uint8_t *value, size_t len) {
  field_list *to = &all->lists[list];
  to->fields = realloc(to->fields, (to->count + 1) * sizeof *to->fields);
  nghttp3_nv *field = &to->fields[to->count++];
  *field = (nghttp3_nv){.namelen = strlen(name), .valuelen = len, .flags = NGHTTP3_NV_FLAG_NONE};
  uint8_t *own_name = filled(field->namelen, 0), *own_value = filled(len, 0);
  memcpy(own_name, name, field->namelen);
  if (len) memcpy(own_value, value, len);
  field->name = own_name;
  field->value = own_value;
  all->fields++;
  all->bytes += field->namelen + len;
}

static void free_lists(field_lists *all) {
  for (size_t i = 0; i < all->count; i++) {
    for (size_t j = 0; j < all->lists[i].count; j++) {
      free((void *)all->lists[i].fields[j].name);
      free((void *)all->lists[i].fields[j].value);
    }
    free(all->lists[i].fields);
  }
  free(all->lists);
}

/* Lists with so many fields each, all lists alike. */
static field_lists equal_lists(const char *set, size_t lists, size_t fields) {
  field_lists all = no_lists(set, lists);
  char name[32], value[32];
  for (size_t i = 0; i < lists; i++)
    for (size_t j = 0; j < fields; j++) {
      snprintf(name, sizeof name, "x-field-%zu", j);
      snprintf(value, sizeof value, "%06zu", 7919 * j % 1000000);
      add(&all, i, name, (const uint8_t *)value, 6);
    }
  return all;
}

/* Lists of one field with a value of that length. */
static field_lists long_values(const char *set, size_t len) {
  static const char text[] = "Mozilla/5.0 (X11; Linux x86_64) AppleWebKit/537.36; ";
  field_lists all = no_lists(set, LISTS);
  uint8_t *value = filled(len, 0);
  for (size_t i = 0; i < len; i++) value[i] = (uint8_t)text[i % (sizeof text - 1)];
  for (size_t i = 0; i < LISTS; i++) add(&all, i, "x-long", value, len);
  free(value);
  return all;
}

/* One list of fields with empty values. */
static field_lists empty_values(const char *set, size_t fields) {
  field_lists all = no_lists(set, 1);
  for (size_t j = 0; j < fields; j++) add(&all, 0, "a", NULL, 0);
  return all;
}

void literal_rows(const field_lists *lists) {
  field_lists all = no_lists("literal lines", lists->count);
  for (size_t i = 0; i < lists->count; i++)
    for (size_t j = 0; j < lists->lists[i].count; j++) {
      const nghttp3_nv *field = &lists->lists[i].fields[j];
      add(&all, i, "zq", field->name, field->namelen);
      add(&all, i, "zq", field->value, field->valuelen);
    }
  section_rows_wanting(&all, 1.3, 1.0);
  free_lists(&all);
}

void length_rows(void) {
  static const struct {
    const char *set;
    size_t fields;
  } counts[] = {{"8 fields", 8}, {"16 fields", 16}, {"17 fields", 17}, {"32 fields", 32}, {"64 fields", 64}};
  static const struct {
    const char *set;
    size_t len;
  } values[] = {{"100 bytes", 100}, {"1 KiB", 1 << 10}, {"10 KiB", 10 << 10}, {"64 KiB", 64 << 10}};
  for (size_t i = 0; i < sizeof counts / sizeof *counts; i++) {
    field_lists all = equal_lists(counts[i].set, LISTS, counts[i].fields);
    section_rows(&all);
    session_rows(&all, 1, (session_targets){1.2, 1.4, 0, 1.0, 0});
    free_lists(&all);
  }
  field_lists many = equal_lists("1000 fields", 1, 1000), empty = empty_values("empty values", 10000);
  section_rows(&many);
  section_rows(&empty);
  free_lists(&many);
  free_lists(&empty);
  for (size_t i = 0; i < sizeof values / sizeof *values; i++) {
    field_lists all = long_values(values[i].set, values[i].len);
    section_rows(&all);
    free_lists(&all);
  }
}

/* Strings of 64 symbols whose codes have so many bits (RFC 7541, appendix B); the last one in turn with the first. */
void hostile_huffman_rows(void) {
  static const struct {
    const char *set;
    uint8_t first, second;
  } codes[] = {{"5 bits", 'a', 'a'},     {"8 bits", '&', '&'},   {"13 bits", '~', '~'},
               {"15 bits", '{', '{'},    {"24 bits", 171, 171},  {"28 bits", 2, 2},
               {"30 bits", '\n', '\n'}, {"5 and 30", 'a', '\n'}};
  uint8_t symbols[64];
  for (size_t k = 0; k < sizeof codes / sizeof *codes; k++) {
    field_lists all = no_lists(codes[k].set, LISTS);
    for (size_t i = 0; i < sizeof symbols; i++) symbols[i] = i % 2 ? codes[k].second : codes[k].first;
    for (size_t i = 0; i < LISTS; i++) add(&all, i, "", symbols, sizeof symbols);
    huffman_rows((const field_lists *const[]){&all}, 1, codes[k].set);
    free_lists(&all);
  }
}
