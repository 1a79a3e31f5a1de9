/* tokens.c: the numbers that nghttp3 gives to known field names. tokens.py writes names.h from the installed nghttp3.h. */
#include <string.h>
#include "connection.h"
#include "names.h"

static inline uint64_t eight_at(const void *place) {
  uint64_t bytes;
  memcpy(&bytes, place, sizeof bytes);
  return bytes;
}

static inline uint32_t four_at(const void *place) {
  uint32_t bytes;
  memcpy(&bytes, place, sizeof bytes);
  return bytes;
}

/* memcmp, without a call for the few bytes that most names have: the first and the last of them, which may overlap. */
static inline bool is_same(const char *known, const uint8_t *name, size_t length) {
  if (length > 16 || length < 4) return memcmp(known, name, length) == 0;
  if (length < 8) return four_at(known) == four_at(name) && four_at(known + length - 4) == four_at(name + length - 4);
  return eight_at(known) == eight_at(name) && eight_at(known + length - 8) == eight_at(name + length - 8);
}

int32_t token_of(const uint8_t *name, size_t length) {
  if (length == 0) return -1;
  const known *at = FIRST_AT[(length * MULTIPLIER + name[length - 1]) % PLACES];
  while (at && !(at->length == length && is_same(at->name, name, length))) at = at->next;
  return at ? at->token : -1;
}
