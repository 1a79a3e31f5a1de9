/* library.c: calls that need neither a connection nor a field: the version, memory, buffers. */
#include <stdlib.h>
#include "connection.h"

/* Where the library was built without its proofs the mark stands early: `curl -V` shows 22 bytes of the text. */
EXPORT const nghttp3_info *nghttp3_version(int least_version) {
  static const nghttp3_info PROVED = {NGHTTP3_VERSION_AGE, NGHTTP3_VERSION_NUM, NGHTTP3_VERSION "-beanwhile-" H3_VERSION_TEXT};
  static const nghttp3_info UNPROVED = {NGHTTP3_VERSION_AGE, NGHTTP3_VERSION_NUM, NGHTTP3_VERSION "-UNPROVED-beanwhile-" H3_VERSION_TEXT};
  if (least_version > NGHTTP3_VERSION_NUM) return NULL;
  return h3_version() & H3_UNPROVED ? &UNPROVED : &PROVED;
}

/* As in an nghttp3 that was built without its debug output. */
EXPORT void nghttp3_set_debug_vprintf_callback(nghttp3_debug_vprintf_callback callback) { (void)callback; }

static void *memory_malloc(size_t size, void *user_data) { return (void)user_data, malloc(size); }
static void memory_free(void *place, void *user_data) { (void)user_data, free(place); }
static void *memory_calloc(size_t count, size_t size, void *user_data) { return (void)user_data, calloc(count, size); }
static void *memory_realloc(void *place, size_t size, void *user_data) { return (void)user_data, realloc(place, size); }

EXPORT const nghttp3_mem *nghttp3_mem_default(void) {
  static const nghttp3_mem MEMORY = {NULL, memory_malloc, memory_free, memory_calloc, memory_realloc};
  return &MEMORY;
}

EXPORT void nghttp3_buf_init(nghttp3_buf *buffer) { *buffer = (nghttp3_buf){0}; }
EXPORT void nghttp3_buf_free(nghttp3_buf *buffer, const nghttp3_mem *memory) { memory->free(buffer->begin, memory->user_data); }
EXPORT size_t nghttp3_buf_left(const nghttp3_buf *buffer) { return (size_t)(buffer->end - buffer->last); }
EXPORT size_t nghttp3_buf_len(const nghttp3_buf *buffer) { return (size_t)(buffer->last - buffer->pos); }
EXPORT void nghttp3_buf_reset(nghttp3_buf *buffer) { buffer->pos = buffer->last = buffer->begin; }

size_t integer_length(uint64_t number) { return number < 1 << 6 ? 1 : number < 1 << 14 ? 2 : number < 1 << 30 ? 4 : 8; }

uint8_t *write_integer(uint8_t *to, uint64_t number) {
  size_t length = integer_length(number);
  for (size_t i = length; i-- > 0; number >>= 8) to[i] = (uint8_t)number;
  *to |= (uint8_t)(__builtin_ctz((unsigned)length) << 6);
  return to + length;
}

EXPORT uint64_t nghttp3_vec_len(const nghttp3_vec *vectors, size_t count) {
  uint64_t sum = 0;
  for (size_t i = 0; i < count; i++) sum += vectors[i].len;
  return sum;
}
