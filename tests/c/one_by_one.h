/* A field of the section that was pulled last by its place, and the next stream on which bytes wait, over the calls that give all fields and
 * all streams. */
#ifndef ONE_BY_ONE_H
#define ONE_BY_ONE_H
#include <h3.h>
#include <string.h>

/* Points to the name and value of field `index`, and says how long they are, until the next call. H3_NONE: there is no such field. */
static inline uint32_t field_at(h3_endpoint *end, const h3_item *item, size_t index, const uint8_t **name, size_t *name_len, const uint8_t **value,
                                size_t *value_len) {
  static h3_field_size sizes[1 << 12];
  static uint8_t bytes[1 << 20];
  const uint8_t *at = bytes;
  if (index >= item->fields) return H3_NONE;
  uint32_t answer = h3_item_fields(end, sizes, NULL, item->fields, bytes, item->len);
  if (answer) return answer;
  for (size_t i = 0; i < index; i++) at += sizes[i].name + sizes[i].value;
  *name = at;
  *name_len = sizes[index].name;
  *value = at + sizes[index].name;
  *value_len = sizes[index].value;
  return H3_OK;
}

/* The lowest stream from `from` on, on which bytes wait: h3_next_to_send names those too on which an end alone waits. */
static inline uint32_t next_with_bytes(h3_endpoint *end, uint64_t from, uint64_t *id) {
  uint32_t answer;
  for (uint64_t at = from; (answer = h3_next_to_send(end, at, &at)) == H3_OK; at++) {
    h3_stream_state state;
    if ((answer = h3_stream(end, at, &state)) != H3_OK) return answer;
    if (!state.waiting) continue;
    *id = at;
    return H3_OK;
  }
  return answer;
}
#endif
