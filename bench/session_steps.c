#include "session_steps.h"

enum { OF_A_STREAM, HEARD };

void add_list(session_steps *of, size_t stream, size_t list) {
  of->count++;
  put_number(&of->steps, OF_A_STREAM);
  put_number(&of->steps, stream);
  put_number(&of->steps, list);
}

void add_section(session_steps *of, size_t stream, const uint8_t *section, size_t len) {
  of->count++;
  put_number(&of->steps, OF_A_STREAM);
  put_number(&of->steps, stream);
  put_string(&of->steps, section, len);
}

void add_heard(session_steps *of, const uint8_t *bytes, size_t len) {
  of->count++;
  put_number(&of->steps, HEARD);
  put_string(&of->steps, bytes, len);
}

pack pack_steps(const session_steps *of, const pack *head) {
  pack to = {0};
  if (head) put_bytes(&to, head->bytes, head->len);
  put_number(&to, of->count);
  put_bytes(&to, of->steps.bytes, of->steps.len);
  return to;
}

size_t take_number(const uint8_t **place) {
  size_t number = number_at(*place);
  *place += 4;
  return number;
}

const uint8_t *take_string(const uint8_t **place, size_t *len) {
  *len = take_number(place);
  const uint8_t *string = *place;
  *place += *len;
  return string;
}

void put_integer(pack *to, uint8_t flag, unsigned bits, size_t n) {
  size_t most = ((size_t)1 << bits) - 1;
  uint8_t byte = (uint8_t)(flag | (n < most ? n : most));
  put_bytes(to, &byte, 1);
  if (n < most) return;
  for (n -= most; n >= 128; n /= 128) {
    byte = (uint8_t)(128 | n % 128);
    put_bytes(to, &byte, 1);
  }
  byte = (uint8_t)n;
  put_bytes(to, &byte, 1);
}
