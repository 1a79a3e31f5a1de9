/* Instructions of the peer's encoder and decoder streams (RFC 9204, sections 4.3 and 4.4), longer than `unfinished_limit` and not: in one
 * delivery, in pieces of 100 and byte by byte. The endpoint is a client. */
#include "h3.h"
#include <string.h>
#define TEST "instructions"
#include "expect.h"

#define MOST 20000 /* with a table of 4,096 bytes, whose instructions have at most 16,384 */
static const uint64_t CONTROL = 3, ENCODER = 7, DECODER = 11; /* of the peer, a server */
static const size_t STEPS[] = {100000, 100, 1};
static const uint64_t NEVER = 0;

static h3_endpoint client = H3_NONE_YET;

static void make(uint64_t most) {
  h3_config config;
  h3_config_default(&config);
  config.max_field_section_size = 5000;
  config.unfinished_limit = most;
  config.strict_connection = 0; /* so that what is too long has the code of a connection */
  IS(h3_new(&client, &config, NULL), H3_OK);
}

static uint64_t unread(uint64_t id) {
  h3_stream_state state;
  IS(h3_stream(&client, id, &state), H3_OK);
  return state.unread;
}

/* Delivers the bytes in pieces of `step`. Returns how many had come when the connection closed with this code, or NEVER if it did not. */
static uint64_t closed_at(uint64_t id, const void *bytes, size_t len, size_t step, uint64_t code) {
  for (size_t at = 0; at < len; at += step) {
    size_t n = len - at < step ? len - at : step;
    uint64_t detail = 0;
    uint32_t answer = h3_deliver(&client, id, (const char *)bytes + at, n, &detail);
    if (answer == H3_OK) continue;
    HOLDS(answer == H3_CONNECTION && detail == code);
    return at + n;
  }
  return NEVER;
}

/* the first piece of `step` bytes that reaches so many */
static uint64_t rounded(uint64_t count, size_t step, size_t len) {
  uint64_t end = (count + step - 1) / step * step;
  return end < len ? end : len;
}

/* an insertion whose name, and one whose value, says 2^30 bytes: the length tells it, whether one byte of it came or many */
static void of_long_strings(void) {
  static const struct {
    const char *head;
    size_t len;
  } of[] = {
      {"\x5f\xe1\xff\xff\xff\x03", 6},  /* a literal name */
      {"\x41n\x7f\x81\xff\xff\xff\x03", 8}, /* a literal value, behind a name of one byte */
      {"\xc0\x7f\x81\xff\xff\xff\x03", 7},  /* and behind a name of the static table */
  };
  static char bytes[5000];
  for (size_t i = 0; i < sizeof of / sizeof *of; i++)
    for (size_t k = 0; k < 3; k++) {
      memset(bytes, 'a', sizeof bytes);
      memcpy(bytes, of[i].head, of[i].len);
      make(MOST);
      IS(h3_deliver(&client, ENCODER, "\2", 1, NULL), H3_OK);
      uint64_t at = closed_at(ENCODER, bytes, sizeof bytes, STEPS[k], 0x107);
      HOLDS(at == rounded(of[i].len, STEPS[k], sizeof bytes));
      HOLDS(unread(ENCODER) == 0); /* once the connection has a fault no credit is owed */
      HOLDS(closed_at(ENCODER, "a", 1, 1, 0x107) == 1 && unread(ENCODER) == 0);
      h3_free(&client);
    }
}

/* An integer that never ends closes the connection once the limit is reached. A decoder stream is not read before the settings: its bytes
 * are kept, and are no fault. */
static void of_endless_integers(void) {
  static char bytes[3 * MOST];
  memset(bytes, 0x80, sizeof bytes);
  bytes[0] = 0x3f;
  for (size_t k = 0; k < 3; k++)
    for (int known = 0; known < 2; known++)
      for (int decoder = 0; decoder < 2; decoder++) {
        uint64_t id = decoder ? DECODER : ENCODER;
        make(MOST);
        if (known) IS(h3_deliver(&client, CONTROL, "\0\4\0", 3, NULL), H3_OK);
        IS(h3_deliver(&client, id, decoder ? "\3" : "\2", 1, NULL), H3_OK);
        uint64_t at = closed_at(id, bytes, sizeof bytes, STEPS[k], 0x107);
        HOLDS(at == (decoder && !known ? NEVER : rounded(MOST, STEPS[k], sizeof bytes)));
        HOLDS(unread(id) == (decoder && !known ? sizeof bytes : 0));
        h3_free(&client);
      }
}

/* Decoder-stream bytes that came before the settings are read after them: an instruction above the limit closes the connection then. */
static void of_early_replies(void) {
  static char bytes[3 * MOST];
  memset(bytes, 0x80, sizeof bytes);
  bytes[0] = 0x3f;
  static const size_t lens[] = {MOST - 1, MOST, 3 * MOST};
  for (size_t i = 0; i < 3; i++) {
    size_t len = lens[i];
    make(MOST);
    IS(h3_deliver(&client, DECODER, "\3", 1, NULL), H3_OK);
    HOLDS(closed_at(DECODER, bytes, len, 100, 0) == NEVER && unread(DECODER) == len);
    HOLDS(closed_at(CONTROL, "\0\4\0", 3, 3, 0x107) == (len < MOST ? NEVER : 3));
    h3_free(&client);
  }
}

/* cancellations of so many streams before the settings are no fault, and are read after them */
static void of_early_cancellations(void) {
  static char bytes[3 * MOST];
  memset(bytes, 0x44, sizeof bytes); /* stream 4 */
  make(MOST);
  IS(h3_deliver(&client, DECODER, "\3", 1, NULL), H3_OK);
  HOLDS(closed_at(DECODER, bytes, sizeof bytes, 1200, 0) == NEVER && unread(DECODER) == sizeof bytes);
  HOLDS(closed_at(CONTROL, "\0\4\0", 3, 3, 0) == NEVER && unread(DECODER) == 0);
  h3_free(&client);
}

/* an insertion of so many bytes, 500 or more: a name of one byte, and a value whose length takes two or three bytes behind its first */
static size_t insertion(char *to, size_t len) {
  size_t behind = len < 16000 ? 2 : 3, rest = len - 3 - behind - 127;
  memset(to, 'v', len);
  memcpy(to, "\x41n\x7f", 3);
  for (size_t i = 3; i < 3 + behind; i++, rest >>= 7) to[i] = (char)((i < 2 + behind ? 0x80 : 0) | (rest & 0x7f));
  return len;
}

/* RFC 9114 10.5: unfinished_limit of instructions */
/* Insertions are read, also if more of them come at once than the limit, and one increment counts those of a delivery. An insertion as long
 * as the limit is kept until it is whole, and is invalid then, since the table has no room for it. One byte more is refused by its length. */
static void of_the_limit(void) {
  static char bytes[26 * 1000 + 2 * MOST];
  for (size_t k = 0; k < 3; k++)
    for (size_t more = 0; more < 2; more++) {
      size_t len = 3;
      memcpy(bytes, "\x3f\xe1\x1f", len); /* a capacity of 4,096 */
      for (size_t i = 0; i < 25; i++) len += insertion(bytes + len, 1000);
      size_t begins = len;
      make(MOST);
      IS(h3_deliver(&client, ENCODER, "\2", 1, NULL), H3_OK);
      HOLDS(closed_at(ENCODER, bytes, begins, STEPS[k], 0) == NEVER && unread(ENCODER) == 0);
      uint8_t replies[64];
      size_t n = 0;
      uint32_t fin;
      IS(h3_outgoing(&client, h3_decoder_id(0), replies, sizeof replies, &n, NULL, &fin), H3_OK);
      if (STEPS[k] > begins) HOLDS(n == 2 && !memcmp(replies, "\3\x19", 2));
      else HOLDS(n == 26 && replies[0] == 3 && replies[1] == 1 && replies[25] == 1);
      len = insertion(bytes, MOST + more);
      HOLDS(closed_at(ENCODER, bytes, len, STEPS[k], more ? 0x107 : 0x201) == rounded(more ? 6 : MOST, STEPS[k], len));
      h3_free(&client);
    }
}

/* without a limit the same is waited for */
static void of_no_limit(void) {
  static char bytes[5000];
  memset(bytes, 0x80, sizeof bytes);
  bytes[0] = 0x3f;
  for (size_t k = 0; k < 3; k++) {
    make((UINT64_C(1) << 62) - 1);
    IS(h3_deliver(&client, DECODER, "\3", 1, NULL), H3_OK);
    HOLDS(closed_at(DECODER, bytes, sizeof bytes, STEPS[k], 0) == NEVER && unread(DECODER) == sizeof bytes);
    IS(h3_deliver(&client, CONTROL, "\0\4\0", 3, NULL), H3_OK);
    IS(h3_deliver(&client, ENCODER, "\2", 1, NULL), H3_OK);
    HOLDS(closed_at(ENCODER, "\x5f\xe1\xff\xff\xff\x03", 6, STEPS[k], 0) == NEVER && unread(ENCODER) == 6);
    h3_free(&client);
  }
}

/* a bad instruction is the fault that it was, behind those that are read and before one that is longer */
static void of_bad_instructions(void) {
  static char bytes[2 * MOST];
  for (size_t k = 0; k < 3; k++) {
    size_t len = insertion(bytes, MOST); /* no capacity was set, so it has no room */
    memcpy(bytes + len, "\x5f\xe1\xff\xff\xff\x03", 6);
    make(MOST);
    IS(h3_deliver(&client, ENCODER, "\2", 1, NULL), H3_OK);
    HOLDS(closed_at(ENCODER, bytes, len + 6, STEPS[k], 0x201) == rounded(MOST, STEPS[k], len + 6));
    h3_free(&client);
  }
}

int main(void) {
  of_long_strings();
  of_endless_integers();
  of_early_replies();
  of_early_cancellations();
  of_the_limit();
  of_no_limit();
  of_bad_instructions();
  if (!bad) puts("ok instructions: those that are longer than the limit are told as soon as they are known, however they are cut");
  return bad;
}
