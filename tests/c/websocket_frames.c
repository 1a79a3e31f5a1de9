/* The frames of examples/c/websocket_frames.c, which go back to their sender: those of RFC 6455, section 5.7, lengths in 7, 16 and 64
 * bits, and frames that break a rule of section 5. Each is given whole, and in small pieces. */
#include "websocket_frames.h"
#include <stdlib.h>
#include <string.h>
#define TEST "websocket_frames"
#include "expect.h"

#define BYTES(text) {(const uint8_t *)(text), sizeof(text) - 1}
#define MASK "\x37\xfa\x21\x3d" /* of section 5.7, and "Hello" with it */
#define MASKED_HELLO "\x7f\x9f\x4d\x51\x58"

enum { MOST = 400000 }; /* each byte may come back as a frame of three */

typedef struct {
  const uint8_t *bytes;
  size_t count;
} bytes;

typedef struct {
  uint8_t bytes[MOST];
  size_t count;
} room;

static room sent, messages, asked;

static bool put(void *owner, const uint8_t *given, size_t count) {
  room *to = owner;
  if (count > MOST - to->count) return false;
  if (count > 0) memcpy(to->bytes + to->count, given, count);
  to->count += count;
  return true;
}

static bool is(const room *room, bytes wanted) {
  return room->count == wanted.count && memcmp(room->bytes, wanted.bytes, wanted.count) == 0;
}

/* Gives bytes in pieces, and says whether the WebSocket is over then. What goes out stands in `sent`. */
static bool given(bytes of, size_t piece) {
  sent.count = 0;
  websocket_frames *frames = websocket_new(put, &sent);
  for (size_t at = 0; at < of.count; at += piece)
    HOLDS(websocket_read(frames, of.bytes + at, of.count - at < piece ? of.count - at : piece));
  bool is_over = websocket_is_over(frames);
  websocket_free(frames);
  return is_over;
}

/* The length of a frame's payload, and where that stands (section 5.2). A server's frames are not masked. */
static size_t payload_at(const uint8_t *frame, size_t *count) {
  size_t bytes = frame[1] == 126 ? 2 : frame[1] == 127 ? 8 : 0;
  HOLDS((frame[1] & 0x80) == 0);
  *count = bytes == 0 ? frame[1] : 0;
  for (size_t i = 0; i < bytes; i++) *count = *count << 8 | frame[2 + i];
  return 2 + bytes;
}

/* The message that the frames in `sent` are, without control frames: its opcode and its payload are in `messages`. FIN is on the last one
 * alone. */
static void join(void) {
  bool is_whole = false;
  messages.count = 0;
  for (size_t at = 0, count; at < sent.count; at += count) {
    uint8_t first = sent.bytes[at], opcode = first & 0x0f;
    at += payload_at(sent.bytes + at, &count);
    if (opcode & 8) continue;
    HOLDS(!is_whole && (opcode == 0) == (messages.count > 0));
    if (messages.count == 0) put(&messages, &opcode, 1);
    put(&messages, sent.bytes + at, count);
    is_whole = first & 0x80;
  }
  HOLDS(is_whole);
}

/* ---- section 5.7 ---- */

static void of_rows(void) {
  static const struct {
    bytes given, sent;
  } of[] = {
      {BYTES("\x81\x85" MASK MASKED_HELLO), BYTES("\x81\x05Hello")},
      {BYTES("\x01\x83" MASK "\x7f\x9f\x4d" "\x80\x82" MASK "\x5b\x95"), BYTES("\x01\x03Hel\x80\x02lo")},
      {BYTES("\x89\x85" MASK MASKED_HELLO), BYTES("\x8a\x05Hello")},
      {BYTES("\x8a\x85" MASK MASKED_HELLO), BYTES("")},
      {BYTES("\x82\x80" MASK), BYTES("\x82\x00")},
      {BYTES("\x01\x80" MASK "\x80\x80" MASK), BYTES("\x81\x00")},
  };
  for (size_t i = 0; i < sizeof of / sizeof *of; i++) {
    HOLDS(!given(of[i].given, of[i].given.count));
    HOLDS(is(&sent, of[i].sent));
    HOLDS(!given(of[i].given, 1));
    if (of[i].sent.count > 0 && (of[i].sent.bytes[0] & 8) == 0) {
      join();
      HOLDS(messages.bytes[0] == (of[i].sent.bytes[0] & 0x0f));
      HOLDS(messages.count == 1 || memcmp(messages.bytes + 1, "Hello", 5) == 0);
    } else HOLDS(is(&sent, of[i].sent));
  }
}

/* A ping between two fragments is answered, and the message is whole (section 5.4). */
static void of_ping_between(void) {
  static const bytes of = BYTES("\x01\x83" MASK "\x7f\x9f\x4d" "\x89\x81" MASK "\x16" "\x80\x82" MASK "\x5b\x95");
  for (size_t piece = 1; piece <= of.count; piece++) {
    HOLDS(!given(of, piece));
    join();
    HOLDS(messages.count == 6 && memcmp(messages.bytes, "\1Hello", 6) == 0);
    size_t pongs = 0;
    for (size_t at = 0; at + 3 <= sent.count; at++) pongs += memcmp(sent.bytes + at, "\x8a\x01!", 3) == 0;
    HOLDS(pongs == 1);
  }
}

/* Of a message nothing is left for the next. */
static void of_two_messages(void) {
  static const bytes of = BYTES("\x81\x85" MASK MASKED_HELLO "\x82\x80" MASK);
  HOLDS(!given(of, of.count));
  HOLDS(is(&sent, (bytes)BYTES("\x81\x05Hello\x82\x00")));
}

/* ---- lengths ---- */

/* A client's binary message in one frame, in `asked`; `wanted`: its opcode and its payload. */
static void ask(size_t count, uint8_t *wanted) {
  uint8_t head[] = {0x82, 0x80, 0, 0, 0, 0, 0, 0, 0, 0};
  size_t bytes = count > 65535 ? 8 : count > 125 ? 2 : 0;
  head[1] |= (uint8_t)(bytes == 8 ? 127 : bytes == 2 ? 126 : count);
  for (size_t i = 0; i < bytes; i++) head[2 + i] = (uint8_t)(count >> 8 * (bytes - 1 - i));
  asked.count = 0;
  put(&asked, head, 2 + bytes);
  put(&asked, (const uint8_t *)MASK, 4);
  wanted[0] = 2;
  for (size_t i = 0; i < count; i++) {
    wanted[1 + i] = (uint8_t)(7 * i + i / 256);
    put(&asked, &(uint8_t){wanted[1 + i] ^ (uint8_t)MASK[i % 4]}, 1);
  }
}

static void of_lengths(void) {
  static const size_t of[] = {1, 125, 126, 256, 4096, 65535, 65536, 100000}, pieces[] = {1, 7, 1200, 4096, MOST};
  static uint8_t wanted[MOST];
  for (size_t i = 0; i < sizeof of / sizeof *of; i++) {
    ask(of[i], wanted);
    for (size_t j = 0; j < sizeof pieces / sizeof *pieces; j++) {
      HOLDS(!given((bytes){asked.bytes, asked.count}, pieces[j]));
      join();
      HOLDS(is(&messages, (bytes){wanted, 1 + of[i]}));
    }
    if (of[i] == 256) HOLDS(memcmp(sent.bytes, "\x82\x7e\x01\x00", 4) == 0 && sent.count == 4 + 256); /* section 5.7 */
  }
}

/* The longest frame that there is, 2^63 - 1 bytes: no memory is taken for what comes later, and what is there goes back. */
static void of_longest(void) {
  static const bytes of = BYTES("\x82\xff\x7f\xff\xff\xff\xff\xff\xff\xff" MASK MASKED_HELLO);
  HOLDS(!given(of, of.count));
  HOLDS(is(&sent, (bytes)BYTES("\x02\x05Hello")));
}

/* ---- closes, and frames that break a rule ---- */

static void of_closes(void) {
  static const struct {
    bytes given;
    bytes sent; /* the last that goes out */
  } of[] = {
      {BYTES("\x88\x82" MASK "\x34\x12"), BYTES("\x88\x02\x03\xe8")},                          /* 1000 */
      {BYTES("\x88\x80" MASK), BYTES("\x88\x00")},                                             /* no code */
      {BYTES("\x88\x82" MASK "\x34\x12" "\x81\x85" MASK MASKED_HELLO), BYTES("\x88\x02\x03\xe8")}, /* nothing after it is read */
      {BYTES("\x81\x05Hello"), BYTES("\x88\x02\x03\xea")},                                     /* section 5.1: not masked */
      {BYTES("\xc1\x80" MASK), BYTES("\x88\x02\x03\xea")},                                     /* section 5.2: RSV1 */
      {BYTES("\x83\x80" MASK), BYTES("\x88\x02\x03\xea")},                                     /* reserved opcodes */
      {BYTES("\x8b\x80" MASK), BYTES("\x88\x02\x03\xea")},
      {BYTES("\x82\xfe\x00\x05" MASK MASKED_HELLO), BYTES("\x88\x02\x03\xea")},                /* a length in more bytes than it needs */
      {BYTES("\x82\xff\0\0\0\0\0\0\xff\xff" MASK), BYTES("\x88\x02\x03\xea")},
      {BYTES("\x82\xff\x80\0\0\0\0\0\0\0" MASK), BYTES("\x88\x02\x03\xea")},                   /* a length of 2^63 */
      {BYTES("\x80\x80" MASK), BYTES("\x88\x02\x03\xea")},                                     /* section 5.4: a continuation of nothing */
      {BYTES("\x01\x80" MASK "\x81\x80" MASK), BYTES("\x88\x02\x03\xea")},                     /* a message within another */
      {BYTES("\x09\x80" MASK), BYTES("\x88\x02\x03\xea")},                                     /* section 5.5: a ping in fragments */
      {BYTES("\x89\xfe\x00\x7e" MASK), BYTES("\x88\x02\x03\xea")},                             /* a ping of 126 bytes */
      {BYTES("\x88\x82" MASK "\x34\x17"), BYTES("\x88\x02\x03\xea")},                          /* section 7.4.1: a close with 1005 */
      {BYTES("\x81\x82" MASK "\xf4\xd2"), BYTES("\x88\x02\x03\xef")},                          /* section 8.1: c3 28 is no UTF-8 */
      {BYTES("\x81\x81" MASK "\xf4"), BYTES("\x88\x02\x03\xef")},                              /* nor is c3 alone */
  };
  for (size_t i = 0; i < sizeof of / sizeof *of; i++)
    for (size_t piece = 1; piece <= of[i].given.count; piece++) {
      HOLDS(given(of[i].given, piece));
      size_t count = of[i].sent.count;
      HOLDS(sent.count >= count && memcmp(sent.bytes + sent.count - count, of[i].sent.bytes, count) == 0);
      for (size_t at = 0, payload; at < sent.count - count; at += payload) { /* of a message nothing is the end */
        HOLDS((sent.bytes[at] & 0x80) == 0);
        at += payload_at(sent.bytes + at, &payload);
      }
    }
}

static void of_local_close(void) {
  static const bytes hello = BYTES("\x81\x85" MASK MASKED_HELLO), close = BYTES("\x88\x82" MASK "\x34\x13");
  sent.count = 0;
  websocket_frames *frames = websocket_new(put, &sent);
  HOLDS(websocket_close(frames, 1001) && websocket_close(frames, 1001));
  HOLDS(is(&sent, (bytes)BYTES("\x88\x02\x03\xe9")) && !websocket_is_over(frames));
  HOLDS(websocket_read(frames, hello.bytes, hello.count) && sent.count == 4 && !websocket_is_over(frames)); /* section 5.5.1 */
  HOLDS(websocket_read(frames, close.bytes, close.count) && websocket_is_over(frames));
  HOLDS(websocket_read(frames, hello.bytes, hello.count) && sent.count == 4);
  websocket_free(frames);
}

static void of_full_writer(void) {
  static const bytes hello = BYTES("\x81\x85" MASK MASKED_HELLO);
  sent.count = MOST;
  websocket_frames *frames = websocket_new(put, &sent);
  HOLDS(!websocket_read(frames, hello.bytes, hello.count));
  websocket_free(frames);
}

int main(void) {
  of_rows();
  of_ping_between();
  of_two_messages();
  of_lengths();
  of_longest();
  of_closes();
  of_local_close();
  of_full_writer();
  if (!bad) puts("ok websocket_frames: the frames of RFC 6455, section 5.7, eight lengths, and 17 closes");
  return bad;
}
