#include "websocket_frames.h"
#include <stdlib.h>
#include <string.h>
#include <wslay/wslay.h>

enum { OUT = 8 * 1024 }; /* bytes of frames that are sent at once: wslay reads pieces of 4 KiB */

struct websocket_frames {
  wslay_event_context_ptr events; /* judges what comes, and answers control frames */
  wslay_frame_context_ptr frames; /* writes the frames of messages */
  websocket_writer *write;
  void *owner;
  const uint8_t *given; /* what came and was not read yet */
  size_t given_count;
  bool is_data, is_last; /* the frame that comes: is it one of a message, and its last? */
  uint64_t left;         /* bytes of its payload that come */
  struct wslay_event_on_frame_recv_chunk_arg held; /* the end of a message, until it is known to be text where it says so */
  uint8_t opcode;                                  /* of the next frame that goes back */
  bool is_broken;                                  /* a frame came that is none */
  bool failed;
  size_t out_count;
  uint8_t out[OUT];
};

/* ---- what goes out ---- */

static void flush(websocket_frames *f) {
  if (f->out_count > 0 && !f->write(f->owner, f->out, f->out_count)) f->failed = true;
  f->out_count = 0;
}

static ssize_t put(const uint8_t *bytes, size_t count, int flags, void *user) {
  websocket_frames *f = user;
  (void)flags;
  if (count > OUT - f->out_count) flush(f);
  if (count > OUT) count = OUT; /* wslay offers the rest again */
  memcpy(f->out + f->out_count, bytes, count);
  f->out_count += count;
  return (ssize_t)count;
}

static ssize_t put_event(wslay_event_context_ptr events, const uint8_t *bytes, size_t count, int flags, void *user) {
  (void)events;
  return put(bytes, count, flags, user);
}

/* Sends one frame. */
static void send_frame(websocket_frames *f, uint8_t opcode, bool is_last, const uint8_t *bytes, size_t count) {
  struct wslay_frame_iocb frame = {.fin = is_last, .opcode = opcode, .payload_length = count, .data = bytes, .data_length = count};
  if (wslay_frame_send(f->frames, &frame) != (ssize_t)count) f->failed = true;
}

/* Sends a piece of a message as a frame of its own: the first has the message's opcode. After a close nothing goes back (section 5.5.1). */
static void echo(websocket_frames *f, const uint8_t *bytes, size_t count, bool is_last) {
  if (wslay_event_get_close_sent(f->events)) return;
  send_frame(f, f->opcode, is_last, bytes, count);
  f->opcode = WSLAY_CONTINUATION_FRAME;
}

/* ---- what comes ---- */

static ssize_t take(wslay_event_context_ptr events, uint8_t *bytes, size_t count, int flags, void *user) {
  websocket_frames *f = user;
  (void)flags;
  if (f->given_count == 0) {
    wslay_event_set_error(events, WSLAY_ERR_WOULDBLOCK);
    return -1;
  }
  if (count > f->given_count) count = f->given_count;
  memcpy(bytes, f->given, count);
  f->given += count;
  f->given_count -= count;
  return (ssize_t)count;
}

static void on_start(wslay_event_context_ptr events, const struct wslay_event_on_frame_recv_start_arg *frame, void *user) {
  websocket_frames *f = user;
  (void)events;
  f->is_data = !wslay_is_ctrl_frame(frame->opcode);
  if (!f->is_data) return;
  if (frame->opcode != WSLAY_CONTINUATION_FRAME) f->opcode = frame->opcode;
  f->is_last = frame->fin;
  f->left = frame->payload_length;
}

static void on_piece(wslay_event_context_ptr events, const struct wslay_event_on_frame_recv_chunk_arg *piece, void *user) {
  websocket_frames *f = user;
  (void)events;
  if (!f->is_data || piece->data_length == 0) return;
  f->left -= piece->data_length;
  if (f->is_last && f->left == 0) f->held = *piece; /* on_message is called before wslay reads on */
  else echo(f, piece->data, piece->data_length, false);
}

static void on_message(wslay_event_context_ptr events, const struct wslay_event_on_msg_recv_arg *message, void *user) {
  websocket_frames *f = user;
  (void)events;
  if (wslay_is_ctrl_frame(message->opcode)) return;
  echo(f, f->held.data, f->held.data_length, true);
  f->held = (struct wslay_event_on_frame_recv_chunk_arg){0};
}

/* ---- a WebSocket ---- */

websocket_frames *websocket_new(websocket_writer *write, void *owner) {
  static const struct wslay_event_callbacks events = {
      .recv_callback = take, .send_callback = put_event, .on_frame_recv_start_callback = on_start, .on_frame_recv_chunk_callback = on_piece,
      .on_msg_recv_callback = on_message};
  static const struct wslay_frame_callbacks frames = {.send_callback = put};
  websocket_frames *f = calloc(1, sizeof *f);
  if (!f) return NULL;
  f->write = write;
  f->owner = owner;
  if (wslay_event_context_server_init(&f->events, &events, f) != 0 || wslay_frame_context_init(&f->frames, &frames, f) != 0) {
    websocket_free(f);
    return NULL;
  }
  wslay_event_config_set_no_buffering(f->events, 1);
  wslay_event_config_set_max_recv_msg_length(f->events, UINT64_MAX); /* of no message anything is kept */
  return f;
}

/* Sends what waits. */
static bool finish(websocket_frames *f) {
  if (!f->is_broken && wslay_event_send(f->events) != 0) f->failed = true;
  flush(f);
  return !f->failed;
}

bool websocket_read(websocket_frames *f, const uint8_t *bytes, size_t count) {
  static const uint8_t PROTOCOL_ERROR[] = {WSLAY_CODE_PROTOCOL_ERROR >> 8, WSLAY_CODE_PROTOCOL_ERROR & 0xff};
  f->given = bytes;
  f->given_count = count;
  int answer = websocket_is_over(f) ? 0 : wslay_event_recv(f->events);
  if (answer == WSLAY_ERR_NOMEM) f->failed = true;
  else if (answer != 0) { /* a length or a control frame that breaks section 5.2 or 5.5: wslay would send a close with no code */
    f->is_broken = true;
    send_frame(f, WSLAY_CONNECTION_CLOSE, true, PROTOCOL_ERROR, sizeof PROTOCOL_ERROR);
  }
  return finish(f);
}

bool websocket_close(websocket_frames *f, uint16_t code) {
  if (f->is_broken || wslay_event_get_close_sent(f->events)) return true;
  if (wslay_event_queue_close(f->events, code, NULL, 0) != 0) f->failed = true;
  return finish(f);
}

bool websocket_is_over(const websocket_frames *f) {
  return f->is_broken || (wslay_event_get_close_sent(f->events) && !wslay_event_want_read(f->events));
}

void websocket_free(websocket_frames *f) {
  if (!f) return;
  if (f->events) wslay_event_context_free(f->events);
  if (f->frames) wslay_frame_context_free(f->frames);
  free(f);
}
