/* Heads by an endpoint of build/c/libbeanwhile_h3.a and by nghttp3. */
#include "heads.h"
#include "h3.h"
#include "peer_session.h"
#include "plain.h"
#include <stdio.h>
#include <stdlib.h>
#include <string.h>

enum { MOST_OUTGOING = 1 << 16 };

/* ---- ours ---- */

typedef struct {
  h3_endpoint end;
  int server;
} our_end;

static void done(const char *what, uint32_t answer) {
  if (answer != H3_OK) stop(what, (long)answer);
}

static void put_varint(pack *to, uint64_t number) {
  uint8_t bytes[8];
  put_bytes(to, bytes, (size_t)(plain_varint_encode(bytes, number) - bytes));
}

/* all that waits on a stream */
static pack taken(our_end *from, uint64_t id) {
  static uint8_t bytes[MOST_OUTGOING];
  pack all = {0};
  size_t len = 1;
  for (uint32_t fin = 0; len;) {
    done("h3_outgoing", h3_outgoing(&from->end, id, bytes, sizeof bytes, &len, NULL, &fin));
    put_bytes(&all, bytes, len);
    done("h3_advance", h3_advance(&from->end, id, len));
  }
  return all;
}

/* the peer's settings come, and its decoder stream begins */
static void settings_come(our_end *to, const heads_kind *kind) {
  pack settings = {0}, stream = {0};
  put_varint(&settings, 1);
  put_varint(&settings, kind->capacity);
  put_varint(&settings, 7);
  put_varint(&settings, kind->blocked);
  put_bytes(&stream, "\0\4", 2);
  put_varint(&stream, settings.len);
  put_bytes(&stream, settings.bytes, settings.len);
  done("h3_deliver", h3_deliver(&to->end, h3_control_id(!kind->server), stream.bytes, stream.len, NULL));
  done("h3_deliver", h3_deliver(&to->end, h3_decoder_id(!kind->server), "\3", 1, NULL));
  free_pack(&settings);
  free_pack(&stream);
}

/* a request that came whole */
static void request_comes(our_end *to, uint64_t id) {
  h3_item item;
  done("h3_deliver", h3_deliver(&to->end, id, "\1\10\0\0\xd1\xd7\xc1\x50\1a", 10, NULL));
  done("h3_deliver_end", h3_deliver_end(&to->end, id, NULL));
  do {
    done("h3_pull", h3_pull(&to->end, id, &item));
    if (item.kind >= H3_PENDING) stop("an item of another kind", (long)item.kind);
  } while (item.kind != H3_END);
}

static void *our_begin(const head_writer *writer, const heads_kind *kind) {
  our_end *made = calloc(1, sizeof *made);
  h3_config config;
  h3_config_default(&config);
  config.server = (uint32_t)(made->server = kind->server);
  if (writer->is_unguarded) config.guard_secrets = 0;
  if (writer->is_huffman) config.shortest_strings = 0;
  done("h3_new", h3_new(&made->end, &config, NULL));
  settings_come(made, kind);
  return made;
}

static void send_list(our_end *from, uint64_t id, const field_list *list) {
  h3_field_size *sizes = calloc(list->count, sizeof *sizes);
  pack bytes = {0};
  for (size_t j = 0; j < list->count; j++) {
    sizes[j] = (h3_field_size){(uint32_t)list->fields[j].namelen, (uint32_t)list->fields[j].valuelen};
    put_bytes(&bytes, list->fields[j].name, list->fields[j].namelen);
    put_bytes(&bytes, list->fields[j].value, list->fields[j].valuelen);
  }
  done("h3_send_head", h3_send_head(&from->end, id, sizes, NULL, list->count, bytes.bytes, bytes.len, NULL));
  done("h3_finish", h3_finish(&from->end, id, NULL));
  free(sizes);
  free_pack(&bytes);
}

/* One byte says of which type the encoder stream is. */
static void our_write(void *end, size_t number, const field_list *list, pack *instructions, pack *section) {
  our_end *from = end;
  uint64_t id = 4 * number;
  if (from->server) request_comes(from, id);
  else done("h3_open_request", h3_open_request(&from->end, &id, NULL));
  send_list(from, id, list);
  pack beside = taken(from, h3_encoder_id(from->server)), frame = taken(from, id);
  size_t type = number == 0 && beside.len > 0;
  uint64_t payload;
  const uint8_t *from_there = plain_varint_decode(frame.bytes + 1, &payload);
  put_bytes(instructions, beside.bytes + type, beside.len - type);
  put_bytes(section, from_there, payload);
  free_pack(&beside);
  free_pack(&frame);
}

static void our_hear(void *end, const pack *replies) {
  our_end *to = end;
  done("h3_deliver", h3_deliver(&to->end, h3_decoder_id(!to->server), replies->bytes, replies->len, NULL));
}

static void our_finish(void *end) {
  h3_free(&((our_end *)end)->end);
  free(end);
}

const head_writer our_heads = {our_begin, our_write, our_hear, our_finish, 0, 0};
const head_writer our_unguarded_heads = {our_begin, our_write, our_hear, our_finish, 1, 0};
const head_writer our_huffman_heads = {our_begin, our_write, our_hear, our_finish, 0, 1};

/* ---- nghttp3 ---- */

static void *peer_begin(const head_writer *writer, const heads_kind *kind) {
  peer_sender *made = malloc(sizeof *made);
  *made = peer_sender_new(kind->capacity, kind->blocked);
  return made;
}

static void peer_write(void *end, size_t number, const field_list *list, pack *instructions, pack *section) {
  peer_sender *from = end;
  nghttp3_buf_reset(&from->instructions);
  peer_send(from, 4 * number, list);
  put_bytes(instructions, from->instructions.pos, nghttp3_buf_len(&from->instructions));
  put_section(section, from);
}

static void peer_hear(void *end, const pack *replies) {
  if (!peer_sender_hear(end, replies->bytes, replies->len)) stop("nghttp3_qpack_encoder_read_decoder", (long)replies->len);
}

static void peer_finish(void *end) {
  peer_sender_free(end);
  free(end);
}

const head_writer peer_heads = {peer_begin, peer_write, peer_hear, peer_finish, 0, 0};

static void *peer_reads_begin(const heads_kind *kind) {
  peer_receiver *made = malloc(sizeof *made);
  *made = peer_receiver_new(kind->capacity, kind->blocked);
  return made;
}

static void peer_read(void *end, size_t number, const pack *instructions, const pack *section, pack *list, pack *replies) {
  peer_receiver *to = end;
  size_t fields = 0, sum = 0;
  if (!peer_receiver_hear(to, instructions->bytes, instructions->len)) stop("nghttp3_qpack_decoder_read_encoder", (long)number);
  if (peer_receive(to, 4 * number, section->bytes, section->len, &fields, &sum, list) != PEER_DECODED)
    stop("nghttp3_qpack_decoder_read_request", (long)number);
  peer_reply(to);
  put_bytes(replies, to->replies.bytes, to->replies.len);
}

static void peer_reads_finish(void *end) {
  peer_receiver_free(end);
  free(end);
}

const head_reader peer_reads = {"nghttp3", peer_reads_begin, peer_read, peer_reads_finish};

/* ---- one beside the other ---- */

static const field_list *list_of(const heads_kind *kind, size_t i) { return &kind->lists->lists[i % kind->lists->count]; }

double plain_of(const heads_kind *kind, size_t first) {
  double sum = 0;
  for (size_t i = first; i < kind->heads; i++) {
    const field_list *list = list_of(kind, i);
    for (size_t j = 0; j < list->count; j++) sum += (double)(list->fields[j].namelen + list->fields[j].valuelen);
  }
  return sum;
}

static void want_list(const field_list *sent, const pack *got, const char *reader, size_t number) {
  pack wanted = {0};
  put_list(&wanted, sent);
  if (wanted.len != got->len || memcmp(wanted.bytes, got->bytes, got->len)) {
    fprintf(stderr, "%s read other fields than were sent\n", reader);
    stop("head", (long)number);
  }
  free_pack(&wanted);
}

size_t bytes_of_heads(const heads_kind *kind, const head_writer *writer, const head_reader *reader) {
  void *from = writer->begin(writer, kind), *to = reader->begin(kind);
  size_t written = 0;
  for (size_t i = 0; i < kind->heads; i++) {
    pack instructions = {0}, section = {0}, list = {0}, replies = {0};
    writer->write(from, i, list_of(kind, i), &instructions, &section);
    reader->read(to, i, &instructions, &section, &list, &replies);
    want_list(list_of(kind, i), &list, reader->name, i);
    writer->hear(from, &replies);
    if (i >= kind->first) written += instructions.len + section.len;
    free_pack(&instructions);
    free_pack(&section);
    free_pack(&list);
    free_pack(&replies);
  }
  writer->finish(from);
  reader->finish(to);
  return written;
}
