/* Exchanges by build/c/libbeanwhile_h3.a. */
#include "exchange.h"
#include "h3.h"
#include "measure.h"
#include <stdlib.h>
#include <string.h>

enum { MOST_FIELDS = 256 }; /* of a list that comes */

typedef struct {
  h3_field_size *sizes;
  size_t count;
  pack bytes;
} given_list; /* a list as h3_send_head takes it */

typedef struct {
  h3_endpoint end;
  const given_list *lists; /* what it sends */
  size_t lists_count, body;
  uint64_t *whole; /* streams whose end came, not yet answered or forgotten */
  size_t whole_count;
  int is_copied; /* whether what comes out is copied */
  came_out got;
} side;

static void done(const char *what, uint32_t answer) {
  if (answer != H3_OK) stop(what, (long)answer);
}

static given_list *given(const field_lists *lists) {
  given_list *all = calloc(lists->count, sizeof *all);
  for (size_t i = 0; i < lists->count; i++) {
    const field_list *list = &lists->lists[i];
    all[i].count = list->count;
    all[i].sizes = calloc(list->count, sizeof *all[i].sizes);
    for (size_t j = 0; j < list->count; j++) {
      const nghttp3_nv *field = &list->fields[j];
      all[i].sizes[j] = (h3_field_size){(uint32_t)field->namelen, (uint32_t)field->valuelen};
      put_bytes(&all[i].bytes, field->name, field->namelen);
      put_bytes(&all[i].bytes, field->value, field->valuelen);
    }
  }
  return all;
}

static void free_given(given_list *all, size_t count) {
  for (size_t i = 0; i < count; i++) {
    free(all[i].sizes);
    free_pack(&all[i].bytes);
  }
  free(all);
}

static void read_fields(side *to, const h3_item *head) {
  static h3_field_size sizes[MOST_FIELDS];
  done("h3_item_fields", h3_item_fields(&to->end, sizes, NULL, MOST_FIELDS, copied, sizeof copied));
  for (size_t i = 0; i < head->fields; i++) to->got.field_bytes += sizes[i].name + sizes[i].value;
  to->got.fields += head->fields;
  to->got.heads++;
}

static void read_body(side *to, const uint8_t *bytes, size_t len) {
  if (to->is_copied) memcpy(copied, bytes, len);
  to->got.body += len;
}

/* Bytes came on a request stream, and perhaps its end: reads them where they lie, until a pause or the end. */
static void read_bytes(side *to, uint64_t id, const uint8_t *bytes, size_t len, int fin) {
  size_t used;
  for (h3_item item;; bytes += used, len -= used) {
    done("h3_read", h3_read(&to->end, id, bytes, len, fin, &used, &item, NULL));
    switch (item.kind) {
    case H3_HEAD:
      read_fields(to, &item);
      break;
    case H3_BODY_GIVEN:
      read_body(to, bytes + item.number, item.len);
      if (used == len && !fin) return; /* nothing more is there */
      break;
    case H3_END:
      to->whole[to->whole_count++] = id;
      to->got.ends++;
      return;
    case H3_PENDING:
      return;
    default:
      stop("h3_read gave another kind", (long)item.kind);
    }
  }
}

/* Bytes came on a stream, in one piece. */
static void take(side *to, uint64_t id, const uint8_t *bytes, size_t len, int fin) {
  if (id % 4 == 0) read_bytes(to, id, bytes, len, fin);
  else if (len) done("h3_deliver", h3_deliver(&to->end, id, bytes, len, NULL));
}

/* QUIC copies what the endpoint gives, and the body behind it, into packets. */
static void carry_copied(side *from, side *to, uint64_t id, size_t piece, int in_turn) {
  size_t len, past, body_at = 0;
  uint32_t fin;
  do {
    done("h3_outgoing", h3_outgoing(&from->end, id, carried, piece, &len, &past, &fin));
    if (past) {
      size_t held = past < piece - len ? past : piece - len;
      if (held < past) fin = 0;
      memcpy(carried + len, exchange_body + body_at, held);
      body_at += held, len += held;
    }
    if (len) done("h3_advance", h3_advance(&from->end, id, len));
    if (fin) done("h3_end_taken", h3_end_taken(&from->end, id));
    if (len || fin) (in_turn ? keep_piece(id, carried, len, (int)fin) : take(to, id, carried, len, (int)fin));
  } while ((len == piece || past) && !fin);
}

/* Reads bytes where they lie, `piece` at once, and the end with the last of them. */
static void take_pieces(side *to, uint64_t id, const uint8_t *bytes, size_t len, size_t piece, int fin) {
  for (; len > piece; bytes += piece, len -= piece) take(to, id, bytes, piece, 0);
  if (len || fin) take(to, id, bytes, len, fin);
}

/* What the endpoint gives is read in the buffer that it was written into, and the body where the sender has it. */
static void carry_in_place(side *from, side *to, uint64_t id, size_t piece) {
  size_t len, past, body_at = 0;
  uint32_t fin;
  do {
    done("h3_outgoing", h3_outgoing(&from->end, id, carried, sizeof carried, &len, &past, &fin));
    if (len + past) done("h3_advance", h3_advance(&from->end, id, len + past));
    if (fin) done("h3_end_taken", h3_end_taken(&from->end, id));
    take_pieces(to, id, carried, len, piece, fin && !past);
    if (past) take_pieces(to, id, exchange_body + body_at, past, piece, (int)fin);
    body_at += past;
  } while (past && !fin);
}

static void carry(side *from, side *to, uint64_t id, const exchange_kind *kind) {
  if (kind->in_place) carry_in_place(from, to, id, kind->piece);
  else carry_copied(from, to, id, kind->piece, kind->in_turn);
}

static void take_piece(void *to, uint64_t id, const uint8_t *bytes, size_t len, int fin) { take(to, id, bytes, len, fin); }

/* The first stream from `id` on on which something waits. */
static int next_to_send(side *from, uint64_t *id) { return h3_next_to_send(&from->end, *id, id) == H3_OK; }

/* Carries all that waits, if anything does: the own streams first, since heads may need what stands there. Their ids are the lowest ones. */
static void carry_all(side *from, side *to, int is_server, const exchange_kind *kind) {
  uint64_t id = 0;
  int waits = next_to_send(from, &id);
  if (!waits) return;
  const uint64_t own[] = {h3_control_id(is_server), h3_encoder_id(is_server), h3_decoder_id(is_server)};
  if (id <= own[2]) {
    for (size_t i = 0; i < sizeof own / sizeof *own; i++) carry(from, to, own[i], kind);
    waits = next_to_send(from, &id);
  }
  for (; waits; id++, waits = next_to_send(from, &id)) carry(from, to, id, kind);
  read_in_turn(take_piece, to);
}

static void send(side *from, uint64_t id) {
  const given_list *list = &from->lists[id / 4 % from->lists_count];
  done("h3_send_head", h3_send_head(&from->end, id, list->sizes, NULL, list->count, list->bytes.bytes, list->bytes.len, NULL));
  if (from->body) done("h3_send_body_of", h3_send_body_of(&from->end, id, from->body, NULL));
  done("h3_finish", h3_finish(&from->end, id, NULL));
}

static void make(side *made, const exchange_kind *kind, int is_server) {
  h3_config config;
  h3_config_default(&config);
  config.max_field_section_size = (UINT64_C(1) << 62) - 1; /* nghttp3 has no limit either */
  config.unfinished_limit = UINT64_MAX;
  config.server = (uint32_t)is_server;
  config.table = kind->table;
  config.blocked = kind->blocked;
  done("h3_new", h3_new(&made->end, &config, NULL));
}

static void run_connection(const exchange_kind *kind, side *client, side *server) {
  make(client, kind, 0);
  make(server, kind, 1);
  carry_all(client, server, 0, kind);
  carry_all(server, client, 1, kind);
  for (size_t opened = 0; opened < kind->exchanges;) {
    for (size_t i = 0; i < kind->under_way && opened < kind->exchanges; i++, opened++) {
      uint64_t id;
      done("h3_open_request", h3_open_request(&client->end, &id, NULL));
      send(client, id);
    }
    carry_all(client, server, 0, kind);
    for (size_t i = 0; i < server->whole_count; i++) send(server, server->whole[i]);
    carry_all(server, client, 1, kind);
    carry_all(client, server, 0, kind);
    carry_all(server, client, 1, kind);
    client->whole_count = server->whole_count = 0;
  }
  h3_free(&client->end);
  h3_free(&server->end);
}

void our_exchanges(void *data, uint64_t rounds) {
  const exchange_kind *kind = data;
  given_list *requests = given(kind->requests), *responses = given(kind->responses);
  uint64_t *whole = calloc(2 * (kind->under_way + 1), sizeof *whole);
  for (; rounds; rounds--) {
    side client = {H3_NONE_YET, requests, kind->requests->count, kind->request_body, whole, 0, !kind->in_place, {0}};
    side server = {H3_NONE_YET, responses, kind->responses->count, kind->response_body, whole + kind->under_way + 1, 0, !kind->in_place, {0}};
    count_held_from_here();
    run_connection(kind, &client, &server);
    want_all("ours", kind, &server.got, &client.got);
  }
  free(whole);
  free_given(requests, kind->requests->count);
  free_given(responses, kind->responses->count);
}
