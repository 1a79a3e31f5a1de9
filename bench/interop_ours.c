/* One end of a connection, by build/c/libbeanwhile_h3.a. */
#include "h3.h"
#include "interop_exchange.h"
#include <stdlib.h>

typedef struct {
  h3_endpoint end;
  int is_client;
  size_t streams;
  message *got;
  uint8_t *waits;  /* whether the head or trailer that is next waits for the table */
  uint64_t looked; /* the id of the stream that was looked at last */
} side;

static void done(const char *what, uint32_t answer) {
  if (answer != H3_OK) stop(what, (long)answer);
}

/* The streams in turn, so that what waits on the encoder stream goes in between. */
static int next(void *data, uint64_t *id, uint8_t *bytes, size_t room, size_t *len, int *fin) {
  side *from = data;
  uint32_t last;
  if (h3_next_to_send(&from->end, from->looked + 1, id) != H3_OK && h3_next_to_send(&from->end, 0, id) != H3_OK) return 0;
  from->looked = *id;
  done("h3_outgoing", h3_outgoing(&from->end, *id, bytes, room, len, NULL, &last));
  done("h3_advance", h3_advance(&from->end, *id, *len));
  if (last) done("h3_end_taken", h3_end_taken(&from->end, *id));
  *fin = (int)last;
  return 1;
}

static void read_fields(side *to, field_list *list, size_t count) {
  static h3_field_size sizes[1 << 10];
  static uint8_t flags[1 << 10], bytes[1 << 17], *at;
  done("h3_item_fields", h3_item_fields(&to->end, sizes, flags, sizeof sizes / sizeof *sizes, bytes, sizeof bytes));
  at = bytes;
  for (size_t i = 0; i < count; at += sizes[i].name + sizes[i].value, i++)
    keep_field(list, at, sizes[i].name, at + sizes[i].name, sizes[i].value,
               flags[i] == H3_NEVER_INDEX ? NGHTTP3_NV_FLAG_NEVER_INDEX : NGHTTP3_NV_FLAG_NONE);
}

static void read_body(side *to, pack *body, size_t len) {
  size_t count;
  make_room(body, len);
  done("h3_item_bytes", h3_item_bytes(&to->end, 0, body->bytes + body->len, len, &count));
  body->len += count;
}

/* Reads a stream until a pause or its end. */
static void pull(side *to, uint64_t id) {
  message *got = &to->got[id / 4];
  h3_item item;
  for (;;) {
    done("h3_pull", h3_pull(&to->end, id, &item));
    if (item.kind == H3_HEAD)
      read_fields(to, &got->head, item.fields);
    else if (item.kind == H3_TRAILER)
      read_fields(to, &got->trailer, item.fields);
    else if (item.kind == H3_BODY)
      read_body(to, &got->body, item.len);
    else
      break;
  }
  if (item.kind != H3_END && item.kind != H3_PENDING && item.kind != H3_WAITING) stop("h3_pull gave another kind", (long)item.kind);
  got->is_whole = item.kind == H3_END;
  to->waits[id / 4] = item.kind == H3_WAITING;
}

static void take(void *data, uint64_t id, const uint8_t *bytes, size_t len, int fin) {
  side *to = data;
  if (len) done("h3_deliver", h3_deliver(&to->end, id, bytes, len, NULL));
  if (fin) done("h3_deliver_end", h3_deliver_end(&to->end, id, NULL));
  if (id % 4 == 0) {
    pull(to, id);
    return;
  }
  for (size_t i = 0; i < to->streams; i++)
    if (to->waits[i]) pull(to, 4 * i);
}

/* Sends a head or a trailer. */
static void send_list(side *from, uint64_t id, const field_list *list, int is_trailer) {
  pack bytes = {0};
  h3_field_size *sizes = calloc(list->count, sizeof *sizes);
  uint8_t *flags = calloc(list->count, 1);
  for (size_t i = 0; i < list->count; i++) {
    const nghttp3_nv *field = &list->fields[i];
    sizes[i] = (h3_field_size){(uint32_t)field->namelen, (uint32_t)field->valuelen};
    flags[i] = field->flags & NGHTTP3_NV_FLAG_NEVER_INDEX ? H3_NEVER_INDEX : 0;
    put_bytes(&bytes, field->name, field->namelen);
    put_bytes(&bytes, field->value, field->valuelen);
  }
  if (is_trailer)
    done("h3_send_trailer", h3_send_trailer(&from->end, id, sizes, flags, list->count, bytes.bytes, bytes.len, NULL));
  else
    done("h3_send_head", h3_send_head(&from->end, id, sizes, flags, list->count, bytes.bytes, bytes.len, NULL));
  free(sizes);
  free(flags);
  free_pack(&bytes);
}

static void send(void *data, uint64_t id, const message *sent) {
  side *from = data;
  uint64_t opened = id;
  if (from->is_client) done("h3_open_request", h3_open_request(&from->end, &opened, NULL));
  if (opened != id) stop("h3_open_request gave another id", (long)opened);
  send_list(from, id, &sent->head, 0);
  if (sent->body.len) done("h3_send_body", h3_send_body(&from->end, id, sent->body.bytes, sent->body.len, NULL));
  if (sent->trailer.count) send_list(from, id, &sent->trailer, 1);
  done("h3_finish", h3_finish(&from->end, id, NULL));
}

static const message *got(void *data, uint64_t id) { return &((side *)data)->got[id / 4]; }

static void let_go(void *data) {
  side *it = data;
  h3_free(&it->end);
  free_messages(it->got, it->streams);
  free(it->waits);
  free(it);
}

conn_end our_end(int is_server, size_t table, size_t blocked, size_t streams) {
  side *made = calloc(1, sizeof *made);
  h3_config config;
  h3_config_default(&config);
  config.max_field_section_size = (UINT64_C(1) << 62) - 1; /* any list that is read */
  config.unfinished_limit = UINT64_MAX;
  config.guard_secrets = 0; /* flags come out as they were given */
  config.server = (uint32_t)is_server;
  config.table = table;
  config.blocked = blocked;
  done("h3_new", h3_new(&made->end, &config, NULL));
  made->is_client = !is_server;
  made->streams = streams;
  made->got = calloc(streams, sizeof *made->got);
  made->waits = calloc(streams, 1);
  return (conn_end){made, next, take, send, got, let_go};
}
