/* A client and a server in one program: one request and its response. `carry` does what your QUIC library will do. */
#include <beanwhile/h3.h>
#include <stdio.h>
#include <stdlib.h>
#include <string.h>

enum { MOST_FIELDS = 64, MOST_BYTES = 4096 };

static void check(uint32_t answer, const char *call) {
  if (answer == H3_OK) return;
  fprintf(stderr, "%s: %s\n", call, h3_answer_text(answer));
  exit(1);
}

static void make(h3_endpoint *endpoint, int server) {
  h3_config config;
  h3_config_default(&config); /* a client with safe limits */
  config.server = (uint64_t)server;
  check(h3_new(endpoint, &config, NULL), "h3_new");
}

/* Sends a header section, given as names and values in turn, then a body, then the end of the stream. */
static void send_message(h3_endpoint *endpoint, uint64_t id, const char *const *texts, const char *body) {
  h3_field_size sizes[MOST_FIELDS];
  char bytes[MOST_BYTES];
  size_t count = 0, len = 0;
  for (; texts[2 * count]; count++) { /* name, value, name, value, .. in a buffer, and the size of each in an array */
    sizes[count].name = (uint32_t)strlen(texts[2 * count]);
    sizes[count].value = (uint32_t)strlen(texts[2 * count + 1]);
    if (count + 1 == MOST_FIELDS || sizes[count].name + sizes[count].value >= sizeof bytes - len) abort();
    len += (size_t)sprintf(bytes + len, "%s%s", texts[2 * count], texts[2 * count + 1]);
  }
  check(h3_send_head(endpoint, id, sizes, NULL, count, bytes, len, NULL), "h3_send_head");
  check(h3_send_body(endpoint, id, body, strlen(body), NULL), "h3_send_body");
  check(h3_finish(endpoint, id, NULL), "h3_finish");
}

static void print_fields(h3_endpoint *endpoint, const h3_item *item) {
  h3_field_size sizes[MOST_FIELDS];
  char bytes[MOST_BYTES], *at = bytes;
  check(h3_item_fields(endpoint, sizes, NULL, MOST_FIELDS, bytes, sizeof bytes), "h3_item_fields"); /* H3_ROOM: they are larger */
  for (size_t i = 0; i < item->fields; at += sizes[i].name + sizes[i].value, i++)
    printf("  %.*s = %.*s\n", (int)sizes[i].name, at, (int)sizes[i].value, at + sizes[i].name);
}

static void print_body(h3_endpoint *endpoint, const h3_item *item) {
  char bytes[MOST_BYTES];
  size_t n;
  for (size_t from = 0; from < item->len; from += n) {
    check(h3_item_bytes(endpoint, from, bytes, sizeof bytes, &n), "h3_item_bytes");
    printf("  body: %.*s", (int)n, bytes);
  }
}

/* Reads what has come of the message on a stream; returns 1 at its end, and 0 if more has to come first. */
static int receive(h3_endpoint *endpoint, uint64_t id) {
  for (h3_item item;;) {
    check(h3_pull(endpoint, id, &item), "h3_pull");
    switch (item.kind) {
    case H3_HEAD: print_fields(endpoint, &item); break;
    case H3_BODY: print_body(endpoint, &item); break;
    case H3_END: return 1;
    case H3_PENDING: case H3_WAITING: return 0;
    default: fprintf(stderr, "%s %llu\n", h3_kind_text(item.kind), (unsigned long long)item.number); exit(1);
    }
  }
}

/* Takes all outgoing stream data of one endpoint and delivers it to the other one. */
static void carry(h3_endpoint *from, h3_endpoint *to) {
  uint8_t bytes[1200];
  size_t n;
  uint32_t fin = 0;
  for (uint64_t id = 0; h3_next_to_send(from, id, &id) == H3_OK; id += fin) {
    check(h3_outgoing(from, id, bytes, sizeof bytes, &n, NULL, &fin), "h3_outgoing");
    check(h3_deliver(to, id, bytes, n, NULL), "h3_deliver"); /* QUIC sends these bytes, the peer receives them */
    check(h3_advance(from, id, n), "h3_advance");
    if (!fin) continue;
    check(h3_deliver_end(to, id, NULL), "h3_deliver_end"); /* and the stream's FIN */
    check(h3_end_taken(from, id), "h3_end_taken");
  }
}

int main(void) {
  static const char *const request[] = {":method", "GET", ":scheme", "https", ":authority", "localhost", ":path", "/", NULL};
  static const char *const response[] = {":status", "200", "content-type", "text/plain", NULL};
  h3_endpoint client = H3_NONE_YET, server = H3_NONE_YET;
  uint64_t id;
  make(&client, 0);
  make(&server, 1);

  check(h3_open_request(&client, &id, NULL), "h3_open_request"); /* 0, 4, 8, ..: then QUIC opens the stream of this id */
  send_message(&client, id, request, "");
  carry(&client, &server);

  printf("the server receives on stream %u:\n", (unsigned)id);
  if (receive(&server, id)) send_message(&server, id, response, "hello\n");
  carry(&server, &client);

  printf("the client receives:\n");
  if (receive(&client, id)) printf("done\n");
  h3_free(&client);
  h3_free(&server);
  return 0;
}
