/* load ADDRESS PORT TRUSTED PATH CONNECTIONS PARALLEL REQUESTS SECONDS PROCESS: GETs over HTTP/3 by nghttp3, over examples/c/quic.c.
 *
 * Each connection is a process of its own. When all are there they begin at once, each with so many of the REQUESTS, PARALLEL at a time. Prints how
 * many a second were answered with 200 and a body, and the processor time that the server, PROCESS, took for each, in microseconds. It
 * ends with 1 where one was not, or not within so many SECONDS. */
#include "quic.h"
#include <nghttp3/nghttp3.h>
#include <stdio.h>
#include <stdlib.h>
#include <string.h>
#include <sys/wait.h>
#include <time.h>
#include <unistd.h>

typedef struct {
  quic_connection *quic;
  nghttp3_conn *http;
  const char *authority, *path;
  size_t begun, ended, good; /* requests; good: with status 200 and the end of a body */
  bool over;
} client;

static double now(void) {
  struct timespec time;
  clock_gettime(CLOCK_MONOTONIC, &time);
  return (double)time.tv_sec + (double)time.tv_nsec / 1e9;
}

/* What nghttp3 tells. A stream's user data counts: 1 for the status 200, 2 for a body. */

static int on_header(nghttp3_conn *conn, int64_t id, int32_t token, nghttp3_rcbuf *name, nghttp3_rcbuf *value, uint8_t flags, void *user,
                     void *seen) {
  (void)id, (void)name, (void)flags, (void)user, (void)seen;
  nghttp3_vec text = nghttp3_rcbuf_get_buf(value);
  if (token == NGHTTP3_QPACK_TOKEN__STATUS && text.len == 3 && memcmp(text.base, "200", 3) == 0)
    nghttp3_conn_set_stream_user_data(conn, id, (void *)1);
  return 0;
}

static int on_body(nghttp3_conn *conn, int64_t id, const uint8_t *bytes, size_t count, void *user, void *seen) {
  (void)bytes, (void)count, (void)user;
  if (seen == (void *)1) nghttp3_conn_set_stream_user_data(conn, id, (void *)3);
  return 0;
}

static int on_end(nghttp3_conn *conn, int64_t id, void *user, void *seen) {
  (void)conn, (void)id;
  client *client = user;
  client->ended++;
  client->good += seen == (void *)3;
  return 0;
}

/* What QUIC tells. */

static void received(void *owner, int64_t id, const uint8_t *bytes, size_t count, bool end) {
  client *client = owner;
  quic_consumed(client->quic, id, count);
  if (nghttp3_conn_read_stream(client->http, id, bytes, count, end) < 0) quic_close(client->quic, 0x102);
}

static void was_reset(void *owner, int64_t id, uint64_t code) { (void)id, (void)code, quic_close(((client *)owner)->quic, 0x102); }

static void was_stopped(void *owner, int64_t id) { (void)owner, (void)id; }

static void stream_closed(void *owner, int64_t id) { nghttp3_conn_close_stream(((client *)owner)->http, id, 0x100); }

static void fill(void *owner) {
  client *client = owner;
  for (;;) {
    nghttp3_vec pieces[8];
    int64_t id = -1;
    int end = 0;
    size_t total = 0;
    nghttp3_ssize count = nghttp3_conn_writev_stream(client->http, &id, &end, pieces, 8);
    if (count < 0) return quic_close(client->quic, 0x102);
    if (id < 0) return;
    for (nghttp3_ssize i = 0; i < count; i++) total += pieces[i].len;
    for (nghttp3_ssize i = 0; i < count; i++)
      if (!quic_send(client->quic, id, pieces[i].base, pieces[i].len, end && i + 1 == count)) return quic_close(client->quic, 0x102);
    nghttp3_conn_add_write_offset(client->http, id, total);
    nghttp3_conn_add_ack_offset(client->http, id, total); /* quic_send has copied them */
  }
}

static void *opened(quic_connection *quic, void *user) {
  static const nghttp3_callbacks callbacks = {.recv_header = on_header, .recv_data = on_body, .end_stream = on_end};
  client *client = user;
  nghttp3_settings settings;
  nghttp3_settings_default(&settings);
  settings.qpack_max_dtable_capacity = 4096;
  settings.qpack_blocked_streams = 16;
  client->quic = quic;
  if (nghttp3_conn_client_new(&client->http, &callbacks, &settings, NULL, client) != 0) return NULL;
  nghttp3_conn_bind_control_stream(client->http, quic_open(quic, true));
  int64_t encoder = quic_open(quic, true);
  nghttp3_conn_bind_qpack_streams(client->http, encoder, quic_open(quic, true));
  return client;
}

static void closed(void *owner, const quic_ending *ending) {
  client *client = owner;
  (void)ending;
  client->over = true;
  nghttp3_conn_del(client->http);
  client->http = NULL;
}

static bool ask(client *client) {
  nghttp3_nv fields[] = {{(uint8_t *)":method", (uint8_t *)"GET", 7, 3, 0},
                         {(uint8_t *)":scheme", (uint8_t *)"https", 7, 5, 0},
                         {(uint8_t *)":authority", (uint8_t *)client->authority, 10, strlen(client->authority), 0},
                         {(uint8_t *)":path", (uint8_t *)client->path, 5, strlen(client->path), 0},
                         {(uint8_t *)"user-agent", (uint8_t *)"load", 10, 4, 0}};
  int64_t id = quic_open(client->quic, false);
  return id >= 0 && nghttp3_conn_submit_request(client->http, id, fields, 5, NULL, NULL) == 0;
}

/* One connection, in a process of its own: it says at `ready` that it is there, and begins when `begin` is closed. */
static int run_client(char **words, size_t parallel, size_t requests, double last, int ready, int begin) {
  static const quic_events events = {opened, received, was_reset, was_stopped, stream_closed, fill, .closed = closed};
  quic_identity identity = {.trusted = words[3]};
  char authority[32], byte = 0;
  client client = {.authority = authority, .path = words[4]};
  snprintf(authority, sizeof authority, "localhost:%s", words[2]);
  quic_socket *socket = quic_connect(words[1], words[2], "localhost", &identity, NULL, &events, &client);
  while (socket && !client.http && now() < last && quic_turn(socket, 100) > 0) continue;
  for (double settled = now() + 0.2; socket && now() < settled;) quic_turn(socket, 20); /* settings, and the handshake's end */
  if (!client.http || write(ready, &byte, 1) != 1 || read(begin, &byte, 1) != 0) return 1;
  while (!client.over && client.ended < requests && now() < last) {
    while (client.begun < requests && client.begun - client.ended < parallel && quic_may_open(client.quic) > 0 && ask(&client)) client.begun++;
    quic_turn(socket, 100);
  }
  size_t good = client.good;
  quic_free(socket);
  return good == requests ? 0 : 1;
}

/* The processor time of a process so far, in seconds. */
static double used(const char *process) {
  char name[64], text[512] = "";
  unsigned long user = 0, system = 0;
  snprintf(name, sizeof name, "/proc/%s/stat", process);
  FILE *file = fopen(name, "r");
  if (!file) return 0;
  const char *rest = fgets(text, sizeof text, file) ? strrchr(text, ')') : NULL;
  if (rest) sscanf(rest, ") %*c %*d %*d %*d %*d %*d %*u %*u %*u %*u %*u %lu %lu", &user, &system);
  fclose(file);
  return (double)(user + system) / (double)sysconf(_SC_CLK_TCK);
}

int main(int count, char **words) {
  int ready[2], begin[2], status;
  char byte;
  if (count != 10 || pipe(ready) != 0 || pipe(begin) != 0) {
    fprintf(stderr, "load ADDRESS PORT TRUSTED PATH CONNECTIONS PARALLEL REQUESTS SECONDS PROCESS\n");
    return 2;
  }
  size_t connections = strtoul(words[5], NULL, 10), requests = strtoul(words[7], NULL, 10) / (connections ? connections : 1);
  double last = now() + atof(words[8]);
  for (size_t i = 0; i < connections; i++)
    if (fork() == 0) {
      close(begin[1]);
      return run_client(words, strtoul(words[6], NULL, 10), requests, last, ready[1], begin[0]);
    }
  close(ready[1]);
  size_t there = 0;
  while (there < connections && read(ready[0], &byte, 1) == 1) there++;
  double then = now(), used_then = used(words[9]);
  close(begin[1]);
  bool good = there == connections;
  while (wait(&status) > 0) good = status == 0 && good;
  double seconds = now() - then, processor = used(words[9]) - used_then, total = (double)(connections * requests);
  printf("%.0f %.1f\n", total / seconds, 1e6 * processor / total);
  return good ? 0 : 1;
}
