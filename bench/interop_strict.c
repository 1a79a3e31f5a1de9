/* One message at a time, given as bytes to a strict endpoint of build/c/libh3.a and to one of nghttp3. A line of standard input has the side that receives it
 * (s, c), whether extended CONNECT is announced (1, 0), the method that a client asked, whether the stream ends (1, 0) and the bytes in hexadecimal digits. A
 * line of output has what ours says of it, a tab, and what nghttp3 says: ok, refused CODE (the stream) or fault CODE (the connection). With the word
 * `version` it prints that of nghttp3 alone. */
#include <h3.h>
#include <nghttp3/nghttp3.h>
#include <stdio.h>
#include <stdlib.h>
#include <string.h>

enum { MOST = 1 << 16, CONTROL_PIECES = 16, PULLS = 1000 };

typedef struct {
  char side;
  int extended, ended;
  char asked[16];
  uint8_t bytes[MOST];
  size_t len;
} message;

typedef struct {
  const char *verdict; /* ok, refused, fault */
  uint64_t code;
} answer;

static answer told(const char *verdict, uint64_t code) { return (answer){verdict, code}; }

static void fail(const char *what) {
  fprintf(stderr, "%s\n", what);
  exit(1);
}

/* ---- ours ---- */

static void send_request(h3_endpoint *client, const char *method) {
  uint64_t id;
  int connect = !strcmp(method, "CONNECT");
  char bytes[128];
  h3_field_size sizes[4];
  size_t count = 0, len = 0;
  const char *fields[4][2] = {{":method", method}, {":authority", connect ? "a:443" : "a"}, {":scheme", "https"}, {":path", "/"}};
  for (; count < (connect ? 2 : 4); count++) {
    sizes[count] = (h3_field_size){.name = strlen(fields[count][0]), .value = strlen(fields[count][1])};
    len += (size_t)sprintf(bytes + len, "%s%s", fields[count][0], fields[count][1]);
  }
  if (h3_open_request(client, &id, NULL) || h3_send_head(client, id, sizes, NULL, count, bytes, len, NULL)) fail("no request");
}

static answer said(const message *m, h3_item item, uint64_t code) {
  if (item.kind == H3_FAULT_CONNECTION) return told("fault", item.number);
  if (item.kind == H3_FAULT_MALFORMED) return told("refused", item.number == H3_NO_HEAD && m->side == 's' ? H3_CODE_REQUEST_INCOMPLETE : H3_CODE_MESSAGE_ERROR);
  return told("unknown", code);
}

static answer at_ours(const message *m) {
  h3_endpoint endpoint;
  h3_config config;
  uint64_t code = 0;
  h3_config_default(&config);
  config.server = m->side == 's';
  config.strict = 1;
  config.extended_connect = (uint32_t)m->extended;
  config.any_protocol = 0; /* the table knows the two registered names alone */
  if (h3_new(&endpoint, &config, NULL)) fail("no endpoint");
  if (m->side == 'c') send_request(&endpoint, m->asked);
  answer found = told("ok", 0);
  if (h3_deliver(&endpoint, 0, m->bytes, m->len, &code) || (m->ended && h3_deliver_end(&endpoint, 0, &code))) found = told("fault", code);
  for (int i = 0; i < PULLS && found.code == 0; i++) {
    h3_item item = {0};
    if (h3_pull(&endpoint, 0, &item)) fail("no pull");
    if (item.kind == H3_END || item.kind == H3_PENDING) break;
    if (item.kind >= H3_NO_MESSAGES) found = said(m, item, item.kind);
  }
  h3_free(&endpoint);
  return found;
}

/* ---- nghttp3's ---- */

static answer verdict;

static int refuse(nghttp3_conn *conn, int64_t id, uint64_t code, void *data, void *stream) {
  (void)conn, (void)id, (void)data, (void)stream;
  verdict = told("refused", code);
  return 0;
}

static nghttp3_ssize nothing_yet(nghttp3_conn *conn, int64_t id, nghttp3_vec *pieces, size_t count, uint32_t *flags, void *data, void *stream) {
  (void)conn, (void)id, (void)pieces, (void)count, (void)flags, (void)data, (void)stream;
  return NGHTTP3_ERR_WOULDBLOCK;
}

static nghttp3_nv field(const char *name, const char *value) {
  return (nghttp3_nv){(uint8_t *)name, (uint8_t *)value, strlen(name), strlen(value), NGHTTP3_NV_FLAG_NONE};
}

static void submit(nghttp3_conn *conn, const char *method) {
  static const nghttp3_data_reader reader = {nothing_yet};
  int connect = !strcmp(method, "CONNECT");
  nghttp3_nv fields[4] = {field(":method", method), field(":authority", connect ? "a:443" : "a"), field(":scheme", "https"), field(":path", "/")};
  if (nghttp3_conn_submit_request(conn, 0, fields, connect ? 2 : 4, connect ? &reader : NULL, NULL)) fail("nghttp3 takes no request");
  int64_t id;
  int fin;
  nghttp3_vec pieces[CONTROL_PIECES];
  for (nghttp3_ssize count; (count = nghttp3_conn_writev_stream(conn, &id, &fin, pieces, CONTROL_PIECES)) > 0 || (count == 0 && id >= 0);) {
    size_t len = 0;
    for (nghttp3_ssize i = 0; i < count; i++) len += pieces[i].len;
    nghttp3_conn_add_write_offset(conn, id, len);
  }
}

static nghttp3_conn *peer(const message *m) {
  nghttp3_callbacks calls = {0};
  calls.stop_sending = refuse;
  calls.reset_stream = refuse;
  nghttp3_settings settings;
  nghttp3_settings_default(&settings);
  settings.enable_connect_protocol = (uint8_t)m->extended;
  nghttp3_conn *conn;
  int server = m->side == 's';
  if (server ? nghttp3_conn_server_new(&conn, &calls, &settings, NULL, NULL) : nghttp3_conn_client_new(&conn, &calls, &settings, NULL, NULL)) fail("no connection");
  nghttp3_conn_bind_control_stream(conn, server ? 3 : 2);
  nghttp3_conn_bind_qpack_streams(conn, server ? 7 : 6, server ? 11 : 10);
  if (server) nghttp3_conn_set_max_client_streams_bidi(conn, 100);
  return conn;
}

static answer at_peer(const message *m) {
  static const uint8_t empty_settings[] = {0, 4, 0};
  nghttp3_conn *conn = peer(m);
  verdict = told("ok", 0);
  if (m->side == 'c') submit(conn, m->asked);
  nghttp3_ssize took = nghttp3_conn_read_stream(conn, m->side == 's' ? 2 : 3, empty_settings, sizeof empty_settings, 0);
  if (took >= 0) took = nghttp3_conn_read_stream(conn, 0, m->bytes, m->len, m->ended);
  if (took < 0) verdict = told("fault", nghttp3_err_infer_quic_app_error_code((int)took));
  nghttp3_conn_del(conn);
  return verdict;
}

/* ---- a line ---- */

static int read_message(message *m) {
  static char digits[2 * MOST + 1];
  if (scanf(" %c %d %15s %d %131072s", &m->side, &m->extended, m->asked, &m->ended, digits) != 5) return 0;
  m->len = !strcmp(digits, "-") ? 0 : strlen(digits) / 2;
  for (size_t i = 0; i < m->len; i++) {
    unsigned byte;
    if (sscanf(digits + 2 * i, "%2x", &byte) != 1) fail("no digits");
    m->bytes[i] = (uint8_t)byte;
  }
  return 1;
}

static void show(answer a, char behind) {
  if (a.code) printf("%s %llu%c", a.verdict, (unsigned long long)a.code, behind);
  else printf("%s%c", a.verdict, behind);
}

int main(int count, char **words) {
  static message m;
  if (count == 2 && !strcmp(words[1], "version")) return puts(nghttp3_version(0)->version_str) < 0;
  while (read_message(&m)) {
    show(at_ours(&m), '\t');
    show(at_peer(&m), '\n');
  }
  return 0;
}
