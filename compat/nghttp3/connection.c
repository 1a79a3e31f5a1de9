/* connection.c: a connection from its first call to its last, and its shutdown. */
#include <stddef.h>
#include <stdlib.h>
#include <string.h>
#include "connection.h"

#define NO_LIMIT ((UINT64_C(1) << 62) - 1)
enum {
  DEFAULT_ENCODER_TABLE = 4096,
  MOST_SECTION = 1 << 20,     /* the greatest field section that is taken where the application names no limit or a greater one */
  LEAST_UNFINISHED = 1 << 18, /* of frames that are kept until they are whole */
};

/* ---- structs: each version is as the one before, and longer. A program has that of the header which it was compiled with. ---- */

#define END_OF(type, member) (offsetof(type, member) + sizeof((type){0}.member))

static size_t settings_size(int version) {
#ifdef NGHTTP3_SETTINGS_V2
  if (version < NGHTTP3_SETTINGS_V2) return END_OF(nghttp3_settings, h3_datagram);
#endif
#ifdef NGHTTP3_SETTINGS_V3
  if (version < NGHTTP3_SETTINGS_V3) return END_OF(nghttp3_settings, origin_list);
#endif
#ifdef NGHTTP3_SETTINGS_V4
  if (version < NGHTTP3_SETTINGS_V4) return END_OF(nghttp3_settings, glitch_ratelim_rate);
#endif
  return (void)version, sizeof(nghttp3_settings);
}

static size_t callbacks_size(int version) {
#ifdef NGHTTP3_CALLBACKS_V2
  if (version < NGHTTP3_CALLBACKS_V2) return END_OF(nghttp3_callbacks, recv_settings);
#endif
#ifdef NGHTTP3_CALLBACKS_V3
  if (version < NGHTTP3_CALLBACKS_V3) return END_OF(nghttp3_callbacks, rand);
#endif
  return (void)version, sizeof(nghttp3_callbacks);
}

static nghttp3_settings default_settings(void) {
  return (nghttp3_settings){
      .max_field_section_size = NO_LIMIT,
      .qpack_encoder_max_dtable_capacity = DEFAULT_ENCODER_TABLE,
#ifdef NGHTTP3_SETTINGS_V3
      .glitch_ratelim_burst = 1000,
      .glitch_ratelim_rate = 33,
#endif
  };
}

EXPORT void nghttp3_settings_default_versioned(int version, nghttp3_settings *settings) {
  nghttp3_settings all = default_settings();
  memcpy(settings, &all, settings_size(version));
}

/* ---- a connection ---- */

static h3_config config_of(bool is_server, const nghttp3_settings *settings) {
  h3_config config;
  uint64_t most_section = settings->max_field_section_size < MOST_SECTION ? settings->max_field_section_size : MOST_SECTION;
  h3_config_default(&config);
  config.server = is_server;
  config.max_field_section_size = most_section;
  config.table = settings->qpack_max_dtable_capacity;
  if (most_section < LEAST_UNFINISHED / 4 && config.table < LEAST_UNFINISHED / 4) config.unfinished_limit = LEAST_UNFINISHED;
  config.blocked = settings->qpack_blocked_streams;
  config.encoder_table = settings->qpack_encoder_max_dtable_capacity;
  config.extended_connect = is_server && settings->enable_connect_protocol;
#ifdef HAS_VERSION_1
  config.datagram = settings->h3_datagram;
#endif
  return config;
}

static int connection_new(nghttp3_conn **to, bool is_server, const nghttp3_settings *settings, void *user_data) {
  h3_config config = config_of(is_server, settings);
  nghttp3_conn *connection = calloc(1, sizeof *connection);
  if (!connection) return NGHTTP3_ERR_NOMEM;
  uint32_t answer = table_grow(connection) ? h3_new(&connection->endpoint, &config, NULL) : H3_MEMORY;
  if (answer != H3_OK) {
    free(connection->table), free(connection);
    return error_of_answer(answer, 0);
  }
  connection->user_data = user_data;
  connection->is_server = is_server, connection->end_id = INT64_MAX;
  connection->peer_control = connection->peer_encoder = connection->peer_decoder = -1;
  stream_init(&connection->control, -1, h3_control_id(is_server));
  stream_init(&connection->encoder, -1, h3_encoder_id(is_server));
  stream_init(&connection->decoder, -1, h3_decoder_id(is_server));
  may_have_bytes(connection, &connection->control), may_have_bytes(connection, &connection->encoder);
  may_have_bytes(connection, &connection->decoder);
  connection->has_own_table = config.table > 0;
  for (int urgency = 0; urgency < NGHTTP3_URGENCY_LEVELS; urgency++) TAILQ_INIT(&connection->ready[urgency]);
  TAILQ_INIT(&connection->waiting);
  *to = connection;
  return 0;
}

#ifdef NGHTTP3_SETTINGS_V2
/* An ORIGIN frame (RFC 9412) follows the settings on the control stream: its payload is the application's. */
static int send_origins(nghttp3_conn *connection, const nghttp3_vec *origins) {
  enum { ORIGIN = 0x0c };
  uint8_t head[2 * LONGEST_INTEGER];
  size_t length = (size_t)(write_integer(write_integer(head, ORIGIN), origins->len) - head);
  int error = endpoint_take(connection, &connection->control);
  if (!error) error = append_copy(connection, &connection->control, head, length);
  if (!error && origins->len > 0) error = append_copy(connection, &connection->control, origins->base, origins->len);
  return error;
}
#endif

/* A program that was compiled with the header of a later version of nghttp3 than this library has longer structs: what follows is not
 * read. The allocator of the application is not used (README.md). */
static int connection_new_versioned(nghttp3_conn **to, bool is_server, int callbacks_version, const nghttp3_callbacks *callbacks,
                                    int settings_version, const nghttp3_settings *given, void *user_data) {
  nghttp3_settings settings = default_settings();
  memcpy(&settings, given, settings_size(settings_version));
  int error = connection_new(to, is_server, &settings, user_data);
  if (error) return error;
  memcpy(&(*to)->callbacks, callbacks, callbacks_size(callbacks_version));
#ifdef NGHTTP3_SETTINGS_V2
  if (is_server && settings.origin_list) error = send_origins(*to, settings.origin_list);
  if (error) nghttp3_conn_del(*to);
#endif
  return error;
}

EXPORT int nghttp3_conn_client_new_versioned(nghttp3_conn **to, int callbacks_version, const nghttp3_callbacks *callbacks,
                                             int settings_version, const nghttp3_settings *settings, const nghttp3_mem *memory,
                                             void *user_data) {
  return (void)memory, connection_new_versioned(to, false, callbacks_version, callbacks, settings_version, settings, user_data);
}

EXPORT int nghttp3_conn_server_new_versioned(nghttp3_conn **to, int callbacks_version, const nghttp3_callbacks *callbacks,
                                             int settings_version, const nghttp3_settings *settings, const nghttp3_mem *memory,
                                             void *user_data) {
  return (void)memory, connection_new_versioned(to, true, callbacks_version, callbacks, settings_version, settings, user_data);
}

EXPORT void nghttp3_conn_del(nghttp3_conn *connection) {
  if (!connection) return;
  h3_free(&connection->endpoint);
  for (size_t i = 0; connection->streams > 0; i++)
    for (stream *s = connection->table[i], *next; s; s = next) {
      next = s->next;
      stream_free(connection, s);
    }
  stream_clear(connection, &connection->control), stream_clear(connection, &connection->encoder);
  stream_clear(connection, &connection->decoder);
  pool_clear(&connection->spare_streams), pool_clear(&connection->spare_chunks);
  free(connection->spare_section), free(connection->table), free(connection->scratch), free(connection);
}

EXPORT int nghttp3_conn_bind_control_stream(nghttp3_conn *connection, int64_t id) {
  if (connection->control.id >= 0) return NGHTTP3_ERR_INVALID_STATE;
  connection->control.id = id;
  return 0;
}

EXPORT int nghttp3_conn_bind_qpack_streams(nghttp3_conn *connection, int64_t encoder_id, int64_t decoder_id) {
  if (connection->encoder.id >= 0 || connection->decoder.id >= 0) return NGHTTP3_ERR_INVALID_STATE;
  connection->encoder.id = encoder_id, connection->decoder.id = decoder_id;
  return 0;
}

/* ---- shutdown, in two steps (RFC 9114, section 5.2) ---- */

static int send_goaway(nghttp3_conn *connection, uint64_t id) {
  uint64_t detail = 0;
  uint32_t answer = h3_goaway(&connection->endpoint, id, &detail);
  may_have_bytes(connection, &connection->control);
  return error_of_answer(answer, detail);
}

EXPORT int nghttp3_conn_submit_shutdown_notice(nghttp3_conn *connection) {
  return send_goaway(connection, connection->is_server ? NGHTTP3_SHUTDOWN_NOTICE_STREAM_ID : NGHTTP3_SHUTDOWN_NOTICE_PUSH_ID);
}

EXPORT int nghttp3_conn_shutdown(nghttp3_conn *connection) {
  int error = send_goaway(connection, connection->is_server ? (uint64_t)connection->next_id : 0);
  if (error) return error;
  connection->is_leaving = true;
  if (connection->is_server) connection->end_id = connection->next_id;
  return 0;
}

#ifdef HAS_VERSION_1
EXPORT int nghttp3_conn_is_drained(nghttp3_conn *connection) {
  return connection->is_server && connection->is_leaving && connection->streams == 0;
}
#endif

/* Two hints of QUIC's limits, by which nghttp3 sizes what it keeps: nothing here depends on them. */
EXPORT void nghttp3_conn_set_max_client_streams_bidi(nghttp3_conn *connection, uint64_t most) { (void)connection, (void)most; }
EXPORT void nghttp3_conn_set_max_concurrent_streams(nghttp3_conn *connection, size_t most) { (void)connection, (void)most; }
