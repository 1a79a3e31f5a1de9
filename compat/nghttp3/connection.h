/* connection.h: what the files of this folder share. One nghttp3_conn is one h3_endpoint, and what nghttp3's calls keep that h3.h does
 * not: bytes until they are acknowledged, an order among streams, fields that the application holds, user data of streams. */
#ifndef COMPAT_CONNECTION_H
#define COMPAT_CONNECTION_H
#include <nghttp3/nghttp3.h>
#include <stdbool.h>
#include <stdint.h>
#include <stdlib.h>
#include <sys/queue.h>
#include "h3.h"

/* The header decides which library this is: that of nghttp3 0.8 is libnghttp3.so.3, those of 1.8 to 1.17 are libnghttp3.so.9. */
#if NGHTTP3_VERSION_NUM >= 0x010000
#define HAS_VERSION_1
#endif
#if NGHTTP3_VERSION_NUM >= 0x011100
#define HAS_VERSION_1_17
#endif
#if defined NGHTTP3_CALLBACKS_V4 || defined NGHTTP3_SETTINGS_V5 || defined NGHTTP3_PROTO_SETTINGS_V2 || defined NGHTTP3_PRI_V2
#error "the structs of this nghttp3 are later than those of 1.17, which are the latest that are known here"
#endif

#define EXPORT __attribute__((visibility("default")))
/* What a packet of a body does not need: so the code for that stays short. (A function that is declared here and defined with the word
 * `inline` may become part of its callers in other files: the Makefile compiles all as one.) */
#define APART __attribute__((noinline))

/* Is this a build with the sanitizer of addresses? */
#ifdef __has_feature
#if __has_feature(address_sanitizer)
#define HAS_SANITIZER
#endif
#elif defined __SANITIZE_ADDRESS__
#define HAS_SANITIZER
#endif

/* Calls a callback of the application, where it has set one. */
#define CALLBACK(connection, name, ...) \
  ((connection)->callbacks.name && (connection)->callbacks.name((connection), __VA_ARGS__) ? NGHTTP3_ERR_CALLBACK_FAILURE : 0)

/* Blocks of one size, which are allocated many at once and used again: so an exchange asks malloc for few. They are freed with the
 * connection. */
typedef struct spare_block {
  struct spare_block *next;
} spare_block;

typedef struct {
  spare_block *first;  /* of the blocks that are not used */
  spare_block *slabs;  /* what was allocated: after its first 16 bytes each has blocks */
  size_t last_count;   /* how many the last one has */
} block_pool;

/* Bytes that are sent on a stream, kept until they are acknowledged: a copy, which stands after the struct, or the application's. */
typedef struct chunk {
  STAILQ_ENTRY(chunk) next;
  const uint8_t *bytes;
  size_t length, room; /* room: how many bytes fit after a copy */
  bool is_body;        /* the application's: it learns of their acknowledgment */
  bool is_block;       /* of the pool of chunks */
} chunk;

/* A list of fields as h3_send_head takes it: the sizes, a byte of flags for each field after the last one, and then all bytes. */
typedef struct {
  size_t count, length;
  h3_field_size *sizes;
  bool has_flags; /* one is not 0 */
} field_list;
static inline uint8_t *field_list_flags(const field_list *list) { return (uint8_t *)(list->sizes + list->count); }
static inline uint8_t *field_list_bytes(const field_list *list) { return field_list_flags(list) + list->count; }

enum { MOST_HEAD = 16 }; /* bytes of a frame's type and length (RFC 9114, section 7.1) */

/* RFC 9218, section 4. */
typedef struct {
  uint32_t urgency;
  bool is_incremental;
} priority;

typedef struct stream {
  int64_t id;           /* QUIC's */
  uint64_t endpoint_id; /* the endpoint's, which may be another one for a local unidirectional stream */
  struct stream *next;  /* in the same place of the table */
  void *user_data;
  size_t owed; /* bytes that came, and for which no credit was granted */
  int holders; /* calls that use it now, which a callback may interrupt: it is freed after the last one */
  bool is_read_shut, is_closed;
  bool may_be_held; /* the endpoint may hold bytes that came: of a frame that is not whole, or after a head that waits */
  bool awaits_head; /* the header section of the message did not come, interim ones aside */
  bool is_waiting, is_ready;
  bool is_closing; /* QUIC closed it while a head waited: it is closed after that message */
  bool is_untaken; /* the endpoint may have bytes of the stream */
  bool is_blocked; /* by QUIC's flow control */
  bool awaits_data; /* read_data answered NGHTTP3_ERR_WOULDBLOCK */
  bool is_write_shut, has_ended, is_fin_offered, is_fin_taken;
  uint8_t head_length; /* of the type and length of a DATA frame that the endpoint gets with the first byte of its payload; else 0 */
  uint8_t head[MOST_HEAD];
  priority priority;

  nghttp3_read_data_callback read_data; /* NULL: there is no body, or all of it was read */
  STAILQ_HEAD(, chunk) chunks;          /* what is not acknowledged, in order */
  chunk *unsent;                        /* the first that QUIC does not have whole */
  chunk *last;                          /* if there is an unsent one: the last */
  chunk *announced;                     /* a piece of the body, if the endpoint has the head of its frame still; nothing follows it there */
  size_t unsent_offset;                 /* how much of `unsent` QUIC has */
  size_t unsent_length;                 /* how many bytes of the stream QUIC does not have */
  size_t acknowledged_offset;           /* how much of the first chunk is acknowledged */
  uint64_t sent, acknowledged;          /* bytes that QUIC has; of these are acknowledged */
  field_list trailer;                   /* which is sent after the body */
  uint64_t close_code;
  uint32_t round; /* when it was last tried whether its head waits still */
  TAILQ_ENTRY(stream) ready, waiting;
} stream;

TAILQ_HEAD(stream_row, stream);

struct nghttp3_conn {
  h3_endpoint endpoint;
  nghttp3_callbacks callbacks;
  void *user_data;
  bool is_server;
  bool has_own_table, has_peer_table; /* the table that the local decoder, and the local encoder, may use has room for entries */
  bool has_own_work;  /* the endpoint or one of the local unidirectional streams may have bytes for these */
  bool is_leaving;    /* nghttp3_conn_shutdown was called */
  bool has_control, has_updates; /* bytes of the peer's control stream came; PRIORITY_UPDATE frames may have */
  int64_t next_id; /* after the last request that was opened, or came */
  int64_t end_id;  /* a server takes no request from here on */
  int64_t peer_control, peer_encoder, peer_decoder; /* QUIC's ids, or -1 if the stream has not said that it is this one */
  stream control, encoder, decoder;
  struct stream_row ready[NGHTTP3_URGENCY_LEVELS]; /* request streams that may have something to send, by urgency */
  unsigned urgencies;                              /* a bit for each of these rows that has a stream */
  struct stream_row waiting;                       /* request streams whose head waits for the peer's encoder */
  uint32_t round;                                  /* of trying all of these */
  stream **table;                                  /* request streams by id */
  stream *found;                                   /* the one that was found last, or NULL: QUIC speaks of one several times */
  size_t places, streams;
  block_pool spare_streams, spare_chunks;
  struct section *spare_section; /* for the next header section, or NULL */
  uint8_t *scratch;
  size_t scratch_size;
};

/* errors.c */
int error_of_code(uint64_t code);
int error_of_answer(uint32_t answer, uint64_t detail);

/* tokens.c: -1 where nghttp3 has no token for the name */
int32_t token_of(const uint8_t *name, size_t length);

/* fields.c: the field section that was read last, as reference-counted buffers, two for each field. NULL where memory is refused. The
 * caller holds one reference to the whole, and gives it back. */
typedef struct section section;
struct nghttp3_rcbuf {
  section *all;
  nghttp3_vec bytes;
};
struct section {
  size_t references; /* to the whole and to its buffers */
  size_t room;       /* after this struct */
  uint8_t *flags;    /* of each field, as h3_item_fields writes them */
  nghttp3_rcbuf buffers[];
};
section *section_take(nghttp3_conn *connection, const h3_item *item);
void section_give(nghttp3_conn *connection, section *all);
size_t field_list_size(const nghttp3_nv *fields, size_t count);
field_list field_list_at(void *place, const nghttp3_nv *fields, size_t count);
bool field_list_lower(const field_list *list);

/* library.c: variable-length integers (RFC 9000, section 16). The place after the one that was written is answered. */
enum { LONGEST_INTEGER = 8 };
size_t integer_length(uint64_t number);
uint8_t *write_integer(uint8_t *to, uint64_t number);

/* priorities.c */
int read_priority_fields(nghttp3_conn *connection, stream *s, const section *all, size_t count, size_t first);
void stream_read_priority(nghttp3_conn *connection, stream *s);
void read_priorities(nghttp3_conn *connection);

/* streams.c */
stream *stream_look_up(nghttp3_conn *connection, int64_t id);
stream *stream_add(nghttp3_conn *connection, int64_t id);
void stream_init(stream *s, int64_t id, uint64_t endpoint_id);
void stream_clear(nghttp3_conn *connection, stream *s);
void *pool_grow(block_pool *pool, size_t size);
void pool_clear(block_pool *pool);
void stream_free(nghttp3_conn *connection, stream *s);
bool stream_has_work(const stream *s);
void stream_schedule(nghttp3_conn *connection, stream *s);
void stream_unschedule(nghttp3_conn *connection, stream *s);
void stream_set_priority(nghttp3_conn *connection, stream *s, priority to);
bool reserve_scratch(nghttp3_conn *connection, size_t size);
bool table_grow(nghttp3_conn *connection);

/* Each packet needs what follows: so it stands here, without a call. */

/* The size is the same in each call for a pool, and a multiple of 8. With the sanitizer of addresses blocks are malloc's, so that it sees
 * each use of one that was freed. */
#ifdef HAS_SANITIZER
static inline void *block_take(block_pool *pool, size_t size) { return (void)pool, malloc(size); }
static inline void block_give(block_pool *pool, void *block) { (void)pool, free(block); }
#else
static inline void *block_take(block_pool *pool, size_t size) {
  spare_block *block = pool->first;
  if (!block) return pool_grow(pool, size);
  pool->first = block->next;
  return block;
}

static inline void block_give(block_pool *pool, void *block) {
  spare_block *spare = block;
  spare->next = pool->first, pool->first = spare;
}
#endif

/* A client opens the streams 0, 4, 8, .. (RFC 9000, section 2.1): neither these bits nor the sign are set. */
static inline bool is_request(int64_t id) { return ((uint64_t)id & (UINT64_C(1) << 63 | 3)) == 0; }

/* A request stream, or a local unidirectional stream that is bound to this id; else NULL. */
static inline stream *stream_find(nghttp3_conn *connection, int64_t id) {
  stream *s = connection->found;
  return s && s->id == id ? s : stream_look_up(connection, id);
}

/* A callback of the application may close the stream that it was called for. */
static inline void stream_hold(stream *s) { s->holders++; }

static inline void stream_release(nghttp3_conn *connection, stream *s) {
  if (--s->holders == 0 && s->is_closed) stream_free(connection, s);
}

static inline void stream_set_waiting(nghttp3_conn *connection, stream *s, bool is_waiting) {
  if (is_waiting == s->is_waiting) return;
  if (is_waiting) TAILQ_INSERT_TAIL(&connection->waiting, s, waiting);
  else TAILQ_REMOVE(&connection->waiting, s, waiting);
  s->is_waiting = is_waiting;
}

/* The endpoint may have written on a local unidirectional stream. */
static inline void may_have_bytes(nghttp3_conn *connection, stream *own) { own->is_untaken = connection->has_own_work = true; }

/* endpoint.c: how bytes enter and leave the endpoint */
int endpoint_take(nghttp3_conn *connection, stream *s);
int endpoint_send_body(nghttp3_conn *connection, stream *s, const nghttp3_vec *body);
int endpoint_copied_body(nghttp3_conn *connection, const h3_item *item, const uint8_t **bytes);
int endpoint_deliver(nghttp3_conn *connection, int64_t id, const uint8_t *bytes, size_t length, bool has_fin);
int append_copy(nghttp3_conn *connection, stream *s, const uint8_t *bytes, size_t length);
void chunk_free(nghttp3_conn *connection, chunk *old);

/* sending.c */
int send_message_end(nghttp3_conn *connection, stream *s);
int send_trailer(nghttp3_conn *connection, stream *s);
int send_fields(nghttp3_conn *connection, stream *s, const field_list *fields, bool is_trailer);

/* receiving.c */
void give_up_reading(nghttp3_conn *connection, stream *s);
void give_up_writing(nghttp3_conn *connection, stream *s);

#endif
