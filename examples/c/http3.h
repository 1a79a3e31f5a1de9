/* HTTP/3 for the examples: an h3_endpoint (include/h3.h) over a QUIC connection (quic.h). All that is HTTP/3 of serve and fetch
 * goes through here. A program gives `http3_over_quic` to quic_listen or quic_connect, with an http3_setup as `user`. */
#ifndef EXAMPLES_HTTP3_H
#define EXAMPLES_HTTP3_H
#include "quic.h"
#include "table.h"
#include <h3.h>
#include <sys/queue.h>

typedef struct http3 http3;

/* A request and its response, or what comes on a stream of a WebTransport session: one stream. `data` is the program's own: as many bytes as the
 * http3_setup says, all zero at first, or a pointer of its own. */
typedef struct http3_request {
  entry entry; /* with its id */
  TAILQ_ENTRY(http3_request) order;
  http3 *connection;
  void *data;
  STAILQ_HEAD(, http3_chunk) held; /* what came and was not delivered yet: the program pauses, or the header section waits */
  size_t held_count;               /* bytes of them */
  size_t owed;    /* bytes that came, for which the peer has got no further credit: they are held here or by the endpoint */
  size_t unsent;  /* bytes of the body that the endpoint holds since QUIC had no room for them */
  uint64_t stop_at; /* when the peer is told to send no more of it, by quic_time; 0: never */
  bool waiting;   /* its header section needs what the peer's encoder stream has not brought yet */
  bool paused;    /* the program takes nothing of it now */
  bool resumed;   /* it takes more since the last turn */
  bool unreadable; /* `read` failed: it is reset in the next turn */
  bool sending;   /* the head was sent, the end was not */
  bool sent;      /* QUIC has all of it, and its end */
  bool has_head;  /* a header section came */
  bool settled;   /* the end or a fault was told: nothing more comes */
  bool closed;    /* QUIC has forgotten the stream */
  bool raw;       /* it is a stream of a WebTransport session, of which nothing is a message */
} http3_request;

/* What a program learns. Each may send, finish or give up any request. Those that say so may be NULL. */
typedef struct {
  void (*ready)(http3 *, void *user);                              /* the connection is there */
  void (*head)(http3_request *, const h3_item *);                  /* H3_HEAD, read by http3_values or http3_fields; H3_INTERIM; H3_TRAILER;
                                                                    * H3_TOO_LARGE_HEAD */
  void (*body)(http3_request *, const uint8_t *bytes, size_t count);
  void (*end)(http3_request *);                                    /* the peer's message is whole */
  void (*failed)(http3_request *, const h3_item *);                /* it is not, and nothing more of it comes: an item of a fault. At a client also
                                                                    * H3_FAULT_RESET with H3_REQUEST_REJECTED: the server's GOAWAY says that it
                                                                    * does not process this request, and another connection may have it */
  void (*stopped)(http3_request *);                                /* the peer reads nothing more of what is sent. May be NULL */
  void (*room)(http3_request *);                                   /* http3_room bytes of the body may be sent. May be NULL */
  bool (*read)(http3_request *, uint8_t *bytes, size_t count);     /* write the next bytes of a body of http3_body_of here. false: it cannot be had,
                                                                    * and the stream is reset. NULL: there are no such bodies */
  void (*freed)(http3_request *);                                  /* the last call: free what is in `data` */
  void (*going_away)(http3 *, void *user);                         /* a client's: no more requests can be opened. May be NULL */
  void (*over)(void *user, const quic_ending *);                   /* the connection has ended */
  void (*session)(http3_request *, uint64_t id);                   /* no request: a stream that the peer opened for the WebTransport session
                                                                    * whose CONNECT has this id; its bytes come by `body`. NULL: no sessions are taken */
  void (*datagram)(http3_request *, const uint8_t *bytes, size_t count); /* for this request, as the CONNECT of a session. NULL: dropped */
} http3_events;

typedef struct {
  bool server;
  uint64_t sessions; /* so many WebTransport sessions are taken on a connection, as a server's settings say; 0: none */
  bool tunnels;      /* a server's: extended CONNECT is announced (RFC 9220). `:protocol` may be any token of at most 31 bytes */
  uint64_t requests; /* a server's: at most so many are taken on a connection, and GOAWAY sends the client to another before; 0: no limit */
  size_t data;       /* how many bytes `data` of a request has; 0: it is NULL at first */
  const char *qlog;  /* a folder where each connection has a file of its events (qlog.h); NULL: none */
  const http3_events *events;
  void *user;
} http3_setup;

typedef struct {
  const char *name, *value;
} http3_field;

/* Fields as the endpoint takes and gives them, in one block of memory: free() frees it. It may be sent any number of times. */
typedef struct http3_list http3_list;

/* A field whose name and value have lengths, and no NUL at their ends. A secret is never indexed: it is a literal on every hop, and in no table of
 * QPACK (RFC 9204, section 7.1.3). */
typedef struct {
  const char *name, *value;
  size_t name_count, value_count;
  bool never_indexed;
} http3_line;

/* How far a list was read: begin with all zero. */
typedef struct {
  size_t index, offset;
} http3_at;

/* A value that is looked for in a header section, and copied to `value`, ended by NUL: at most `room` bytes. */
typedef struct {
  const char *name;
  char *value;
  size_t room;
  bool optional; /* the section need not have it, and one that is too long is as none */
  bool found;
  bool too_long; /* for `room`, or it has a NUL: then it is not found */
} http3_wanted;

extern const quic_events http3_over_quic;

/* Opens a client's request. NULL: no more can be opened now, or (*going_away) ever. */
http3_request *http3_open(http3 *, bool *going_away);
/* Who the peer is: an address and port, as text. */
void http3_peer(http3 *, char text[QUIC_PLACE]);
/* Whether the peer's settings came. Before, and where they do not announce it, no extended CONNECT can be sent. */
bool http3_has_settings(http3 *);
/* Closes the connection with a code of RFC 9114, section 8.1. */
void http3_close(http3 *, uint64_t code);

/* ---- lists of fields ---- */

/* A list of so many fields. NULL: out of memory. */
http3_list *http3_list_of(const http3_field *fields, size_t count);
/* The same of fields with lengths. */
http3_list *http3_list_of_lines(const http3_line *lines, size_t count);
/* A field with its lengths, which may be indexed. */
http3_line http3_line_of(const http3_field *);
/* All fields of the header or trailer section that came last, in their order. NULL: out of memory. */
http3_list *http3_fields(http3 *, const h3_item *head);
/* How many fields a list has. */
size_t http3_count(const http3_list *);
/* The next field of a list. false: there are no more. */
bool http3_next(const http3_list *, http3_at *, http3_line *);
/* Whether a field has this name. */
bool http3_is(const http3_line *, const char *name);
/* What the fields `priority` of a request say (RFC 9218, section 4), or the defaults: an urgency, and whether it is incremental. false: the request
 * came through a proxy, so others on this connection may be of other clients. Then it says nothing (section 13.1). */
bool http3_priority(const http3_list *, uint32_t *urgency, uint32_t *incremental);
/* The values of fields of a list, of each the first one. false: one that is not optional is missing, or too long. */
bool http3_find(const http3_list *, http3_wanted *wanted, size_t count);
/* The same of the header section that came last. false also: out of memory. */
bool http3_values(http3 *, const h3_item *head, http3_wanted *wanted, size_t count);

/* ---- sending ---- */

/* Sends a header section. false: refused, as one that is larger than the peer accepts. */
bool http3_head(http3_request *, const http3_list *);
/* Sends a header section that is sent but once. */
bool http3_head_of(http3_request *, const http3_field *fields, size_t count);
/* A server's answer is sent in the order that the request's header section asks for, or the last PRIORITY_UPDATE (RFC 9218, sections 7 and 10). If
 * the request came through a proxy, or for NULL, it has the usual urgency whatever its client says, and takes turns with others. */
void http3_prefer(http3_request *, const http3_list *head);
/* Tells the server by PRIORITY_UPDATE how urgent the response is from now on: 0, the most urgent, to 7. false: it has come, or out of memory. */
bool http3_update(http3_request *, uint32_t urgency, uint32_t incremental);
/* Whether a body stands still since others are sent before it: the peer granted credit for it, and was not silent for so many milliseconds. */
bool http3_has_to_wait(const http3_request *, uint64_t silence);
/* Sends an interim response: the header section comes later. false: refused. */
bool http3_interim(http3_request *, const http3_list *);
/* Sends a trailer section, after which only the end comes. false: refused. */
bool http3_trailer(http3_request *, const http3_list *);
/* How many bytes wait on the request's stream: right after http3_head those of the section, as QPACK wrote it, with its frame. */
uint64_t http3_waiting(http3_request *);
/* How many bytes of the body may be given now: as many as QUIC keeps, and as the peer granted credit for. */
size_t http3_room(http3_request *);
/* Sends a piece of the body. false: refused. */
bool http3_body(http3_request *, const uint8_t *bytes, size_t count);
/* Sends a body, or the rest of one, by its length: `read` is asked for its bytes when QUIC has room, and writes them where QUIC keeps them. false:
 * refused. */
bool http3_body_of(http3_request *, size_t count);
/* The message is whole. */
void http3_finish(http3_request *);
/* Opens a stream of the WebTransport session of this request, both ways or from this side alone. NULL: the peer allows no more of them now, the
 * session is not there or has ended, or out of memory. */
http3_request *http3_open_stream(http3_request *session, bool both_ways);
/* Sends bytes on a stream of a session, as they are, and with `end` its end. false: refused. */
bool http3_raw(http3_request *, const uint8_t *bytes, size_t count, bool end);
/* Sends a datagram for the session. false: it is lost, since there is no room, or refused. */
bool http3_datagram(http3_request *session, const uint8_t *bytes, size_t count);
/* The session is over: all its streams are given up. */
void http3_end_session(http3_request *session);

/* ---- receiving ---- */

/* Nothing more of the peer's message comes until http3_resume, but a fault of it. The peer may send what its credit allows, a window at most:
 * that is all that is held. */
void http3_pause(http3_request *);
void http3_resume(http3_request *);
/* Sends nothing more, and needs nothing more, with a code of RFC 9114, section 8.1. Nothing more of the peer's message comes. */
void http3_give_up(http3_request *, uint64_t code);
/* The same of the local message alone: the peer's goes on. */
void http3_reset(http3_request *, uint64_t code);
/* Nothing more of the peer's message is needed, as by a server that has answered (RFC 9114, section 4.1): the rest of its body does not come. The
 * peer learns after a tenth of a second that it may stop, so that it reads the answer first: some clients fail if they are stopped while they send. */
void http3_ignore(http3_request *);
/* Why a message failed, for a log: the name of a malformation or of a code. */
const char *http3_why(const h3_item *);
/* Why a connection ended. */
const char *http3_why_over(const quic_ending *);
/* A server takes no further request on the connection: GOAWAY goes out, and, if this is called on and on, a second later the GOAWAY from which on
 * requests are rejected (RFC 9114, section 5.2). What was begun ends at its reader's speed; then the peer closes the connection, or it is closed
 * here after five seconds in which the peer did nothing but PING. */
void http3_leave(void *http3);
#endif
