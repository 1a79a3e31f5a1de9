/* QUIC for the examples, over Debian's ngtcp2 and gnutls: UDP sockets, each with one connection of a client, or many of a server. HTTP/3 is
 * not known here (http3.c has it), and what is called from here is called from one thread. Bytes that are sent are copied, and
 * kept until the peer has acknowledged them. */
#ifndef EXAMPLES_QUIC_H
#define EXAMPLES_QUIC_H
#include <stdbool.h>
#include <stddef.h>
#include <stdint.h>

enum {
  QUIC_STREAMS = 100, /* requests that a client may have at once */
  QUIC_OTHERS = 16,   /* unidirectional streams that a peer may have at once */
  QUIC_PLACE = 64     /* bytes of an address and port as text */
};

typedef struct quic_socket quic_socket;
typedef struct quic_connection quic_connection;

/* How a connection ended: by CONNECTION_CLOSE of the peer or from here, with a code of HTTP/3 or of QUIC, by silence, or since nobody listens. */
typedef struct {
  enum { QUIC_CLOSED_HERE, QUIC_CLOSED_BY_PEER, QUIC_TIMED_OUT, QUIC_NOBODY_LISTENS } by;
  bool application; /* the code is one of HTTP/3, else of QUIC or TLS */
  uint64_t code;
} quic_ending;

/* What a connection tells those above it. `opened` returns the owner that all other calls are given, or NULL to close the connection.
 * A call may close the connection, by quic_close: it then ends after the call. */
typedef struct {
  void *(*opened)(quic_connection *connection, void *user);                /* the handshake is done */
  void (*received)(void *owner, int64_t stream, const uint8_t *bytes, size_t count, bool end); /* in order, no gap */
  void (*was_reset)(void *owner, int64_t stream, uint64_t code);           /* RESET_STREAM came */
  void (*was_stopped)(void *owner, int64_t stream);                        /* STOP_SENDING came, and more was to be sent: QUIC has reset its side */
  void (*stream_closed)(void *owner, int64_t stream);                      /* both sides are done, all is acknowledged */
  void (*fill)(void *owner);                                               /* packets will be written: what is to be sent? */
  bool (*next)(void *owner, int64_t *stream);                              /* which stream is sent next, while packets are written. false: none.
                                                                            * NULL (and the two below): all is given by quic_send */
  bool (*more)(void *owner, int64_t stream);                               /* its next piece, by quic_send; none: it has to wait. Other calls here
                                                                            * have to wait. false: nothing more of it can be sent */
  void (*held)(void *owner, int64_t stream, bool held);                    /* it is not to be next, or it may be again */
  void (*datagram)(void *owner, const uint8_t *bytes, size_t count);       /* DATAGRAM came (RFC 9221). NULL: dropped */
  void (*closed)(void *owner, const quic_ending *ending);                  /* the last call; the owner frees itself */
} quic_events;

/* A certificate with those that it stands on, and its key: files in PEM. */
typedef struct {
  const char *certificate, *key;
} quic_pair;

/* Whom a client trusts, or what a server shows: of several certificates the one that has the name that the client asks for, else the first. */
typedef struct {
  const quic_pair *pairs; /* of a server */
  size_t count;
  const char *trusted; /* of a client: the authority's certificate; NULL: those of the system */
} quic_identity;

/* What a socket's connections may take. quic_limits_default writes what a server takes of untrusted clients. */
typedef struct {
  size_t connections;     /* of a server at once; the next one is refused (CONNECTION_REFUSED) */
  size_t handshakes;      /* of a server: while so many have not ended, a client has to show its address first, by Retry */
  uint64_t stream_window; /* bytes that the peer may send on a stream before they are consumed */
  uint64_t window;        /* the same on all streams of a connection */
  uint64_t kept;          /* bytes of a connection that wait for acknowledgment; beyond it 16 KiB for each stream that has none */
  uint64_t idle;          /* seconds of silence after which a connection ends */
  uint64_t keep_alive;    /* of a client: seconds of silence after which it sends PING, so that the connection does not end; 0: it sends none */
  uint64_t opened;        /* of a client: streams both ways that its server may have open at once */
  bool one_by_one;        /* each packet by a system call of its own, as a capture wants them */
} quic_limits;

/* What happened on a socket since it was opened. */
typedef struct {
  uint64_t accepted, refused, retried; /* connections */
  uint64_t packets_in, bytes_in, packets_out, bytes_out;
} quic_counts;

void quic_limits_default(quic_limits *);
/* A server's socket at an address (an IP address, as text) and port. NULL: standard error says why. `user` goes to `opened`. */
quic_socket *quic_listen(const char *address, const char *port, const quic_identity *, const quic_limits *, const quic_events *, void *user);
/* A client's connection to an address and port, where `host` is the name that the server's certificate has to have. */
quic_socket *quic_connect(const char *address, const char *port, const char *host, const quic_identity *, const quic_limits *,
                          const quic_events *, void *user);
/* The port that a socket has. */
unsigned quic_port(const quic_socket *);
/* New connections of a server show these certificates. false: standard error says why, and nothing has changed. */
bool quic_show(quic_socket *, const quic_identity *);

/* An event loop of the program's, of any number of sockets: call quic_work; wait until quic_file can be read (or, if quic_is_full, written), or
 * quic_wait nanoseconds are over; and so on. */
void quic_work(quic_socket *);
int quic_file(const quic_socket *);
bool quic_is_full(const quic_socket *);
uint64_t quic_wait(const quic_socket *);
/* The same for one socket: waits at most so many milliseconds. Call it in a loop. Returns how many connections are left. */
size_t quic_turn(quic_socket *, int milliseconds);
/* The same for several sockets, of which some may be NULL. */
void quic_turn_all(quic_socket *const *sockets, size_t count, int milliseconds);

/* How many connections are left, those that are closing not counted. */
size_t quic_count(const quic_socket *);
quic_counts quic_counted(const quic_socket *);
/* No new connection is taken from here on: each is refused (CONNECTION_REFUSED). */
void quic_refuse_more(quic_socket *);
/* Calls `call` for the owner of each connection that is open. */
void quic_each(quic_socket *, void (*call)(void *owner));
/* How the connection that ended last did. */
quic_ending quic_last_ending(const quic_socket *);
/* The name of a code of QUIC or TLS (RFC 9000, section 20.1), for a log. */
const char *quic_code_text(uint64_t code);
/* Closes what is open, and frees all. */
void quic_free(quic_socket *);

/* Who the peer is: an address and port, as text. */
void quic_peer(quic_connection *, char text[QUIC_PLACE]);
/* How many streams, both ways or unidirectional, the peer lets this side open now. */
uint64_t quic_may_open(quic_connection *, bool unidirectional);
/* Opens a stream. -1: the peer allows no more just now. */
int64_t quic_open(quic_connection *, bool unidirectional);
/* How many bytes may be given to a stream now. It is 0 if too many wait for their acknowledgment, if the peer has granted no credit for
 * more, or if sending has ended. */
size_t quic_room(const quic_connection *, int64_t stream);
/* Whether the peer has granted credit for more of a stream. */
bool quic_is_read(const quic_connection *, int64_t stream);
/* Gives bytes to be sent, copied, and with `end` the end of the stream. Bytes that are no answer to `more` take turns with all that `next` names.
 * false: out of memory, nothing was taken. */
bool quic_send(quic_connection *, int64_t stream, const uint8_t *bytes, size_t count, bool end);
/* The same with no copy: the next `count` bytes (not 0) are those that the caller writes here, before any other call. NULL: out of memory. */
uint8_t *quic_send_here(quic_connection *, int64_t stream, size_t count);
/* Sends a DATAGRAM frame with these bytes, copied: it may be lost, as on the way. false: there is no room for it now, it is longer than a packet,
 * or the peer takes none. */
bool quic_datagram(quic_connection *, const uint8_t *bytes, size_t count);
/* RESET_STREAM: nothing more is sent on the stream. */
void quic_reset(quic_connection *, int64_t stream, uint64_t code);
/* STOP_SENDING: nothing more is wanted of the stream. */
void quic_stop(quic_connection *, int64_t stream, uint64_t code);
/* The peer may send so many bytes more on this stream: they were consumed. */
void quic_consumed(quic_connection *, int64_t stream, size_t count);
/* The peer may send so many bytes more on this stream, but not on the connection: they will be thrown away. */
void quic_allow(quic_connection *, int64_t stream, size_t count);
/* The peer may send so many bytes more on the connection, but not on the stream where they came: they were thrown away. */
void quic_dropped(quic_connection *, size_t count);
/* `fill` is called again after so many milliseconds at most. It is called by itself after a packet, a timer, and the calls here. */
void quic_wake(quic_connection *, uint64_t milliseconds);
/* A clock that goes on by itself, in milliseconds. */
uint64_t quic_time(void);
/* How many milliseconds ago the peer last did something: sent data, acknowledged some, or granted credit. A PING is nothing. */
uint64_t quic_silence(const quic_connection *);
/* Closes the connection with a code of HTTP/3. The first code stays. */
void quic_close(quic_connection *, uint64_t code);
#endif
