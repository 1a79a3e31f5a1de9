/* What quic.c (sockets and their loop), quic_connection.c (connections) and quic_send.c (what goes out) share. */
#ifndef EXAMPLES_QUIC_PARTS_H
#define EXAMPLES_QUIC_PARTS_H
#include "buffer.h"
#include "ngtcp2_names.h"
#include "quic.h"
#include "table.h"
#include "timers.h"
#include "tls.h"
#include <sys/queue.h>
#include <sys/socket.h>

enum {
  CID_LENGTH = 16, /* of the connection ids that are made here */
  PACKET = 1452,   /* the longest UDP payload that is sent */
  BATCH = 44,      /* packets that go out by one system call: less than 64 KiB */
  ID_PLACES = 4096 /* of a socket's connection ids */
};

/* One stream that is open: what is sent on it. */
typedef struct stream {
  entry entry;
  TAILQ_ENTRY(stream) order; /* of those in the list `list`, if any */
  struct streams *list;
  buffer out;
} stream;

typedef TAILQ_HEAD(streams, stream) stream_list;

/* A datagram that has not gone out. */
typedef struct datagram {
  STAILQ_ENTRY(datagram) order;
  size_t count;
  uint8_t bytes[];
} datagram;

/* An id by which packets name a connection. */
typedef struct known_id {
  struct known_id *next;  /* of those that have the same place */
  struct known_id *other; /* of the same connection */
  quic_connection *connection;
  ngtcp2_cid cid;
} known_id;

struct quic_connection {
  LIST_ENTRY(quic_connection) others; /* of the socket's */
  TAILQ_ENTRY(quic_connection) turn;  /* of those that are due */
  timer timer;
  known_id *ids;
  quic_socket *socket;
  ngtcp2_conn *conn;
  gnutls_session_t session;
  tls_credentials *credentials;
  ngtcp2_crypto_conn_ref ref;
  void *owner;
  table streams;
  stream_list ready;      /* streams that have something for a packet, by turns */
  stream_list blocked;    /* those of which nothing more goes into one in this round */
  stream *piece;          /* one of `ready`, whose bytes answer `more`: the owner is asked for the next piece behind them. NULL: none */
  STAILQ_HEAD(, datagram) datagrams;
  size_t datagram_count;
  uint64_t kept, untaken; /* bytes in the buffers of all streams, and those of them that QUIC has not taken */
  bool close_asked, gone, told, shook; /* `shook`: the handshake is done */
  bool more;              /* could go out, but for what a burst may have, or the socket */
  bool asking;            /* the owner gives more of a stream whose turn it is */
  bool due;               /* it stands among those that are due */
  ngtcp2_ccerr close;
  quic_ending ending;
  uint8_t goodbye[PACKET]; /* the packet that closed the connection, which answers what still comes */
  size_t goodbye_count;
  ngtcp2_tstamp gone_at;
  ngtcp2_tstamp heard_at; /* when the peer did something last */
  ngtcp2_tstamp wake_at;  /* when the owner wants its turn */
};

/* Packets to one address, all of one length but the last, which may be shorter: the kernel cuts them apart (UDP_SEGMENT). */
typedef struct {
  uint8_t bytes[BATCH * PACKET];
  size_t sent, count, segment; /* bytes that are out, all bytes, and those of a packet */
  struct sockaddr_storage to;
  socklen_t to_count;
} batch;

struct quic_socket {
  int file;
  bool server, refusing;
  uint8_t secret[32]; /* a server's, of its tokens */
  bool one_by_one;    /* the kernel, or the way out, cuts no packets apart */
  batch batch;
  struct sockaddr_storage local;
  socklen_t local_count;
  tls_credentials *credentials;
  quic_limits limits;
  const quic_events *events;
  void *user;
  LIST_HEAD(, quic_connection) connections;
  TAILQ_HEAD(due, quic_connection) due;
  timers timers;
  size_t count, open, handshakes; /* connections in all, those that are not gone, and those whose handshake has not ended */
  known_id *ids[ID_PLACES];
  quic_counts counts;
  quic_ending last;
};

ngtcp2_tstamp quic_now(void);
/* The connection has its turn. */
void quic_due(quic_connection *);

/* ---- quic_send.c ---- */
stream *quic_find(const quic_connection *, int64_t id);
void quic_acknowledged(quic_connection *, stream *, uint64_t offset);
void quic_forget(quic_connection *, stream *);
void quic_forget_datagrams(quic_connection *);
/* Sends one packet. One that does not go out is lost, as one in the network: QUIC sends its frames again. */
void quic_put(quic_socket *, const uint8_t *packet, size_t count, const ngtcp2_addr *to);
/* Sends the batch. false: the socket is full, and what is left of the batch is kept. */
bool quic_flush(quic_socket *);
/* Writes packets until there is nothing to send, or QUIC or the socket lets nothing more go out now. */
void quic_write_packets(quic_connection *);

/* ---- quic_connection.c ---- */
bool quic_start(quic_socket *, const ngtcp2_path *, const char *host);
/* A packet goes to its connection, or begins one at a server. */
void quic_read_packet(quic_socket *, const ngtcp2_path *, const uint8_t *packet, size_t count);
/* Timers, what the owner has to send, packets, and the close that was asked for. */
void quic_drive(quic_connection *);
/* A call of ngtcp2 returned an error. */
void quic_fail(quic_connection *, int error);
void quic_write_close(quic_connection *);
/* Nothing more is done on a connection, but that its last packet is sent again if packets come until `gone_at`. */
void quic_leave(quic_connection *, int by);
void quic_delete(quic_connection *);
#endif
