/* A proxy's connections to the server behind it: as many as its requests need, at most a number of them. */
#ifndef EXAMPLES_POOL_H
#define EXAMPLES_POOL_H
#include "http3.h"

enum { POOL_MOST = 16 };

typedef struct {
  const char *address, *port, *host; /* where the server is, and the name that its certificate has */
  const char *trusted;               /* NULL: the system's authorities */
  size_t most;                       /* connections, at most POOL_MOST */
  uint64_t window;                   /* bytes that the server may send of each answer before they are consumed */
  const http3_events *events;        /* of requests. `ready`, `going_away` and `over` are the pool's */
} pool_setup;

void pool_begin(const pool_setup *);
/* Opens a request on the connection that has the fewest; an extended CONNECT (is_tunnel) wants one whose settings came. NULL: none has room now, and
 * pool_tend makes another one if there may be one. */
http3_request *pool_open(bool is_tunnel);
/* A request of the pool is over: call it in `freed`. */
void pool_freed(const http3_request *);
/* Makes connections if requests wait, and frees those that ended, that go away, or that nobody has used for a while. Returns false if the
 * server was not to be reached: then those who wait need not wait any longer. */
bool pool_tend(bool is_waiting);
/* The sockets, for a loop: some may be NULL. */
quic_socket **pool_sockets(void);
void pool_end(void);
#endif
