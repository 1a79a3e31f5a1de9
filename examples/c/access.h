/* What a server did: a line for each request, and counts of them. */
#ifndef EXAMPLES_ACCESS_H
#define EXAMPLES_ACCESS_H
#include "http3.h"

/* One request, from its header section on. All zero: none. */
typedef struct {
  char *line; /* its method and path as the log has them; NULL: there is no log */
  unsigned status;
  uint64_t began_at, sent;
  const char *failed; /* why it ended early; NULL: it did not */
} access_entry;

/* Opens the log, and again at each further call, as after a file was renamed. "-": standard output. NULL: there is none. false: errno says why. */
bool access_open(const char *file);
/* A request begins: its method and path. */
void access_begin(access_entry *, const char *method, const char *path);
/* It is over: a line of the log, and one more of the counts. */
void access_end(access_entry *, http3 *);
/* Writes the counts, those of the socket too, to standard error. */
void access_show(quic_socket *);
/* Writes out what waits. */
void access_flush(void);
void access_close(void);
#endif
