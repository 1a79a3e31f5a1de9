/* TLS 1.3 for QUIC, by gnutls. */
#ifndef EXAMPLES_TLS_H
#define EXAMPLES_TLS_H
#include "quic.h"
#include <gnutls/gnutls.h>

/* The certificates of a server, or those whom a client trusts. They stay while a session uses them, also if the server shows others since. */
typedef struct {
  gnutls_certificate_credentials_t all;
  size_t users;
} tls_credentials;

/* Reads them, for one user. NULL: standard error says why. */
tls_credentials *tls_read(const quic_identity *, bool server);
/* One user less: the last one frees them. */
void tls_release(tls_credentials *);
/* A session for one connection, with the protocol h3. `host`: whom the client wants, NULL at a server. 0, or a gnutls error. */
int tls_session(gnutls_session_t *, tls_credentials *, const char *host);
#endif
