#include "tls.h"
#include <arpa/inet.h>
#include <ngtcp2/ngtcp2_crypto_gnutls.h>
#include <stdio.h>
#include <stdlib.h>
#include <string.h>

static const char PRIORITY[] = "NORMAL:-VERS-ALL:+VERS-TLS1.3:-CIPHER-ALL:+AES-128-GCM:+AES-256-GCM:+CHACHA20-POLY1305:+AES-128-CCM:"
                               "-GROUP-ALL:+GROUP-X25519:+GROUP-SECP256R1:+GROUP-SECP384R1:%DISABLE_TLS13_COMPAT_MODE";

/* 0, or a gnutls error, and the file that it is of. */
static int read_files(gnutls_certificate_credentials_t all, const quic_identity *identity, bool server, const char **file) {
  int done = 0;
  for (size_t i = 0; server && done >= 0 && i < identity->count; i++) {
    *file = identity->pairs[i].certificate;
    done = gnutls_certificate_set_x509_key_file(all, *file, identity->pairs[i].key, GNUTLS_X509_FMT_PEM);
  }
  if (server) return done;
  *file = identity->trusted ? identity->trusted : "the system's authorities";
  return identity->trusted ? gnutls_certificate_set_x509_trust_file(all, identity->trusted, GNUTLS_X509_FMT_PEM)
                           : gnutls_certificate_set_x509_system_trust(all);
}

tls_credentials *tls_read(const quic_identity *identity, bool server) {
  const char *file = "certificates";
  tls_credentials *credentials = malloc(sizeof *credentials);
  if (!credentials) {
    fprintf(stderr, "out of memory\n");
    return NULL;
  }
  credentials->users = 1;
  int done = gnutls_certificate_allocate_credentials(&credentials->all);
  if (done < 0) credentials->all = NULL;
  else done = read_files(credentials->all, identity, server, &file);
  if (done >= 0) return credentials;
  fprintf(stderr, "%s: %s\n", file, gnutls_strerror(done));
  tls_release(credentials);
  return NULL;
}

void tls_release(tls_credentials *credentials) {
  if (!credentials || --credentials->users > 0) return;
  if (credentials->all) gnutls_certificate_free_credentials(credentials->all);
  free(credentials);
}

static bool is_address(const char *host) {
  uint8_t room[16];
  return inet_pton(AF_INET, host, room) == 1 || inet_pton(AF_INET6, host, room) == 1;
}

/* The server's certificate has to name the host (an IP address is not sent as a server name, RFC 6066 section 3). */
static int configure(gnutls_session_t session, gnutls_certificate_credentials_t credentials, const char *host) {
  static const gnutls_datum_t h3 = {(unsigned char *)"h3", 2};
  int done = gnutls_priority_set_direct(session, PRIORITY, NULL);
  if (done == 0) done = host ? ngtcp2_crypto_gnutls_configure_client_session(session)
                             : ngtcp2_crypto_gnutls_configure_server_session(session);
  if (done == 0) done = gnutls_alpn_set_protocols(session, &h3, 1, GNUTLS_ALPN_MANDATORY);
  if (done == 0) done = gnutls_credentials_set(session, GNUTLS_CRD_CERTIFICATE, credentials);
  if (done == 0 && host) gnutls_session_set_verify_cert(session, host, 0);
  if (done == 0 && host && !is_address(host)) done = gnutls_server_name_set(session, GNUTLS_NAME_DNS, host, strlen(host));
  return done;
}

int tls_session(gnutls_session_t *session, tls_credentials *credentials, const char *host) {
  unsigned flags = host ? GNUTLS_CLIENT : GNUTLS_SERVER | GNUTLS_NO_AUTO_SEND_TICKET | GNUTLS_NO_END_OF_EARLY_DATA;
  int done = gnutls_init(session, flags | GNUTLS_NO_TICKETS);
  if (done < 0) return done;
  done = configure(*session, credentials->all, host);
  if (done == 0) return 0;
  gnutls_deinit(*session);
  return done;
}
