/* The names of ngtcp2 1.x, also over 0.12 (Debian 12), which calls some of its functions otherwise. */
#ifndef EXAMPLES_NGTCP2_NAMES_H
#define EXAMPLES_NGTCP2_NAMES_H
#include <ngtcp2/ngtcp2.h>
#include <ngtcp2/ngtcp2_crypto.h>

#if NGTCP2_VERSION_NUM < 0x010000
typedef ngtcp2_connection_close_error ngtcp2_ccerr;
#define ngtcp2_ccerr_default ngtcp2_connection_close_error_default
#define ngtcp2_ccerr_set_application_error ngtcp2_connection_close_error_set_application_error
#define ngtcp2_ccerr_set_liberr ngtcp2_connection_close_error_set_transport_error_liberr
#define ngtcp2_ccerr_set_tls_alert ngtcp2_connection_close_error_set_transport_error_tls_alert
#define NGTCP2_CCERR_TYPE_APPLICATION NGTCP2_CONNECTION_CLOSE_ERROR_CODE_TYPE_APPLICATION
#define ngtcp2_conn_shutdown_stream_write(conn, flags, id, code) ngtcp2_conn_shutdown_stream_write(conn, id, code)
#define ngtcp2_conn_shutdown_stream_read(conn, flags, id, code) ngtcp2_conn_shutdown_stream_read(conn, id, code)
#endif

/* How the peer closed the connection. */
static inline ngtcp2_ccerr close_of_peer(ngtcp2_conn *conn) {
#if NGTCP2_VERSION_NUM < 0x010000
  ngtcp2_ccerr error;
  ngtcp2_conn_get_connection_close_error(conn, &error);
  return error;
#else
  return *ngtcp2_conn_get_ccerr(conn);
#endif
}

/* The token of a client's first packet. */
static inline ngtcp2_vec token_of(const ngtcp2_pkt_hd *head) {
#if NGTCP2_VERSION_NUM < 0x010000
  return head->token;
#else
  return (ngtcp2_vec){(uint8_t *)head->token, head->tokenlen};
#endif
}

/* A server tells QUIC what a Retry token says: the client began with the id `first`. NULL: there is no such token. */
static inline void set_token(ngtcp2_settings *settings, ngtcp2_transport_params *params, const ngtcp2_pkt_hd *head, const ngtcp2_cid *first) {
  params->original_dcid = first ? *first : head->dcid;
#if NGTCP2_VERSION_NUM >= 0x010000
  params->original_dcid_present = 1;
#endif
  if (!first) return;
  params->retry_scid = head->dcid;
  params->retry_scid_present = 1;
#if NGTCP2_VERSION_NUM < 0x010000
  settings->token = head->token;
#else
  settings->token = head->token;
  settings->tokenlen = head->tokenlen;
  settings->token_type = NGTCP2_TOKEN_TYPE_RETRY;
#endif
}
#endif
