/* The events of HTTP/3 on a connection, in a file of qlog (draft-ietf-quic-qlog-h3-events), as JSON text sequences (RFC 7464). Each call takes NULL,
 * where there is no file, and does nothing then. */
#ifndef EXAMPLES_QLOG_H
#define EXAMPLES_QLOG_H
#include "http3.h"

typedef struct qlog qlog;

/* Begins the file of a connection in a folder. NULL: there is no folder, or no file can be made there. */
qlog *qlog_begin(const char *folder, bool server, const char *peer);
/* Settings: of this side (is_sent), or of the peer. */
void qlog_settings(qlog *, bool is_sent, uint64_t section, uint64_t table, uint64_t blocked);
/* A header or trailer section. NULL for a list: it was too large, or there was no memory. */
void qlog_section(qlog *, bool is_sent, uint64_t stream, const http3_list *);
/* A DATA frame that is sent. */
void qlog_data(qlog *, uint64_t stream, size_t count);
/* A piece of a body that came: pieces and frames need not have the same bounds. */
void qlog_piece(qlog *, uint64_t stream, size_t count);
void qlog_goaway(qlog *, bool is_sent, uint64_t id);
/* The connection ended: closes the file. */
void qlog_end(qlog *, const quic_ending *);
#endif
