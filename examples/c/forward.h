/* The fields that a proxy passes on (RFC 9110, section 7.6). */
#ifndef EXAMPLES_FORWARD_H
#define EXAMPLES_FORWARD_H
#include "http3.h"

/* The name of this proxy in `via`. It is random, so that a loop is seen. */
void forward_begin(void);
/* The header section of a request, for the next server: without fields of one hop, with `via` and with `forwarded`, which names the client.
 * NULL: out of memory. */
http3_list *forward_request(const http3_list *, const char *client);
/* The header section of a response, for the client. */
http3_list *forward_response(const http3_list *);
/* A trailer section. */
http3_list *forward_trailer(const http3_list *);
/* Whether a request went through this proxy before. */
bool forward_is_loop(const http3_list *);
/* Whether a request may be sent again if its connection was lost (RFC 9110, section 9.2.2). */
bool forward_is_idempotent(const http3_list *);
#endif
