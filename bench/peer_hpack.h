/* nghttp2: the same lists by HPACK (RFC 7541), which acknowledges nothing. */
#ifndef PEER_HPACK_H
#define PEER_HPACK_H
#include "lists.h"

typedef struct peer_hpack peer_hpack;

/* Work over `passes` times all lists, from an empty table of that capacity. */
peer_hpack *peer_hpack_new(const field_lists *lists, size_t passes, size_t capacity);
void peer_hpack_free(peer_hpack *work);
/* Contenders: encode the lists; decode what was encoded of them. */
void peer_hpack_encode(void *data, uint64_t rounds);
void peer_hpack_decode(void *data, uint64_t rounds);
#endif
