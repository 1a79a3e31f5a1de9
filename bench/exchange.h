/* Whole exchanges of a client and a server in one program: two endpoints of build/c/libbeanwhile_h3.a, and two of nghttp3's. Both carry the same lists and bodies, in
 * pieces that are copied into one buffer, and copy each field and each body that comes out into buffers of their own; or in place, where nobody copies a body. */
#ifndef EXCHANGE_H
#define EXCHANGE_H
#include "lists.h"
#include <stddef.h>
#include <stdint.h>

/* What is exchanged on one connection: request i has list i of `requests`, its response list i of `responses` (of few lists, in turn). */
typedef struct {
  const field_lists *requests, *responses;
  size_t request_body, response_body; /* bytes; 0: none */
  size_t exchanges, under_way;        /* how many in all, and how many at once */
  size_t piece;                       /* the most bytes that are carried at once, at most MOST_CARRIED; 0 (not through C): no piece of a body is copied,
                                         every other piece that an end lends is copied into a block of its own, and what comes out is counted and not copied */
  size_t table, blocked;              /* what both sides announce for QPACK */
  int in_place;                       /* what an end gives is read where it lies, `piece` bytes at once, and what comes out is counted and not copied */
  int in_turn;                        /* the streams' pieces come in turn: the first of each, then the second of each */
} exchange_kind;

enum { MOST_CARRIED = 1 << 20, LARGE_BODY = 1 << 16, LONGEST_BODY = 1 << 24 };

/* What came out at one end. */
typedef struct {
  size_t heads, fields, field_bytes, body, ends;
} came_out;

/* The bytes of all bodies. */
extern uint8_t exchange_body[LONGEST_BODY];
/* Where a piece is carried, and where what comes out is copied. */
extern uint8_t carried[MOST_CARRIED], copied[MOST_CARRIED];

/* A piece of a stream comes, behind the one before of that stream, once `read_in_turn` is called. Pieces of one stream are kept one after the other. */
void keep_piece(uint64_t id, const uint8_t *bytes, size_t len, int fin);
/* Reads all that was kept: the first piece of each stream, then the second of each. */
void read_in_turn(void (*read)(void *to, uint64_t id, const uint8_t *bytes, size_t len, int fin), void *to);

/* Work for contenders: each round is a connection, from its making to its end. The data are an exchange_kind. Both end the program where something
 * else comes out than was sent. */
void our_exchanges(void *kind, uint64_t rounds);
void our_endpoints(void *kind, uint64_t rounds);
void peer_exchanges(void *kind, uint64_t rounds);

/* Rows of the bytes that heads take, where nghttp3's decoder reads them. */
void heads_rows(const field_lists *requests, const field_lists *responses);

/* Ends the program where an end did not get all. */
void want_all(const char *who, const exchange_kind *kind, const came_out *at_server, const came_out *at_client);
#endif
