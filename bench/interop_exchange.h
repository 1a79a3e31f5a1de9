/* One end of a connection that is driven step by step: ours by build/c/libbeanwhile_h3.a, or nghttp3's. */
#ifndef INTEROP_EXCHANGE_H
#define INTEROP_EXCHANGE_H
#include "lists.h"

/* A request or a response: what is sent, or what came so far. */
typedef struct {
  field_list head, trailer;
  pack body;
  int is_whole;
} message;

typedef struct {
  void *data;
  /* The next bytes that wait on any stream, at most `room`, and whether the stream ends behind them. Answers 0 where nothing waits. */
  int (*next)(void *data, uint64_t *id, uint8_t *bytes, size_t room, size_t *len, int *fin);
  /* Bytes, or an end, came. */
  void (*take)(void *data, uint64_t id, const uint8_t *bytes, size_t len, int fin);
  /* Sends a whole message on a request stream; a client opens the stream, which is the next one. The message stays until it is carried. */
  void (*send)(void *data, uint64_t id, const message *sent);
  /* What came on a request stream. */
  const message *(*got)(void *data, uint64_t id);
  void (*free)(void *data);
} conn_end;

/* With room for so many request streams. */
conn_end our_end(int is_server, size_t table, size_t blocked, size_t streams);
conn_end peer_end(int is_server, size_t table, size_t blocked, size_t streams);

/* Adds a copy of a field to a list, with its flags of nghttp3. */
void keep_field(field_list *to, const uint8_t *name, size_t name_len, const uint8_t *value, size_t value_len, uint8_t flags);
void free_messages(message *all, size_t count);
#endif
