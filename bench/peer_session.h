/* One end of a session with a dynamic table, by nghttp3. */
#ifndef PEER_SESSION_H
#define PEER_SESSION_H
#include "lists.h"

typedef struct {
  nghttp3_qpack_encoder *encoder;
  nghttp3_buf prefix, lines, instructions;
} peer_sender;

peer_sender peer_sender_new(size_t capacity, size_t limit);
void peer_sender_free(peer_sender *sender);
/* Encodes the list: the section is `prefix` and then `lines`; what is to be read before it is added to
 * `instructions`. */
void peer_send(peer_sender *sender, size_t stream, const field_list *list);
/* Appends the section that was written last. */
void put_section(pack *to, const peer_sender *sender);
/* Reads what the decoder wrote. Answers 0 where it is refused. */
int peer_sender_hear(peer_sender *sender, const uint8_t *bytes, size_t len);

/* How a section was read. */
enum { PEER_REFUSED, PEER_WAITS, PEER_DECODED };

typedef struct {
  nghttp3_qpack_decoder *decoder;
  pack replies; /* what it wrote last */
} peer_receiver;

peer_receiver peer_receiver_new(size_t capacity, size_t limit);
void peer_receiver_free(peer_receiver *receiver);
/* Reads what the encoder wrote beside its sections. Answers 0 where it is refused. */
int peer_receiver_hear(peer_receiver *receiver, const uint8_t *bytes, size_t len);
/* Decodes a whole section; a section that waits is to be handed in anew. Adds the number of fields, and of the bytes of
 * their names and values; where `to` is given, appends the list. */
int peer_receive(peer_receiver *receiver, size_t stream, const uint8_t *bytes, size_t len, size_t *fields, size_t *sum,
                 pack *to);
/* Takes over what the decoder has to write: `replies` holds that alone. */
void peer_reply(peer_receiver *receiver);
#endif
