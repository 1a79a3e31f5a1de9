/* The same work in plain C with tables and no contracts: what the machine gives. */
#ifndef PLAIN_H
#define PLAIN_H
#include <stddef.h>
#include <stdint.h>

/* Fills the tables. */
void plain_build(void);

/* Writes the Huffman encoding to `to`, which has room for four bytes a byte, and answers its end. */
uint8_t *plain_huffman_encode(uint8_t *to, const uint8_t *from, size_t len);

/* Writes the string to `to`, which has room for two bytes a byte and eight more, and answers its length; -1 where the
 * bytes are no string's encoding. Reads up to eight bytes behind the end. */
long plain_huffman_decode(uint8_t *to, const uint8_t *from, size_t len);

/* Reads a varint with a wide load, of eight readable bytes, and answers where the next one begins. */
const uint8_t *plain_varint_decode(const uint8_t *from, uint64_t *number);

/* Writes a varint, and answers where the next one goes. */
uint8_t *plain_varint_encode(uint8_t *to, uint64_t number);
#endif
