/* The count and the SHA-256 of bytes that come in pieces, as serve and webtransport answer them. */
#ifndef EXAMPLES_DIGEST_H
#define EXAMPLES_DIGEST_H
#include <gnutls/crypto.h>
#include <stdbool.h>
#include <stddef.h>
#include <stdint.h>

enum { DIGEST_TEXT = 96 }; /* bytes of the text: at most 20 digits, a blank, 64 digits, a line's end, and NUL */

/* One that was begun and not ended yet, or, where all is zero, none. */
typedef struct {
  gnutls_hash_hd_t hash;
  unsigned long long count;
} digest;

/* false: no memory, and it is none. */
bool digest_begin(digest *);
/* The next bytes. They are passed over where it is none. */
void digest_add(digest *, const uint8_t *bytes, size_t count);
/* Ends it: "count hash" and a line's end. false: it is none. */
bool digest_end(digest *, char text[DIGEST_TEXT]);
/* Lets go of one that has no end. */
void digest_drop(digest *);
#endif
