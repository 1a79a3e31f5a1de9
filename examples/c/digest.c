#include "digest.h"
#include <stdio.h>

enum { HASH = 32 };

bool digest_begin(digest *digest) {
  digest->count = 0;
  if (gnutls_hash_init(&digest->hash, GNUTLS_DIG_SHA256) == 0) return true;
  digest->hash = NULL;
  return false;
}

void digest_add(digest *digest, const uint8_t *bytes, size_t count) {
  if (!digest->hash) return;
  gnutls_hash(digest->hash, bytes, count);
  digest->count += count;
}

bool digest_end(digest *digest, char text[DIGEST_TEXT]) {
  uint8_t hash[HASH];
  if (!digest->hash) return false;
  gnutls_hash_deinit(digest->hash, hash);
  digest->hash = NULL;
  int at = snprintf(text, DIGEST_TEXT, "%llu ", digest->count);
  for (int i = 0; i < HASH; i++) at += snprintf(text + at, DIGEST_TEXT - (size_t)at, "%02x", hash[i]);
  snprintf(text + at, DIGEST_TEXT - (size_t)at, "\n");
  return true;
}

void digest_drop(digest *digest) {
  if (digest->hash) gnutls_hash_deinit(digest->hash, NULL);
  digest->hash = NULL;
}
