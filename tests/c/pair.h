/* A client and a server, whose bytes a program carries from one to the other. TEST is the program's name, a literal that it defines ahead. */
#ifndef PAIR_H
#define PAIR_H
#include "expect.h"
#include <h3.h>
#include <stddef.h>

enum { CLIENT, SERVER };

static h3_endpoint ends[2];

static inline void drop(void) {
  h3_free(&ends[CLIENT]);
  h3_free(&ends[SERVER]);
}

/* what waits on a stream goes over, and its end */
static inline void carry(int from, uint64_t id) {
  static uint8_t bytes[1 << 16];
  size_t n = 0;
  uint32_t fin = 0;
  do {
    IS(h3_outgoing(&ends[from], id, bytes, sizeof bytes, &n, NULL, &fin), H3_OK);
    IS(h3_deliver(&ends[!from], id, bytes, n, NULL), H3_OK);
    IS(h3_advance(&ends[from], id, n), H3_OK);
  } while (n && !fin);
  if (fin) IS(h3_deliver_end(&ends[!from], id, NULL), H3_OK);
}

static inline void carry_own(void) {
  for (int side = 0; side < 2; side++) {
    carry(side, h3_control_id(side));
    carry(side, h3_encoder_id(side));
    carry(side, h3_decoder_id(side));
  }
}

static inline h3_item pull(int side, uint64_t id) {
  h3_item item = {0};
  IS(h3_pull(&ends[side], id, &item), H3_OK);
  return item;
}
#endif
