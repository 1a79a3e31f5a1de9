/* Pieces of many streams that come in turn. */
#include "exchange.h"
#include <stdlib.h>

/* A piece of a stream: the turn in which it comes, and where its bytes stand. */
typedef struct {
  uint64_t id;
  size_t turn, at, len;
  int fin;
} piece;

static struct {
  piece *items;
  size_t count, room;
} pieces;
static pack store;

void keep_piece(uint64_t id, const uint8_t *bytes, size_t len, int fin) {
  if (pieces.count == pieces.room) {
    pieces.room = 2 * pieces.room + 1024;
    pieces.items = realloc(pieces.items, pieces.room * sizeof *pieces.items);
    if (!pieces.items) stop("no memory", (long)pieces.room);
  }
  const piece *last = pieces.count ? &pieces.items[pieces.count - 1] : NULL;
  size_t turn = last && last->id == id ? last->turn + 1 : 0;
  pieces.items[pieces.count++] = (piece){id, turn, store.len, len, fin};
  put_bytes(&store, bytes, len);
}

void read_in_turn(void (*read)(void *to, uint64_t id, const uint8_t *bytes, size_t len, int fin), void *to) {
  size_t was_read = 0;
  for (size_t turn = 0; was_read < pieces.count; turn++)
    for (const piece *at = pieces.items; at < pieces.items + pieces.count; at++)
      if (at->turn == turn) read(to, at->id, store.bytes + at->at, at->len, at->fin), was_read++;
  pieces.count = store.len = 0;
}
