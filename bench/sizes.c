/* How much of their names and values heads take on one connection: by an endpoint of ours, by nghttp3's encoder and by ls-qpack's. What
 * we write is read by both decoders, and each list has to come out field for field.
 *
 *     sizes DATA [COMMAND]     COMMAND: a line of the shell that starts lsqpack.py; without it ls-qpack is left out */
#include "heads.h"
#include <stdio.h>
#include <stdlib.h>
#include <string.h>

enum { PASSES = 4, READERS = 2 };

static const head_reader *const readers[READERS] = {&peer_reads, &lsqpack_reads};
static int readers_there = 1; /* how many of them are there */
static size_t heads_read[READERS], fields_read[READERS];

/* The lists that begin with a field of this name, under a name of their own. */
static field_lists lists_with(const field_lists *all, const char *name, const char *set) {
  field_lists found = {.name = set};
  found.lists = calloc(all->count, sizeof *found.lists);
  for (size_t i = 0; i < all->count; i++) {
    const nghttp3_nv *first = all->lists[i].fields;
    if (first->namelen == strlen(name) && !memcmp(first->name, name, first->namelen)) found.lists[found.count++] = all->lists[i];
  }
  return found;
}

static size_t fields_of(const heads_kind *kind) {
  size_t sum = 0;
  for (size_t i = 0; i < kind->heads; i++) sum += kind->lists->lists[i % kind->lists->count].count;
  return sum;
}

/* What of ours nghttp3 reads; ls-qpack reads the same lists, in a connection of its own. */
static size_t our_bytes(const heads_kind *kind, const head_writer *writer) {
  size_t written = 0;
  for (int k = 0; k < readers_there; k++) {
    size_t bytes = bytes_of_heads(kind, writer, readers[k]);
    if (k == 0) written = bytes;
    heads_read[k] += kind->heads;
    fields_read[k] += fields_of(kind);
  }
  return written;
}

static void row(heads_kind kind) {
  double plain = plain_of(&kind, 0);
  printf("| %s | %zu/%zu | %zu | %.0f |", kind.lists->name, kind.capacity, kind.blocked, kind.heads, plain);
  static const head_writer *const ours[] = {&our_heads, &our_huffman_heads, &our_unguarded_heads};
  for (size_t i = 0; i < sizeof ours / sizeof *ours; i++) printf(" %.3f |", (double)our_bytes(&kind, ours[i]) / plain);
  printf(" %.3f |", (double)bytes_of_heads(&kind, &peer_heads, &peer_reads) / plain);
  if (readers_there == READERS) printf(" %.3f |\n", (double)bytes_of_heads(&kind, &lsqpack_heads, &lsqpack_reads) / plain);
  else printf(" |\n");
  fflush(stdout);
}

/* With a table, and without. */
static void rows(const field_lists *lists, size_t heads, size_t blocked, int server) {
  if (!lists->count) stop("no lists", 0);
  row((heads_kind){lists, heads, 4096, blocked, server, 0});
  row((heads_kind){lists, heads, 0, 0, server, 0});
}

/* A file that has both requests and responses. */
static void rows_of_both(const char *dir, const char *name, const char *requests, const char *responses) {
  field_lists all = load_lists(dir, name);
  field_lists asked = lists_with(&all, ":method", requests), answered = lists_with(&all, ":status", responses);
  rows(&asked, PASSES * asked.count, 16, 0);
  rows(&answered, PASSES * answered.count, 100, 1);
}

int main(int argc, char **argv) {
  const char *dir = argc > 1 ? argv[1] : "data";
  if (argc > 2 && *argv[2]) start_lsqpack(argv[2]), readers_there = READERS;
  field_lists requests = load_lists(dir, "requests"), responses = load_lists(dir, "responses");
  field_lists pages = with_value(&requests, "requests", ":method", "GET");
  field_lists one_authority = with_value(&pages, "requests", ":authority", "localhost:7020");
  field_lists answers = with_value(&responses, "responses", ":status", "200");
  printf("| Header sections | table/blocked | sections | names and values | ours | always Huffman coded | no secret guarded | nghttp3 "
         "| ls-qpack |\n|---|---|---|---|---|---|---|---|---|\n");
  rows(&one_authority, 1000, 16, 0);
  rows(&answers, 500, 100, 1);
  rows_of_both(dir, "non_ascii", "non_ascii, requests", "non_ascii, responses");
  rows_of_both(dir, "json", "json, requests", "json, responses");
  printf("\n");
  for (int k = 0; k < readers_there; k++)
    printf("ok sizes: %s's decoder read what we wrote, %zu sections with %zu fields, each field as it was sent\n", readers[k]->name,
           heads_read[k], fields_read[k]);
  if (readers_there < READERS) printf("skipped sizes: ls-qpack is not there (Debian 13: python3-pylsqpack)\n");
  return 0;
}
