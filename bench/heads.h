/* Lists of fields on one connection, each sent as the header section of a stream: an end that writes sections and encoder instructions,
 * and an end that reads both and answers on its decoder stream. Each list is read, compared and answered before the next. */
#ifndef HEADS_H
#define HEADS_H
#include "lists.h"

typedef struct {
  const field_lists *lists; /* in turn */
  size_t heads, capacity, blocked;
  int server;   /* do we send responses? */
  size_t first; /* the first head that counts */
} heads_kind;

typedef struct head_writer {
  void *(*begin)(const struct head_writer *writer, const heads_kind *kind);
  /* Head `number` goes on stream 4 * number. Adds to both packs. */
  void (*write)(void *end, size_t number, const field_list *list, pack *instructions, pack *section);
  void (*hear)(void *end, const pack *replies);
  void (*finish)(void *end);
  int is_unguarded, is_huffman; /* of ours: with h3_config's guard_secrets 0, and with its shortest_strings 0 */
} head_writer;

/* Either ends the program where it is refused. */
typedef struct {
  const char *name;
  void *(*begin)(const heads_kind *kind);
  /* Adds the list as put_list does, and the replies. */
  void (*read)(void *end, size_t number, const pack *instructions, const pack *section, pack *list, pack *replies);
  void (*finish)(void *end);
} head_reader;

/* An endpoint of build/c with the choices of h3_config_default, but for those that a writer says; nghttp3's encoder; ls-qpack's. */
extern const head_writer our_heads, our_unguarded_heads, our_huffman_heads, peer_heads, lsqpack_heads;
extern const head_reader peer_reads, lsqpack_reads;

/* Starts the program of ls-qpack by a line of the shell (lsqpack.py). */
void start_lsqpack(const char *command);

/* Names and values from a head on. */
double plain_of(const heads_kind *kind, size_t first);

/* How many bytes sections and encoder instructions take from the first head that counts on. Ends the program where another list is read
 * than was written. */
size_t bytes_of_heads(const heads_kind *kind, const head_writer *writer, const head_reader *reader);
#endif
