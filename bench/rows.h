/* The rows of the table, by what they measure. */
#ifndef ROWS_H
#define ROWS_H
#include "h3_bench.h"
#include "lists.h"

void varint_rows(void);
/* All names and values of these lists; `set` is what the rows call them. */
void huffman_rows(const field_lists *const *sets, size_t count, const char *set);
void hostile_huffman_rows(void);
void length_rows(void);
/* The strings of these lists as values of one field. */
void literal_rows(const field_lists *lists);
void header_rows(const field_lists *lists);
/* Heads of requests, judged by the rules that a strict endpoint asks. */
void judge_rows(const field_lists *requests);
/* The sections that we encode these lists to without a table, as strings. */
pack sections_of(const field_lists *lists);
/* Exchanges of these lists, and of small ones. */
void endpoint_rows(const field_lists *requests, const field_lists *responses);
void wire_rows(void);
/* Streams of frames; those of HEADERS frames have the sections of these lists. */
void frame_rows(const field_lists *lists);
void section_rows(const field_lists *lists);
/* The same where other ratios to nghttp3 are wanted. */
void section_rows_wanting(const field_lists *lists, double encode_target, double decode_target);
/* Least ratios to nghttp3, of decoding to nghttp2 as well, and what is sent of the bytes of the lists at most; 0: no target. */
typedef struct {
  double encode, decode, decode_third, both, most_size;
} session_targets;
/* `batch` lists are sent before they are read and answered. */
void session_rows(const field_lists *lists, size_t batch, session_targets targets);
/* The time that encoding a field takes in lock-step, with tables of that capacity; at most so many nanoseconds (0: no target).
 * The row is called as the lists are. */
void field_row(const field_lists *lists, const char *set, size_t capacity, double most);
/* What a stranger can drive up. */
void hostile_rows(void);
void hostile_decoder_rows(void);

/* Ends the program where the static library gave a work up. */
void done(const char *what, uint32_t status);
/* Ends the program where two contenders did not do the same. */
void same(const char *what, const void *ours, size_t our_len, const void *theirs, size_t their_len);
#endif
