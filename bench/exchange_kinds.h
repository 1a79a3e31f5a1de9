/* Kinds of exchanges, by their names. */
#ifndef EXCHANGE_KINDS_H
#define EXCHANGE_KINDS_H
#include "exchange.h"

/* The lists of all kinds. */
typedef struct {
  field_lists requests, responses, posts, answers, pages, wide, gets, oks, one_authority;
} list_sets;

/* The lists of files in this folder, and small ones; and fills the bodies. */
list_sets load_sets(const char *dir);

exchange_kind small_get(const list_sets *sets);
exchange_kind small_post(const list_sets *sets);
exchange_kind real_get(const list_sets *sets);
exchange_kind real_post(const list_sets *sets);
exchange_kind large_post(const list_sets *sets);
/* Real requests with fields of others behind their own, so that each has 30, as through a proxy. */
exchange_kind wide_get(const list_sets *sets);
/* The same, whose streams come in turn, in pieces of 1,200 bytes. */
exchange_kind in_turn(exchange_kind kind);
/* A small request, and a response with a body of so many bytes; so many at once are carried. */
exchange_kind long_get(const list_sets *sets, size_t body, size_t piece);
/* A small request and response; so many bytes at once are carried. */
exchange_kind small_pieces(const list_sets *sets, size_t piece);
/* A connection with one exchange of real lists: with dynamic tables of so many bytes, which so many streams may wait for. */
exchange_kind short_connection(const list_sets *sets, size_t table, size_t blocked);
/* The same, one exchange after the other, so that one stream at most is under way. */
exchange_kind one_by_one(exchange_kind kind);
/* The same, where nobody copies a body. */
exchange_kind in_place(exchange_kind kind);

enum { NAMED_KINDS = 19 };
typedef struct {
  const char *name;
  exchange_kind kind;
} named_kind;

/* All kinds that instructions are counted of. */
void name_kinds(const list_sets *sets, named_kind named[NAMED_KINDS]);
/* So many exchanges of that kind are on so many connections: a kind of one exchange has a connection for each, and others have one. */
uint64_t connections_of(exchange_kind *kind, size_t exchanges);
/* The kind of that name; ends the program where there is none. */
exchange_kind kind_named(const list_sets *sets, const char *name);
#endif
