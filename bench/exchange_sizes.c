/* How much of their plain text heads take, where nghttp3's decoder reads them: it leaves increments out where an acknowledgment told
 * enough. Ours are sent by an endpoint with the choices of h3_config_default, nghttp3's by its encoder. */
#include "exchange.h"
#include "heads.h"
#include "measure.h"

/* At most 0.8 of the peer's bytes are wanted. */
static void heads_row(const char *row, const char *set, heads_kind kind) {
  if (!is_measured(row, set)) return;
  double plain = plain_of(&kind, kind.first), peers = (double)bytes_of_heads(&kind, &peer_heads, &peer_reads) / plain;
  size_row(row, set, (double)bytes_of_heads(&kind, &our_heads, &peer_reads) / plain, peers, 0.8 * peers);
}

void heads_rows(const field_lists *requests, const field_lists *responses) {
  heads_row("4096/16, 1,000 heads", "one authority", (heads_kind){requests, 1000, 4096, 16, 0, 0});
  heads_row("4096/16, the last 100", "one authority", (heads_kind){requests, 1000, 4096, 16, 0, 900});
  heads_row("4096/100, 500 heads", "responses", (heads_kind){responses, 500, 4096, 100, 1, 0});
  heads_row("4096/100, the last 100", "responses", (heads_kind){responses, 500, 4096, 100, 1, 400});
  /* no stream may wait */
  heads_row("4096/0, 1,000 heads", "one authority", (heads_kind){requests, 1000, 4096, 0, 0, 0});
  heads_row("4096/0, 500 heads", "responses", (heads_kind){responses, 500, 4096, 0, 1, 0});
}
