/* Exchanges by whichever libnghttp3 the loader finds: nghttp3 itself, or the drop-in of compat/nghttp3. scripts/compat/speed.sh compares
 * both.
 *
 *     exchange_speed DATA once KIND EXCHANGES     so many exchanges on one connection, or each on its own; no time is measured
 *     exchange_speed DATA time KIND SECONDS       the microseconds of an exchange, of the fastest round */
#define _GNU_SOURCE
#include "exchange_kinds.h"
#include "measure.h"
#include <stdio.h>
#include <stdlib.h>
#include <string.h>
#include <time.h>

static double now(void) {
  struct timespec at;
  clock_gettime(CLOCK_THREAD_CPUTIME_ID, &at);
  return (double)at.tv_sec + 1e-9 * (double)at.tv_nsec;
}

static double fastest(exchange_kind *kind, double seconds) {
  double best = 1e9, all = 0;
  while (all < seconds) {
    double from = now();
    peer_exchanges(kind, 1);
    double took = now() - from;
    if (took < best) best = took;
    all += took;
  }
  return best / (double)kind->exchanges;
}

int main(int argc, char **argv) {
  if (argc != 5) {
    fprintf(stderr, "exchange_speed DATA once|time KIND EXCHANGES|SECONDS\n");
    return 2;
  }
  const list_sets sets = load_sets(argv[1]);
  exchange_kind kind = kind_named(&sets, argv[3]);
  if (strcmp(argv[2], "once") == 0) {
    uint64_t connections = connections_of(&kind, strtoul(argv[4], NULL, 10));
    peer_exchanges(&kind, connections);
    return 0;
  }
  printf("%.3f\n", 1e6 * fastest(&kind, atof(argv[4])));
  return 0;
}
