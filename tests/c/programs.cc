// Random programs of two endpoints (program.h).
//
//     programs FIRST_SEED COUNT
#include "program.h"
#include "seeds.h"

namespace {

unsigned steps() { return 60 + below(one_in(8) ? 1500 : 160); }

void tell() {
  printf("%s programs: %lu pairs, %lu calls, %lu allocations refused: %lu sends in order, ", counts.violations ? "failed" : "ok",
      counts.programs, counts.calls, allocations_refused, counts.sends);
  printf("%lu bytes (%lu of the caller), %lu lists and headers (%lu too large), %lu pieces read in place, ", counts.bytes, counts.owned,
      counts.lists, counts.too_large, counts.read_in_place);
  printf("%lu ends, %lu messages that had to come out, %lu pauses after all; %lu malformed (%lu too long); ", counts.ends, counts.came_out,
      counts.pauses, counts.malformed, counts.too_long);
  printf("%lu trailers in a tunnel from a plain side; %lu priorities, %lu that an update said, %lu turns, ", counts.tunnel_faults,
      counts.priorities, counts.updates, counts.turns);
  printf("%lu GOAWAYs, %lu requests rejected and %lu too late, %lu drained ends, %lu streams closed both ways, ", counts.goaways,
      counts.rejected, counts.late, counts.drained, counts.closed_both);
  printf("%lu unblocked, %lu datagrams, %lu bytes of sessions; %lu violations\n", counts.unblocked, counts.datagrams, counts.raw,
      counts.violations);
}

} // namespace

int main(int count, char **arguments) {
  if (!run_seeds<Program>(count, arguments, steps)) return 2;
  tell();
  return counts.violations != 0;
}
