// Random programs of two endpoints with sessions (session_program.h).
//
//     session_programs FIRST_SEED COUNT
#include "seeds.h"
#include "session_program.h"

namespace {

unsigned steps() { return 100 + below(900); }

void tell() {
  printf("%s session_programs: %lu pairs, %lu calls, ", counts.violations ? "failed" : "ok", counts.programs, counts.calls);
  printf("%lu streams, %lu bytes sent and %lu came, %lu sessions told, %lu ends, ", counts.opened, counts.sent, counts.came,
      counts.sessions, counts.ends);
  printf("%lu resets, %lu cancellations, %lu closed, %lu refusals, %lu without memory, %lu turns, ", counts.resets, counts.cancels,
      counts.closed, counts.refusals, counts.memory, counts.turns);
  printf("%lu datagrams, %lu bodies of capsules, %lu requests, %lu faults; %lu violations\n", counts.datagrams, counts.capsules,
      counts.requests, counts.faults, counts.violations);
}

} // namespace

int main(int count, char **arguments) {
  if (!run_seeds<Program>(count, arguments, steps)) return 2;
  tell();
  return counts.violations != 0;
}
