// A fuzzer (libFuzzer) over a list of calls: each byte chooses how two programs (../c/program.h) go on, and the clauses are checked at
// each call.
#include "../c/program.h"
#include "chosen.h"

extern "C" int LLVMFuzzerTestOneInput(const uint8_t *data, size_t size) {
  run_chosen<Program>(data, size);
  if (counts.violations) abort();
  return 0;
}
