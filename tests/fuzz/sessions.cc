// A fuzzer (libFuzzer) over a list of calls: each byte chooses how two programs with sessions (../c/session_program.h) go on, and a model
// says what each call answers.
#include "../c/session_program.h"
#include "chosen.h"

extern "C" int LLVMFuzzerTestOneInput(const uint8_t *data, size_t size) {
  run_chosen<Program>(data, size);
  if (counts.violations) abort();
  return 0;
}
