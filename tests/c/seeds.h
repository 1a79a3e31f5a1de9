// Random programs by their seeds (choices.h).
#ifndef SEEDS_H
#define SEEDS_H
#include "choices.h"

namespace {

uint64_t random_state;
unsigned steps_left;

uint32_t below(uint32_t count) {
  random_state ^= random_state << 13;
  random_state ^= random_state >> 7;
  random_state ^= random_state << 17;
  return static_cast<uint32_t>((random_state >> 11) % count);
}

bool is_chosen_out() { return steps_left-- == 0; }

void begin(uint64_t seed, unsigned (*steps)()) {
  random_state = seed * 0x9e3779b97f4a7c15u + 1;
  for (int i = 0; i < 10; i++) below(2);
  steps_left = steps();
}

// Runs the programs of `FIRST_SEED COUNT`, each with so many steps as `steps` chooses. It answers whether the arguments say which.
template <class Program>
bool run_seeds(int count, char **arguments, unsigned (*steps)()) {
  if (count != 3) return false;
  uint64_t first = strtoull(arguments[1], nullptr, 10), last = first + strtoull(arguments[2], nullptr, 10);
  for (uint64_t seed = first; seed < last; seed++) {
    begin(seed, steps);
    Program(seed).run();
  }
  return true;
}

} // namespace
#endif
