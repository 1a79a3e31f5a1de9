// A program whose choices (../c/choices.h) are the bytes of a fuzzer's input.
#ifndef CHOSEN_H
#define CHOSEN_H
#include "../c/choices.h"

namespace {

const uint8_t *choices;
size_t choices_left;
uint64_t after; // what is chosen by when no byte is left, in the last rounds

uint32_t below(uint32_t count) {
  if (choices_left) {
    choices_left--;
    return *choices++ % count;
  }
  after = after * 6364136223846793005u + 1442695040888963407u;
  return static_cast<uint32_t>(after >> 33) % count;
}

bool is_chosen_out() { return choices_left == 0; }

// runs the program that an input chooses: the first byte is its seed
template <class Program>
void run_chosen(const uint8_t *data, size_t size) {
  if (size == 0) return;
  choices = data + 1;
  choices_left = size - 1;
  after = size;
  Program(*data).run();
}

} // namespace
#endif
