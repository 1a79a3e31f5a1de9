// Which way a random program goes, and memory that is refused to the library.
#ifndef CHOICES_H
#define CHOICES_H
#include <cstdint>
#include <cstdlib>

namespace {

// Which way a program goes: a number below the count, of those that the caller of this header chooses by.
uint32_t below(uint32_t count);

bool is_chosen_out(); // no further choices are left: the program ends

bool one_in(uint32_t count) { return below(count) == 0; }
template <class T, size_t n>
const T &one_of(const T (&choices)[n]) {
  return choices[below(n)];
}

// ---- memory that is refused ----

bool in_library = false;
unsigned refuse_at = 0; // the so-manieth allocation of this call is refused; 0: none
unsigned long allocations_refused = 0;

bool refuses() {
  if (!in_library || !refuse_at || --refuse_at) return false;
  allocations_refused++;
  return true;
}

} // namespace

extern "C" {
void *__real_malloc(size_t size);
void *__real_realloc(void *block, size_t size);
void *__wrap_malloc(size_t size) { return refuses() ? nullptr : __real_malloc(size); }
void *__wrap_realloc(void *block, size_t size) { return refuses() ? nullptr : __real_realloc(block, size); }
}

#endif
