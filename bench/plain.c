#include "plain.h"
#include "huffman_code.h"
#include <string.h>

enum { INDEX_BITS = 12, LONGEST = 30, END_OF_STRING = 256 };

/* By the next twelve bits: up to two symbols, and the length of their codes; `count` 0: a longer code. */
typedef struct {
  uint8_t len, count, first, second;
} entry;
static entry entries[1 << INDEX_BITS];

/* By the next eleven bits: one symbol; `len` 0: a longer code. For the end of a string, where two may be too many. */
enum { SINGLE_BITS = 11 };
static struct {
  uint8_t len, symbol;
} singles[1 << SINGLE_BITS];

/* The codes by their length: they are consecutive numbers. */
static struct {
  uint32_t first_code;
  uint16_t first_place;
  int count;
} lengths[LONGEST + 1];
static uint16_t in_order[257];

static void build_lengths(void) {
  int place = 0;
  for (int len = 1; len <= LONGEST; len++) {
    lengths[len].count = 0;
    lengths[len].first_place = (uint16_t)place;
    for (int symbol = 0; symbol < 257; symbol++) {
      if (CODE_LENGTHS[symbol] != len) continue;
      if (!lengths[len].count) lengths[len].first_code = CODES[symbol];
      lengths[len].count++;
      in_order[place++] = (uint16_t)symbol;
    }
  }
}

static int symbol_in_front(uint32_t bits, int len) {
  for (int symbol = 0; symbol < 256; symbol++)
    if (CODE_LENGTHS[symbol] <= len && bits >> (len - CODE_LENGTHS[symbol]) == CODES[symbol]) return symbol;
  return -1;
}

static void build_singles(void) {
  for (int symbol = 0; symbol < 256; symbol++) {
    int spare = SINGLE_BITS - CODE_LENGTHS[symbol];
    if (spare < 0) continue;
    for (uint32_t more = 0; more < 1u << spare; more++) {
      uint32_t index = CODES[symbol] << spare | more;
      singles[index].len = CODE_LENGTHS[symbol];
      singles[index].symbol = (uint8_t)symbol;
    }
  }
}

void plain_build(void) {
  build_lengths();
  build_singles();
  for (uint32_t index = 0; index < 1u << INDEX_BITS; index++) {
    uint32_t rest = index;
    int left = INDEX_BITS;
    entry found = {0};
    while (found.count < 2) {
      int symbol = symbol_in_front(rest, left);
      if (symbol < 0) break;
      if (found.count == 0)
        found.first = (uint8_t)symbol;
      else
        found.second = (uint8_t)symbol;
      found.count++;
      found.len = (uint8_t)(found.len + CODE_LENGTHS[symbol]);
      left -= CODE_LENGTHS[symbol];
      rest &= (1u << left) - 1;
    }
    entries[index] = found;
  }
}

uint8_t *plain_huffman_encode(uint8_t *to, const uint8_t *from, size_t len) {
  uint64_t bits = 0;
  unsigned count = 0;
  for (size_t i = 0; i < len; i++) {
    bits = bits << CODE_LENGTHS[from[i]] | CODES[from[i]];
    count += CODE_LENGTHS[from[i]];
    if (count >= 32) {
      count -= 32;
      uint32_t word = __builtin_bswap32((uint32_t)(bits >> count));
      memcpy(to, &word, sizeof word);
      to += sizeof word;
    }
  }
  for (; count >= 8; *to++ = (uint8_t)(bits >> count)) count -= 8;
  if (count) *to++ = (uint8_t)(bits << (8 - count) | 0xffu >> count);
  return to;
}

static uint64_t load(const uint8_t *from) {
  uint64_t word;
  memcpy(&word, from, sizeof word);
  return __builtin_bswap64(word);
}

static int long_symbol(uint64_t window, unsigned *len) {
  for (unsigned l = INDEX_BITS - 1; l <= LONGEST; l++) {
    if (!lengths[l].count) continue;
    uint32_t code = (uint32_t)(window >> (64 - l));
    if (code < lengths[l].first_code || code - lengths[l].first_code >= (uint32_t)lengths[l].count) continue;
    *len = l;
    return in_order[lengths[l].first_place + (code - lengths[l].first_code)];
  }
  return -1;
}

/* The symbols that are left in `count` bits at the top of `bits`, one at a time. */
static uint8_t *decode_rest(uint8_t *out, uint64_t bits, unsigned count) {
  while (count >= 8 || (count && bits >> (64 - count) != (1u << count) - 1)) {
    uint64_t window = count ? bits | ~0ull >> count : ~0ull;
    unsigned len = singles[window >> (64 - SINGLE_BITS)].len;
    int symbol = singles[window >> (64 - SINGLE_BITS)].symbol;
    if (!len) symbol = long_symbol(window, &len);
    if (symbol < 0 || symbol == END_OF_STRING || len > count) return NULL;
    *out++ = (uint8_t)symbol;
    bits = len < 64 ? bits << len : 0;
    count -= len;
  }
  return out;
}

long plain_huffman_decode(uint8_t *to, const uint8_t *from, size_t len) {
  uint8_t *out = to;
  uint64_t bits = 0;
  unsigned count = 0;
  for (const uint8_t *end = from + len; from < end;) {
    if (end - from >= 8) {
      bits |= load(from) >> count;
      unsigned taken = (63 - count) >> 3;
      from += taken;
      count += taken * 8;
    } else
      for (; count <= 56 && from < end; count += 8) bits |= (uint64_t)*from++ << (56 - count);
    while (count >= LONGEST) {
      entry found = entries[bits >> (64 - INDEX_BITS)];
      unsigned used = found.len;
      if (found.count) {
        out[0] = found.first;
        out[1] = found.second;
        out += found.count;
      } else {
        int symbol = long_symbol(bits, &used);
        if (symbol < 0 || symbol == END_OF_STRING) return -1;
        *out++ = (uint8_t)symbol;
      }
      bits <<= used;
      count -= used;
    }
  }
  out = decode_rest(out, bits, count);
  return out ? out - to : -1;
}

const uint8_t *plain_varint_decode(const uint8_t *from, uint64_t *number) {
  static const uint8_t shifts[4] = {56, 48, 32, 0};
  unsigned form = from[0] >> 6;
  *number = (load(from) & 0x3fffffffffffffffull) >> shifts[form];
  return from + (1u << form);
}

uint8_t *plain_varint_encode(uint8_t *to, uint64_t number) {
  unsigned form = number < 1u << 6 ? 0 : number < 1u << 14 ? 1 : number < 1u << 30 ? 2 : 3;
  unsigned len = 1u << form;
  uint64_t word = __builtin_bswap64(number << (64 - 8 * len) | (uint64_t)form << 62);
  memcpy(to, &word, sizeof word);
  return to + len;
}
