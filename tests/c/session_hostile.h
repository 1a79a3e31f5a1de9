// The bytes of a hostile peer in random programs with sessions (session_program.h): what begins a stream of a session, or does not. They
// come in any pieces on a stream that nobody opened. Those that ask for a fault of the connection give it, and each call says so then.
#ifndef SESSION_HOSTILE_H
#define SESSION_HOSTILE_H
#include "session_program.h"

namespace {

struct Attack {
  uint32_t kind; // of the stream: id % 4 of a client's, and 1 of a server's
  const char *bytes;
  size_t len;
  uint64_t code;    // of the fault that it is; 0: none
  uint32_t item;    // what comes then
  uint64_t number;
};

#define BYTES(text) text, sizeof(text) - 1
const Attack attacks[] = {
    {0, BYTES("\x40\x41\x01"), 0x108, H3_FAULT_CONNECTION, 0},
    {0, BYTES("\x40\x41\xff\xff\xff\xff\xff\xff\xff\xff"), 0x108, H3_FAULT_CONNECTION, 0},
    {0, BYTES("\x40\x41\xff\xff\xff\xff\xff\xff\xff\xfc"), 0, H3_SESSION, FAR - 4},
    {0, BYTES("\x80\x00\x00\x41\x00"), 0, H3_SESSION, 0},
    {0, BYTES("\x40\x41\x43\xe8"), 0, H3_SESSION, 1000},
    {0, BYTES("\x40"), 0, H3_PENDING, 0},
    {0, BYTES("\x40\x41"), 0, H3_PENDING, 0},
    {0, BYTES("\x21\x01\x40\x40\x41\x00"), 0, H3_SESSION, 0}, // behind a frame of unknown type
    {0, BYTES("\x00\x01\x61"), 0x105, H3_FAULT_CONNECTION, 0},
    {0, BYTES("\x07\x01\x00"), 0x105, H3_FAULT_CONNECTION, 0},
    {0, BYTES("\x40\x54\x00\x00"), 0, H3_PENDING, 0},
    {1, BYTES("\x40\x41\x02"), 0x108, H3_FAULT_CONNECTION, 0},
    {1, BYTES("\x40\x54\x00"), 0x103, H3_FAULT_CONNECTION, 0},
    {1, BYTES("\x01\x00"), 0x103, H3_FAULT_CONNECTION, 0},
    {1, BYTES("\x21\x00\x40\x41\x00"), 0x103, H3_FAULT_CONNECTION, 0},
    {1, BYTES("\x40\x41\xff\xff\xff\xff\xff\xff\xff\xfc"), 0, H3_SESSION, FAR - 4},
    {1, BYTES("\xc0\x00\x00\x00\x00\x00\x00\x41\x80\x00\x00\x08"), 0, H3_SESSION, 8},
    {1, BYTES("\x40"), 0, H3_PENDING, 0},
    {2, BYTES("\x40\x54\x01"), 0x108, H3_FAULT_CONNECTION, 0},
    {2, BYTES("\x40\x54\xff\xff\xff\xff\xff\xff\xff\xff"), 0x108, H3_FAULT_CONNECTION, 0},
    {2, BYTES("\x40\x54\xff\xff\xff\xff\xff\xff\xff\xfc"), 0, H3_SESSION, FAR - 4},
    {2, BYTES("\x40\x54"), 0, H3_PENDING, 0},
};

void Program::hostile(int side) {
  const Attack &attack = one_of(attacks);
  Side &own = sides_[side];
  bool is_wrong_side = attack.kind == (side == 0 ? 0u : 1u);
  if (is_wrong_side || !own.is_on || sessions_.empty()) return;
  uint64_t id = attack.kind == 2 ? static_cast<uint64_t>(4000 + (side ? 2 : 3)) : 4000 + attack.kind, code = 0;
  uint32_t answer = H3_OK;
  for (size_t at = 0, n = 0; at < attack.len && answer == H3_OK; at += n) {
    n = 1 + below(static_cast<uint32_t>(attack.len - at));
    answer = h3_deliver(&own.end, id, attack.bytes + at, n, &code);
  }
  h3_item item = item_of(side, id);
  if (attack.code == 0) {
    bool is_told = answer == H3_OK && item.kind == attack.item && item.number == attack.number;
    if (!is_told) violated(id, "bytes of a peer:", h3_kind_text(item.kind));
  } else if (item.kind != H3_FAULT_CONNECTION || item.number != attack.code || (answer && code != attack.code)) {
    violated(id, "a fault with another code:", h3_kind_text(item.kind));
  }
  if (!attack.code) return void(is_over_ = true); // (the model does not know this stream)
  own.fault = attack.code;
  counts.faults++;
  for (auto &[raw, s] : streams_) {
    uint64_t detail = 0;
    if (item_of(side, raw).number != own.fault || h3_send_raw(&own.end, raw, "x", 1, &detail) != H3_CLOSED || detail != own.fault)
      violated(raw, "a call does not say that the connection has a fault");
    bool goes_on = h3_deliver(&own.end, raw, "x", 1, &detail) != H3_CONNECTION || h3_cancel(&own.end, raw, &detail) != H3_CLOSED;
    if (goes_on) violated(raw, "a call goes on after a fault of the connection");
    h3_stream_state state = {};
    if (h3_stream(&own.end, raw, &state) != H3_OK || state.unread) violated(raw, "bytes count as held after a fault of the connection");
  }
}

} // namespace
#endif
