// Random programs of a client and a server with sessions of WebTransport, through include/h3.h: streams that both sides open, one way and
// both ways, also of a session that was refused; bytes that are cut anywhere, ends, resets, cancellations, datagrams, capsules, requests
// beside them, sides without the choice, bytes of a hostile peer, and every twelfth call with an allocation refused. A model of each stream
// says what each call answers. Checked at each call:
//
// - what a side takes of a stream is its front and then what was sent, byte by byte, and its end after that; the reader gets the session
//   once, then these bytes in order and once, then the end, the peer's code, or that it was canceled; nothing else comes;
// - a call is refused as h3.h says, and then nothing has changed, with memory refused too;
// - h3_next_to_send, h3_next_of_session, h3_next_by_priority and h3_stream say what the model says, of all streams;
// - the connection has a fault only by bytes that ask for one (session_hostile.h), with the code that h3.h names.
//
// Which calls are made is chosen by `below`. Linked with --wrap for malloc and realloc.
#ifndef SESSION_PROGRAM_H
#define SESSION_PROGRAM_H
#include <h3.h>

#include <algorithm>
#include <cstdio>
#include <map>
#include <string>
#include <utility>
#include <vector>

#include "choices.h"

namespace {

// of those that there are
uint64_t one_of_all(const std::vector<uint64_t> &all) { return all[below(static_cast<uint32_t>(all.size()))]; }

constexpr uint64_t FAR = UINT64_C(1) << 62, NOTHING = UINT64_MAX;
constexpr uint64_t OWN[2][3] = {{2, 6, 10}, {3, 7, 11}};

using Fields = std::vector<std::pair<std::string, std::string>>;

// what one side sends on a stream, and what came of it at the other side
struct Half {
  std::string all;       // the front, and what was sent after it
  size_t taken = 0;      // by QUIC
  size_t came = 0, out = 0; // at the reader: delivered, and pulled
  bool finished = false, end_taken = false, reset = false, held = false;
  bool end_came = false, reset_came = false, ended = false, canceled = false;
  uint64_t code = 0;
  size_t waiting() const { return reset ? 0 : all.size() - taken; }
  bool has_end() const { return finished && !end_taken; }
};

struct Stream {
  uint64_t session = 0;
  int opener = 0;
  bool both_ways = false;
  size_t front = 0;                        // so many bytes of the opener's half
  bool told = false;                     // the reader was told of its session
  bool closed[2] = {false, false};       // by h3_close_stream
  bool was_kept = false;
  Half halves[2];                        // what the client sends, and the server
};

struct Side {
  h3_endpoint end = H3_NONE_YET;
  h3_config config;
  bool is_on = false, takes = false; // sessions are on; and it knows that the peer takes them
  uint64_t next_both, next_one;
  uint64_t fault = 0;
};

struct Counts {
  unsigned long programs = 0, calls = 0, opened = 0, sent = 0, came = 0, sessions = 0, ends = 0, resets = 0, cancels = 0, closed = 0,
                refusals = 0, memory = 0, turns = 0, datagrams = 0, capsules = 0, faults = 0, requests = 0, violations = 0;
} counts;

class Program {
 public:
  explicit Program(uint64_t seed);
  ~Program() {
    for (Side &side : sides_) h3_free(&side.end);
  }
  void run();

 private:
  // the model
  bool reads_alone(int side, uint64_t id, const Stream &s) const;
  bool is_known(int side, uint64_t id, const Stream &s) const;
  bool has_sender(int side, uint64_t id, const Stream &s) const;
  bool is_of_session(int side, uint64_t id, const Stream &s) const;
  bool is_request_yet(int side, uint64_t id, const Stream &s) const;
  uint32_t open_answer(int side, uint64_t session, uint32_t both_ways);
  uint32_t send_answer(int side, uint64_t id, const Stream &s) const;
  bool has_to_send(int side, uint64_t id, const Stream &s) const;
  bool takes_turns(int side, uint64_t id, const Stream &s) const;
  uint64_t least_to_send(int side, uint64_t from) const;

  // the calls
  void open(int side);
  void send(int side, uint64_t id);
  void finish(int side, uint64_t id);
  void reset(int side, uint64_t id);
  void cancel(int side, uint64_t id);
  void close(int side, uint64_t id);
  void hold(int side, uint64_t id);
  void take(int side, uint64_t id, size_t most);
  void deliver(int to, uint64_t id, size_t most);
  void read(int to, uint64_t id, size_t most);
  void deliver_end(int to, uint64_t id);
  void pull(int side, uint64_t id);
  void came(int side, uint64_t id, const h3_item &item);
  void came_raw(int side, uint64_t id, const h3_item &item);
  void wrong_call(int side, uint64_t id);
  void take_turn(int side);
  void shows(int side, uint64_t id);
  void shows_all(int side);
  void datagram(int side);
  void capsules();
  std::string capsules_in(h3_capsule_reader &reader, std::string piece);
  void begin_session();
  void give_notice();
  void end_session(int side, bool for_good);
  void request();
  void hostile(int side);
  void faulty(int side, uint32_t answer, const h3_item &item, uint64_t wanted);
  void carry(int from, uint64_t id);
  void carry_own();
  h3_item item_of(int side, uint64_t id);
  void send_head(int side, uint64_t id, const Fields &list);
  void flow(int side, uint64_t id);
  void step();

  void violated(uint64_t id, const char *what, const char *more = "");
  bool answers(uint64_t id, const char *what, uint32_t answer, uint32_t wanted);
  template <class Call>
  uint32_t call(Call made) {
    unsigned long before = allocations_refused;
    counts.calls++;
    refuse_at = one_in(12) ? 1 + below(4) : 0;
    in_library = true;
    uint32_t answer = made();
    in_library = false;
    refuse_at = 0;
    lacked_ = allocations_refused != before;
    return answer;
  }
  h3_endpoint *end(int side) { return &sides_[side].end; }

  uint64_t seed_;
  Side sides_[2];
  std::map<uint64_t, Stream> streams_;
  std::vector<uint64_t> sessions_, over_; // requests on which both sides send, and those on which one has ended
  bool lacked_ = false, is_over_ = false, goes_away_ = false; // lacked_: memory was refused in the last call
};

Program::Program(uint64_t seed) : seed_(seed) {
  uint32_t off = below(8); // 0: no side has the choice, 1 and 2: one of both
  for (int side = 0; side < 2; side++) {
    Side &own = sides_[side];
    h3_config_default(&own.config);
    own.config.server = static_cast<uint64_t>(side);
    own.config.webtransport = own.config.datagram = own.config.extended_connect = 1;
    own.config.max_webtransport_sessions = below(3);
    own.config.strict = below(2);
    own.config.strict_connection = below(2);
    own.config.other_streams = below(2);
    own.config.table = below(2) ? 4096 : 0;
    own.is_on = off != 0 && off != static_cast<uint32_t>(side) + 1;
    own.config.sessions = own.is_on;
    own.next_both = static_cast<uint64_t>(side);
    own.next_one = static_cast<uint64_t>(14 + side);
    if (h3_new(&own.end, &own.config, nullptr) != H3_OK) violated(0, "h3_new is refused");
  }
}

void Program::violated(uint64_t id, const char *what, const char *more) {
  is_over_ = true;
  if (++counts.violations > 10) return;
  printf("failed session_programs: seed %llu, stream %llu: %s %s\n", static_cast<unsigned long long>(seed_),
      static_cast<unsigned long long>(id), what, more);
}

// Memory may be refused in this call, and nothing else may be other.
bool Program::answers(uint64_t id, const char *what, uint32_t answer, uint32_t wanted) {
  if (answer == H3_MEMORY && lacked_ && wanted == H3_OK) return counts.memory++, false;
  if (answer != wanted) violated(id, what, h3_answer_text(answer));
  if (answer != H3_OK) counts.refusals++;
  return answer == H3_OK && wanted == H3_OK;
}

// ---- the model ----

// What comes is read by the part that has the streams of sessions; else by the endpoint, which tells the session when it is pulled.
bool Program::reads_alone(int side, uint64_t id, const Stream &s) const {
  return sides_[side].is_on && (s.opener == side || (side == 0 && id % 4 == 1));
}

bool Program::is_known(int side, uint64_t id, const Stream &s) const {
  if (s.closed[side] || !sides_[side].is_on) return false;
  const Half &in = s.halves[!side];
  if (s.opener == side || !reads_alone(side, id, s)) return s.opener == side || s.told;
  return in.came > 0 || in.end_came || in.reset_came;
}

bool Program::is_of_session(int side, uint64_t id, const Stream &s) const {
  if (!is_known(side, id, s)) return false;
  return s.opener == side || s.told || s.halves[!side].came >= s.front;
}

// Something came on a stream both ways, which is a request to its server until its session is told.
bool Program::is_request_yet(int side, uint64_t id, const Stream &s) const {
  const Half &in = s.halves[!side];
  return side == 1 && id % 4 == 0 && !is_known(side, id, s) && (in.came || in.end_came || in.reset_came);
}

bool Program::has_sender(int side, uint64_t id, const Stream &s) const {
  return is_of_session(side, id, s) && (s.opener == side || s.both_ways);
}

uint32_t Program::open_answer(int side, uint64_t session, uint32_t both_ways) {
  if (session >= FAR || both_ways > 1) return H3_ARGUMENT;
  if (sides_[side].fault) return H3_CLOSED;
  if (!sides_[side].is_on || !sides_[side].takes) return H3_NO_SESSIONS;
  if (session % 4) return H3_NOT_REQUEST_ID;
  if (std::find(sessions_.begin(), sessions_.end(), session) == sessions_.end()) return H3_NOT_OPEN;
  return both_ways && side == 0 && goes_away_ ? H3_GOING_AWAY : H3_OK;
}

uint32_t Program::send_answer(int side, uint64_t id, const Stream &s) const {
  if (sides_[side].fault) return H3_CLOSED;
  if (!has_sender(side, id, s)) return H3_NOT_OPEN;
  const Half &own = s.halves[side];
  return own.finished || own.reset ? H3_OUT_OF_ORDER : H3_OK;
}

bool Program::has_to_send(int side, uint64_t id, const Stream &s) const {
  const Half &own = s.halves[side];
  return has_sender(side, id, s) && (own.waiting() || own.has_end());
}

bool Program::takes_turns(int side, uint64_t id, const Stream &s) const { return has_to_send(side, id, s) && !s.halves[side].held; }

// of the streams of sessions
uint64_t Program::least_to_send(int side, uint64_t from) const {
  for (auto &[id, s] : streams_)
    if (id >= from && has_to_send(side, id, s)) return id;
  return NOTHING;
}

// ---- sending ----

void Program::open(int side) {
  uint64_t session = one_in(10) ? 4 * below(12) : NOTHING, id = NOTHING;
  if (session == NOTHING) session = !over_.empty() && one_in(8) ? one_of_all(over_) : sessions_.empty() ? 0 : one_of_all(sessions_);
  if (one_in(30)) session = below(2) ? FAR : session + 1 + below(3);
  uint32_t both_ways = one_in(40) ? 2 : below(2);
  if (side == 1 && !sides_[0].is_on) both_ways = 0; // such a client refuses a server's stream both ways
  uint32_t wanted = open_answer(side, session, both_ways);
  uint32_t answer = call([&] { return h3_open_session_stream(end(side), session, both_ways, &id, nullptr); });
  if (!answers(session, "h3_open_session_stream", answer, wanted)) {
    if (id != NOTHING) violated(session, "a refused call wrote an id");
    return;
  }
  Side &own = sides_[side];
  uint64_t &next = both_ways ? own.next_both : own.next_one;
  if (id != next) violated(id, "another id than the next");
  next = id + 4;
  std::string front = {'\x40', both_ways ? '\x41' : '\x54'};
  if (session >= 64) front += static_cast<char>(0x40 | session >> 8);
  front += static_cast<char>(session & 0xff);
  Stream &s = streams_[id];
  s.session = session, s.opener = side, s.both_ways = both_ways, s.front = front.size();
  s.halves[side].all = front;
  counts.opened++;
}

void Program::send(int side, uint64_t id) {
  Stream &s = streams_[id];
  std::string bytes(one_in(30) ? below(3000) : below(12), 0);
  for (char &byte : bytes) byte = static_cast<char>(below(256));
  uint32_t wanted = send_answer(side, id, s);
  uint32_t answer = call([&] { return h3_send_raw(end(side), id, bytes.data(), bytes.size(), nullptr); });
  if (!answers(id, "h3_send_raw", answer, wanted)) return;
  s.halves[side].all += bytes;
  counts.sent += bytes.size();
}

void Program::finish(int side, uint64_t id) {
  Stream &s = streams_[id];
  uint32_t wanted = send_answer(side, id, s), answer = call([&] { return h3_finish(end(side), id, nullptr); });
  if (!is_known(side, id, s)) return; // the endpoint's
  if (lacked_) violated(id, "h3_finish takes memory");
  if (answers(id, "h3_finish", answer, wanted)) s.halves[side].finished = true;
}

void Program::reset(int side, uint64_t id) {
  Stream &s = streams_[id];
  Half &own = s.halves[side];
  if (s.closed[side] || !sides_[side].is_on) return;
  bool sends = has_sender(side, id, s) || is_request_yet(side, id, s);
  uint32_t wanted = !sends ? H3_NOT_OPEN : own.reset || (own.finished && !own.waiting()) ? H3_ENDED : H3_OK;
  if (!answers(id, "h3_reset", call([&] { return h3_reset(end(side), id, nullptr); }), wanted)) return;
  own.reset = true;
  own.finished = false;
  own.code = below(2) ? h3_webtransport_code(below(1000)) : 0x100 + below(17);
}

void Program::hold(int side, uint64_t id) {
  Stream &s = streams_[id];
  uint32_t held = below(2);
  if (!is_known(side, id, s)) return;
  uint32_t answer = call([&] { return h3_hold(end(side), id, held, nullptr); });
  if (answers(id, "h3_hold", answer, has_sender(side, id, s) ? H3_OK : H3_NOT_OPEN)) s.halves[side].held = held;
}

// QUIC takes some bytes, and the end after the last
void Program::take(int side, uint64_t id, size_t most) {
  Stream &s = streams_[id];
  Half &own = s.halves[side];
  size_t n = 99, past = 99, room = below(2) ? most : below(static_cast<uint32_t>(most) + 1);
  uint32_t fin = 9;
  std::string bytes(room + 1, '\xee');
  if (h3_outgoing(end(side), id, &bytes[0], room, &n, &past, &fin) != H3_OK) return violated(id, "h3_outgoing is refused");
  bool sends = has_sender(side, id, s);
  size_t wanted = sends ? std::min(room, own.waiting()) : 0;
  if (n != wanted || past || bytes[n] != '\xee' || own.all.compare(own.taken, n, bytes, 0, n)) return violated(id, "other bytes wait");
  if (fin != (sends && own.finished && n == own.waiting())) violated(id, "whether the end follows");
  size_t count = below(3) ? n : below(static_cast<uint32_t>(n) + 1);
  if (h3_advance(end(side), id, own.waiting() + 1) != H3_ARGUMENT) violated(id, "more is taken than waits");
  if (h3_advance(end(side), id, count) != H3_OK) violated(id, "h3_advance is refused");
  own.taken += count;
  if (!fin || count != n || one_in(3)) return;
  if (h3_end_taken(end(side), id) != (own.end_taken ? H3_NONE : H3_OK)) violated(id, "h3_end_taken");
  own.end_taken = true;
}

// ---- receiving ----

void Program::cancel(int side, uint64_t id) {
  Stream &s = streams_[id];
  Half &in = s.halves[!side];
  if (s.closed[side] || !sides_[side].is_on) return;
  bool receives = is_known(side, id, s) ? s.opener != side || s.both_ways : is_request_yet(side, id, s);
  uint32_t wanted = !receives ? H3_NOT_OPEN : in.ended || in.canceled || in.reset_came ? H3_ENDED : H3_OK;
  if (!answers(id, "h3_cancel", call([&] { return h3_cancel(end(side), id, nullptr); }), wanted)) return;
  in.canceled = true;
  counts.cancels++;
}

void Program::deliver(int to, uint64_t id, size_t most) {
  Stream &s = streams_[id];
  Half &in = s.halves[!to];
  size_t n = std::min(most, in.taken - in.came);
  if (!n || s.closed[to] || in.end_came || in.reset_came) return;
  std::vector<char> bytes(in.all.begin() + static_cast<long>(in.came), in.all.begin() + static_cast<long>(in.came + n));
  uint64_t code = 0;
  uint32_t answer = call([&] { return h3_deliver(end(to), id, bytes.data(), n, &code); });
  bool is_kept = answer == H3_KEPT && lacked_;
  s.was_kept = s.was_kept || is_kept;
  if (is_kept || answers(id, "h3_deliver", answer, H3_OK)) in.came += n;
}

void Program::deliver_end(int to, uint64_t id) {
  Stream &s = streams_[id];
  Half &in = s.halves[!to];
  bool is_whole = in.end_taken && in.came == in.all.size();
  if (s.closed[to] || in.end_came || in.reset_came || !(in.reset || is_whole)) return;
  uint32_t answer = call([&] { return in.reset ? h3_deliver_reset(end(to), id, in.code, nullptr) : h3_deliver_end(end(to), id, nullptr); });
  bool is_kept = answer == H3_KEPT && lacked_;
  s.was_kept = s.was_kept || is_kept;
  if (!is_kept && !answers(id, "an end", answer, H3_OK)) return;
  (in.reset ? in.reset_came : in.end_came) = true;
}

void Program::read(int to, uint64_t id, size_t most) {
  Stream &s = streams_[id];
  Half &in = s.halves[!to];
  size_t n = std::min(most, in.taken - in.came), used = 99;
  bool is_last = in.end_taken && in.came + n == in.all.size();
  if (s.closed[to] || in.end_came || in.reset_came || in.reset || (!n && !is_last)) return;
  std::vector<char> bytes(in.all.begin() + static_cast<long>(in.came), in.all.begin() + static_cast<long>(in.came + n));
  h3_item item = {};
  uint32_t answer = call([&] { return h3_read(end(to), id, bytes.data(), n, is_last, &used, &item, nullptr); });
  if (used > n) return violated(id, "more is read than came");
  in.came += used;
  if (answer == H3_KEPT && lacked_) return void(s.was_kept = true);
  if (answer == H3_AFTER_END && is_last) return void(in.end_came = true);
  if (!answers(id, "h3_read", answer, H3_OK)) return;
  if (is_last && used == n) in.end_came = true;
  came(to, id, item);
}

void Program::pull(int side, uint64_t id) {
  h3_item item = {};
  if (streams_[id].closed[side]) return;
  if (call([&] { return h3_pull(end(side), id, &item); }) != H3_OK) violated(id, "h3_pull is refused");
  came(side, id, item);
}

// the next item is that of the model
void Program::came(int side, uint64_t id, const h3_item &item) {
  Stream &s = streams_[id];
  Half &in = s.halves[!side];
  bool is_peers = s.opener != side, receives = is_peers || (s.both_ways && sides_[side].is_on);
  size_t front = is_peers ? s.front : 0;
  if (item.kind == H3_FAULT_MEMORY && lacked_) return void(counts.memory++);
  uint32_t wanted = H3_PENDING;
  if (!receives) wanted = H3_NO_MESSAGES;
  else if (in.canceled) wanted = H3_FAULT_CANCELED;
  else if (in.ended) wanted = H3_END;
  else if (in.reset_came && is_peers && !s.both_ways && in.came < front) wanted = H3_NO_MESSAGES; // of a type that is not known
  else if (in.reset_came) wanted = H3_FAULT_RESET;
  else if (is_peers && in.came < front) wanted = H3_PENDING;
  else if (is_peers && !s.told) wanted = H3_SESSION;
  else if (in.came > front + in.out) wanted = H3_RAW;
  else if (in.end_came) wanted = H3_END;
  if (item.kind != wanted) return violated(id, "another item:", h3_kind_text(item.kind));
  if (wanted == H3_FAULT_RESET && item.number != in.code) violated(id, "another code");
  if (wanted == H3_FAULT_RESET) counts.resets++;
  if (wanted == H3_RAW) return came_raw(side, id, item);
  if (wanted == H3_SESSION && item.number != s.session) violated(id, "another session");
  counts.sessions += wanted == H3_SESSION;
  counts.ends += wanted == H3_END && !in.ended;
  s.told = s.told || wanted == H3_SESSION;
  in.ended = in.ended || wanted == H3_END;
}

void Program::came_raw(int side, uint64_t id, const h3_item &item) {
  Stream &s = streams_[id];
  Half &in = s.halves[!side];
  size_t at = (s.opener != side ? s.front : 0) + in.out, n = 0, room = item.len;
  std::string bytes(room, 0);
  if (!item.len || item.len > in.came - at) return violated(id, "bytes that did not come");
  if (h3_item_bytes(end(side), 0, &bytes[0], room, &n) != H3_OK || n != room) violated(id, "no bytes");
  if (in.all.compare(at, n, bytes)) violated(id, "other bytes");
  in.out += n;
  counts.came += n;
}

// ---- what is shown ----

void Program::shows(int side, uint64_t id) {
  const Stream &s = streams_[id];
  const Half &own = s.halves[side], &in = s.halves[!side];
  h3_stream_state state = {};
  if (h3_stream(end(side), id, &state) != H3_OK) violated(id, "no state");
  if (!is_known(side, id, s) || sides_[side].fault) return;
  bool sends = has_sender(side, id, s), receives = s.opener != side || s.both_ways;
  if (state.waiting != (sends ? own.waiting() : 0)) violated(id, "other bytes wait");
  if (state.has_outgoing != sends || state.is_finished != (sends && own.finished) || state.is_reset != (sends && own.reset))
    violated(id, "another state of what is sent");
  size_t front = s.opener != side ? s.front : 0, held = in.came > front + in.out ? in.came - front - in.out : 0;
  if (in.canceled || in.reset_came || !receives) held = 0;
  if (!s.was_kept && (s.told || reads_alone(side, id, s)) && state.unread != held) violated(id, "another count of what is held");
}

// all streams of this side
void Program::shows_all(int side) {
  std::vector<uint64_t> requests = sessions_;
  requests.insert(requests.end(), over_.begin(), over_.end());
  uint64_t session = requests.empty() ? 0 : one_of_all(requests), wanted = 0, next = 0;
  for (auto &[id, s] : streams_) {
    shows(side, id);
    if (s.session != session || !is_of_session(side, id, s)) continue;
    uint32_t answer = call([&] { return h3_next_of_session(end(side), session, wanted, &next); });
    if (answer != H3_OK || next != id) violated(id, "it is not the next of its session");
    wanted = id + 1;
  }
  if (h3_next_of_session(end(side), session, wanted, &next) != H3_NONE) violated(next, "it is none of the session");
  for (uint64_t from = 0, raw = 0; !h3_next_to_send(end(side), from, &next); from = next + 1) {
    bool is_request = std::find(requests.begin(), requests.end(), next) != requests.end(), is_own = next % 4 >= 2 && next < 12;
    if (is_request || is_own) continue;
    if (next != (raw = least_to_send(side, from))) violated(next, "it does not send, or another one does");
  }
}

// In turns: where a request and a stream of a session wait, neither sends twice.
void Program::take_turn(int side) {
  uint64_t id = NOTHING;
  if (call([&] { return h3_next_by_priority(end(side), &id); }) != H3_OK) {
    for (auto &[raw, s] : streams_)
      if (takes_turns(side, raw, s)) violated(raw, "it has no turn");
    return;
  }
  auto found = streams_.find(id);
  if (found == streams_.end()) return carry(side, id);
  if (!takes_turns(side, id, found->second)) violated(id, "it has a turn");
  counts.turns++;
  take(side, id, 1 + below(100));
}

// ---- all beside streams ----

h3_item Program::item_of(int side, uint64_t id) {
  h3_item item = {};
  if (h3_pull(end(side), id, &item) != H3_OK) violated(id, "h3_pull is refused");
  return item;
}

// all that waits of this side goes over, of a stream of no session
void Program::carry(int from, uint64_t id) {
  uint8_t bytes[4096];
  size_t n = 0;
  uint32_t fin = 0;
  do {
    if (h3_outgoing(end(from), id, bytes, sizeof bytes, &n, nullptr, &fin) != H3_OK) violated(id, "h3_outgoing is refused");
    if (n && h3_deliver(end(!from), id, bytes, n, nullptr) != H3_OK) return violated(id, "bytes of no session are refused");
    if (h3_advance(end(from), id, n) != H3_OK) violated(id, "h3_advance is refused");
  } while (n && !fin);
  if (fin && h3_end_taken(end(from), id) == H3_OK && h3_deliver_end(end(!from), id, nullptr) != H3_OK) violated(id, "an end is refused");
}

void Program::carry_own() {
  for (int round = 0; round < 2; round++)
    for (int side = 0; side < 2; side++)
      for (uint64_t id : OWN[side]) carry(side, id);
}

void Program::send_head(int side, uint64_t id, const Fields &list) {
  std::vector<h3_field_size> sizes;
  std::string bytes;
  for (auto &[name, value] : list) {
    sizes.push_back({static_cast<uint32_t>(name.size()), static_cast<uint32_t>(value.size())});
    bytes += name + value;
  }
  uint32_t answer = h3_send_head(end(side), id, sizes.data(), nullptr, sizes.size(), bytes.data(), bytes.size(), nullptr);
  if (answer != H3_OK) violated(id, "no header section is sent:", h3_answer_text(answer));
}

// A request begins a session, or is refused: its streams may come all the same.
void Program::begin_session() {
  uint64_t id = NOTHING;
  if (goes_away_ || sessions_.size() == 3) return;
  carry_own();
  for (Side &side : sides_) side.takes = true;
  if (h3_open_request(end(0), &id, nullptr) != H3_OK || id != sides_[0].next_both) return violated(id, "another id of a request");
  sides_[0].next_both = id + 4;
  send_head(0, id, {{":method", "CONNECT"}, {":protocol", "webtransport"}, {":scheme", "https"}, {":authority", "a"}, {":path", "/"}});
  carry_own();
  carry(0, id);
  if (item_of(1, id).kind != H3_HEAD) return violated(id, "no request comes");
  send_head(1, id, {{":status", one_in(6) ? "404" : "200"}});
  carry_own();
  carry(1, id);
  if (item_of(0, id).kind != H3_HEAD) return violated(id, "no response comes");
  carry_own();
  sessions_.push_back(id);
}

// Its client opens no more requests, nor streams both ways (RFC 9114, section 5.2).
void Program::give_notice() {
  if (h3_shutdown_notice(end(1), nullptr) != H3_OK) violated(0, "a notice is refused");
  carry_own();
  goes_away_ = true;
}

// a message both ways that is no session's: nothing of it changes
void Program::request() {
  uint64_t id = NOTHING;
  if (goes_away_ || sessions_.empty()) return;
  if (h3_open_request(end(0), &id, nullptr) != H3_OK || id != sides_[0].next_both) return violated(id, "another id of a request");
  sides_[0].next_both = id + 4;
  for (int side = 0; side < 2; side++) {
    if (side) send_head(side, id, {{":status", "200"}});
    else send_head(side, id, {{":method", "POST"}, {":scheme", "https"}, {":authority", "a"}, {":path", "/"}});
    bool is_sent = h3_send_body(end(side), id, "body", 4, nullptr) == H3_OK && h3_finish(end(side), id, nullptr) == H3_OK;
    if (!is_sent) violated(id, "no body is sent");
    carry_own();
    carry(side, id);
    for (uint32_t kind : {H3_HEAD, H3_BODY, H3_END})
      if (item_of(!side, id).kind != kind) violated(id, "another message");
  }
  carry_own();
  counts.requests++;
}

void Program::datagram(int side) {
  uint8_t bytes[20];
  size_t n = 0, from = 0;
  uint64_t id = NOTHING;
  if (sessions_.empty()) return;
  uint64_t session = one_of_all(sessions_);
  if (h3_datagram_head(end(side), session, bytes, 8, &n, nullptr) != H3_OK) return violated(session, "no datagram is sent");
  uint32_t answer = call([&] { return h3_read_datagram(end(!side), bytes, n + 3, &id, &from, nullptr); });
  if (answer != H3_OK || id != session || from != n || lacked_) violated(session, "a datagram does not come", h3_answer_text(answer));
  counts.datagrams++;
}

// of any types and lengths, cut anywhere: each is told as it was written
void Program::capsules() {
  std::string bytes, told, wanted;
  for (uint32_t count = 1 + below(4); count > 0; count--) {
    uint64_t type = below(2) ? 0x2843 : UINT64_C(1) << below(62), length = one_in(3) ? below(300) : below(3);
    std::string head(16, 0), value(length, static_cast<char>(below(256)));
    size_t n = 0;
    if (h3_capsule_head(type, length, &head[0], 16, &n) != H3_OK) violated(0, "h3_capsule_head is refused");
    bytes += head.substr(0, n) + value;
    wanted += "<" + std::to_string(type) + " " + std::to_string(length) + ">" + value + "</>";
  }
  h3_capsule_reader reader = {};
  uint32_t ends = 9;
  for (size_t at = 0, n = 0; at < bytes.size(); at += n) {
    n = 1 + below(static_cast<uint32_t>(std::min<size_t>(bytes.size() - at, below(2) ? 3 : 400)));
    told += capsules_in(reader, bytes.substr(at, n));
  }
  if (told != wanted) violated(0, "other capsules");
  if (h3_capsule_ends(&reader, &ends) != H3_OK || ends != 1) violated(0, "the body may not end after whole capsules");
  counts.capsules++;
}

std::string Program::capsules_in(h3_capsule_reader &reader, std::string piece) {
  std::string told;
  for (;;) {
    h3_capsule capsule = {};
    size_t used = 0;
    if (h3_read_capsule(&reader, piece.data(), piece.size(), &used, &capsule) != H3_OK || used > piece.size()) return "refused";
    if (capsule.part == H3_CAPSULE_PENDING) return told;
    if (capsule.part == H3_CAPSULE_HEAD) told += "<" + std::to_string(capsule.capsule_type) + " " + std::to_string(capsule.length) + ">";
    if (capsule.part == H3_CAPSULE_VALUE) told += piece.substr(0, used);
    if (capsule.part == H3_CAPSULE_END) told += "</>";
    piece.erase(0, used);
  }
}

// All streams of a session end: each is told to the peer by the frames that are asked for.
void Program::close(int side, uint64_t id) {
  Stream &s = streams_[id];
  Half &own = s.halves[side], &in = s.halves[!side];
  if (!is_known(side, id, s)) return;
  // (on a stream that a server opened nothing is sent while its client knows no session of it, which is to be reset, too)
  bool receives = s.opener != side || s.both_ways, sends = has_sender(side, id, s) || (side == 0 && id % 4 == 1);
  uint32_t stop = 9, resets = 9;
  uint32_t answer = call([&] { return h3_close_stream(end(side), id, &stop, &resets, nullptr); });
  if (!answers(id, "h3_close_stream", answer, H3_OK)) {
    if (stop != 9 || resets != 9) violated(id, "a refused call wrote what QUIC is to send");
    return;
  }
  if (stop != (receives && !in.end_came && !in.reset_came)) violated(id, "whether STOP_SENDING is to be sent");
  if (resets != (sends && !own.reset && !own.end_taken)) violated(id, "whether RESET_STREAM is to be sent");
  s.closed[side] = true;
  counts.closed++;
  if (!resets) return;
  own.reset = true;
  own.finished = false;
  own.code = H3_CODE_WEBTRANSPORT_SESSION_GONE;
}

void Program::end_session(int side, bool for_good) {
  if (sessions_.empty()) return;
  uint64_t session = one_of_all(sessions_);
  if (for_good) { // no side opens a stream of it then
    if (h3_finish(end(side), session, nullptr) != H3_OK) violated(session, "a request is not finished");
    carry(side, session);
    sessions_.erase(std::find(sessions_.begin(), sessions_.end(), session));
    over_.push_back(session);
  }
  for (uint64_t id = 0; !h3_next_of_session(end(side), session, id, &id); id++)
    if (streams_.count(id)) close(side, id);
    else violated(id, "it is no stream of a session");
}

// calls for messages: refused, and nothing changes
void Program::wrong_call(int side, uint64_t id) {
  const Stream &s = streams_[id];
  if (!has_sender(side, id, s) && s.opener != side) return;
  uint32_t wanted = id % 4 == 0 && side == 1 && !s.closed[side] ? H3_OUT_OF_ORDER : H3_NOT_OPEN;
  h3_field_size size = {7, 3};
  uint32_t answer = 0;
  if (s.closed[side] && id % 4 == 0 && side == 1) return;
  switch (below(4)) {
    case 0: answer = call([&] { return h3_send_head(end(side), id, &size, nullptr, 1, ":status200", 10, nullptr); }); break;
    case 1: answer = call([&] { return h3_send_body(end(side), id, "x", 1, nullptr); }); break;
    case 2: answer = call([&] { return h3_send_body_of(end(side), id, 7, nullptr); }); break;
    default: size = {1, 0}, answer = call([&] { return h3_send_trailer(end(side), id, &size, nullptr, 1, "a", 1, nullptr); });
  }
  if (answer != H3_MEMORY || !lacked_) answers(id, "a call for messages", answer, wanted);
}

// ---- the steps ----

// what was sent of a stream goes over, and perhaps its end, and is pulled to a pause
void Program::flow(int side, uint64_t id) {
  const Half &own = streams_[id].halves[side];
  bool reads = below(2);
  if (one_in(3)) finish(side, id);
  for (int i = 0; i < 6 && own.came < own.all.size(); i++) {
    take(side, id, 4000);
    reads ? read(!side, id, 4000) : deliver(!side, id, 4000);
  }
  deliver_end(!side, id);
  for (int i = 0; i < 6; i++) pull(!side, id);
}

void Program::step() {
  int side = static_cast<int>(below(2));
  if (sides_[side].fault || sides_[!side].fault) return;
  if (streams_.empty() || one_in(streams_.size() < 12 ? 12 : 60)) return open(side);
  auto found = streams_.begin();
  std::advance(found, below(static_cast<uint32_t>(streams_.size())));
  uint64_t id = found->first;
  size_t piece = 1 + below(below(3) ? 5 : 4000);
  if (found->second.closed[0] && found->second.closed[1]) return void(streams_.erase(found));
  switch (below(32)) {
    case 0: case 1: case 2: send(side, id); break;
    case 3: finish(side, id); break;
    case 4: if (one_in(4)) reset(side, id); break;
    case 5: if (one_in(3)) cancel(side, id); break;
    case 6: if (one_in(3)) close(side, id); break;
    case 7: hold(side, id); break;
    case 8: case 9: case 10: case 11: take(side, id, piece); break;
    case 12: case 13: case 14: deliver(side, id, piece); break;
    case 15: case 16: case 17: read(side, id, piece); break;
    case 18: case 19: case 20: pull(side, id); break;
    case 21: case 22: flow(side, id); break;
    case 23: deliver_end(side, id); break;
    case 24: shows_all(side); break;
    case 25: datagram(side); break;
    case 26: if (one_in(5)) begin_session(); break;
    case 27: if (one_in(5)) request(); else if (one_in(99)) give_notice(); break;
    case 28: wrong_call(side, id); break;
    case 29: take_turn(side); break;
    case 30: if (one_in(9)) end_session(side, below(2)); break;
    default: capsules();
  }
  if (!sides_[side].fault) shows(side, id);
}

void Program::run() {
  counts.programs++;
  if (one_in(5)) open(static_cast<int>(below(2))); // before the settings
  begin_session();
  while (!is_chosen_out() && !is_over_) step();
  for (int side = 0; side < 2 && !is_over_; side++) shows_all(side);
  if (!is_over_) hostile(static_cast<int>(below(2)));
}

} // namespace
#include "session_hostile.h"
#endif
