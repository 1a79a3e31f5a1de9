// Two programs, of a client and of a server, through include/h3.h: each side strict or not, tables of every size, bytes in flight across
// resets, and every twelfth call with an allocation refused. Header sections and trailers are lists, as all of h3.h has them: their names
// are repeated in any order, some are malformed, and some fields are never indexed. Bodies are copied or stay with the caller, and what
// came is delivered and pulled, or read where it lies. Beside these stand the calls of program_beside.h: priorities, GOAWAY, datagrams,
// streams of sessions, and streams that are given up both ways. Which calls are made is chosen by `below`. At each call the clauses of
// what the library promises of a whole connection are checked (docs/MESSAGES.md, of the events that send and pull lists):
//
// - begins: what a side receives of a stream is the beginning of what the other side sent on it, field by field in the order of its lists,
//   with the flags that the sender gave or its choice adds, and byte by byte;
// - ends: the end comes after all of it;
// - accepts: what is in order and within the other side's announced size is sent; or memory was refused, or a strict side names a rule, or
//   a client with a strict connection knows that its server goes away;
// - comes_out: where a pull pauses with nothing left to deliver, all that was sent has come out of a stream that was not given up;
// - no_connection_fault: where both sides are strict, or neither is, the connection has no fault;
// - shows: what h3_stream says is held is at most what came, and h3_next_to_send names the streams on which something waits.
//
// Linked with --wrap for malloc and realloc.
#ifndef PROGRAM_H
#define PROGRAM_H
#include <cstdio>
#include <deque>
#include <map>

#include "program_lists.h"

namespace {

// what is expected of the library
constexpr uint64_t TOO_LONG = 19;            // the h3_malformation of a HEADERS frame above the limit
constexpr uint64_t FRAME_UNEXPECTED = 0x105; // a trailer in a tunnel, which a side that is not strict may send (RFC 9114, section 4.4)

constexpr uint64_t FEW_REQUESTS = 6, MANY_REQUESTS = 80, ALL = 1 << 20;
constexpr int TOLD = 10; // so many violations are told

// ---- a program ----

// what was sent: a list, a byte of content (kind H3_BODY) or of a session (H3_RAW), or the id of a session (H3_SESSION)
struct Part {
  uint32_t kind;
  FieldList list;
  uint8_t byte;
  uint64_t session = 0;
};

struct Priority {
  uint32_t urgency, incremental;
  bool operator==(const Priority &other) const { return urgency == other.urgency && incremental == other.incremental; }
};

// what one side sends on a stream, and what became of it
struct Flow {
  std::vector<Part> sent;
  bool head_sent = false, trailer_sent = false, finished = false, reset = false;
  bool end_told = false;      // h3_end_taken was called for its end
  std::deque<uint8_t> owned;  // of bodies that stay with the caller: what QUIC has not taken
  std::deque<uint8_t> flight; // taken by QUIC, and not delivered
  bool end_in_flight = false, reset_in_flight = false;
  uint64_t code = 0;                 // of the reset
  uint64_t came = 0;                 // so many bytes were delivered
  bool seen = false, closed = false; // at the other side: something came; its end or reset came
  bool reset_came = false, was_kept = false; // kept: bytes were taken, and memory was refused to read them
  bool end_may_have_come = false;    // h3_read had it, and an item came out first, or memory was refused
  size_t out = 0;                    // so many parts came out there
  bool ended = false, given_up = false;
  bool is_held = false;                 // QUIC has no credit for it
  std::vector<Priority> set, of_field;  // the last one counts
  std::vector<Priority> updates;        // what its client said of it
};

struct Side {
  h3_endpoint end = H3_NONE_YET;
  h3_config config;
  std::map<uint64_t, Flow> flows;
  bool has_fault = false;
  std::vector<uint64_t> goaways;  // that it sent
  bool settings_told = false;     // by h3_next_event
  std::vector<uint64_t> goaways_told;
};

struct Counts {
  unsigned long programs = 0, calls = 0, memory_answers = 0, sends = 0, bytes = 0, lists = 0, too_large = 0, ends = 0, came_out = 0,
                malformed = 0, too_long = 0, tunnel_faults = 0, violations = 0, pauses = 0, read_in_place = 0, owned = 0, ends_told = 0,
                priorities = 0, updates = 0, turns = 0, goaways = 0, rejected = 0, late = 0, datagrams = 0, raw = 0, closed_both = 0,
                unblocked = 0, drained = 0;
} counts;

class Program {
 public:
  explicit Program(uint64_t seed);
  ~Program() {
    for (Side &side : sides_) h3_free(&side.end);
  }
  void run();

 private:
  // the clauses
  void begins(int reader, uint64_t id, const h3_item &item);
  void begins_with_list(int reader, uint64_t id, const h3_item &item, const Part &part);
  void begins_with_content(int reader, uint64_t id, const h3_item &item);
  void begins_with_bytes(int reader, uint64_t id, uint32_t kind, const uint8_t *bytes, size_t n);
  void ends(uint64_t id, Flow &flow);
  void accepts(int sender, uint64_t id, uint32_t answer, bool in_order, uint64_t size);
  void comes_out();
  void comes_out_before(int reader, uint64_t id);
  void no_connection_fault(int side, uint64_t code, const char *where);
  void shows(int side, uint64_t id);

  // the calls
  void open_request();
  void send_head(int side, uint64_t id);
  void send_trailer(int side, uint64_t id);
  void send_content(int side, uint64_t id);
  void finish(int side, uint64_t id);
  void reset(int side, uint64_t id);
  void cancel(int side, uint64_t id);
  void take(int side, uint64_t id, size_t most);
  void deliver(int from, uint64_t id, size_t most);
  void deliver_end(int from, uint64_t id);
  void read(int from, uint64_t id, size_t most);
  bool read_next(int from, uint64_t id, size_t &most);
  bool read_item(int side, uint64_t id, const h3_item &item, const uint8_t *bytes, size_t used);
  bool pull(int side, uint64_t id);
  bool came_out(int side, uint64_t id, const h3_item &item);
  void told_of_fault(int side, uint64_t id, const h3_item &item);

  // those beside (program_beside.h)
  void open_request_at();
  void close_both(int side, uint64_t id);
  bool is_rejected(int from, uint64_t id);
  void rejects(uint64_t id);
  void go_away(int side);
  void give_notice(int side);
  void shut_down(int side);
  uint64_t first_unseen(int side);
  bool goes_away();
  void say_priority(int side, uint64_t id);
  void send_priority(uint64_t id);
  void counts_priority(int side, uint64_t id);
  bool priority_of(int side, uint64_t id, Priority &priority);
  void hold(int side, uint64_t id);
  void take_by_priority(int side);
  void is_next(int side, bool is_there, uint64_t id);
  void send_datagram(int side, uint64_t id);
  void send_alone(int side, uint64_t id);
  void shows_events(int side);
  void pull_unblocked(int side);
  void shows_drained(int side);
  void shows_kind(int side, uint64_t id);

  void step();
  void step_on(int side, uint64_t id, uint32_t choice);
  void step_beside(int side, uint64_t id, uint32_t choice);
  void exchange(uint64_t id);
  uint64_t any_request();
  void last_round(int side);
  void all_by_priority(int side);
  void deliver_all(int from, uint64_t id);
  uint32_t give(int side, uint64_t id, const FieldList &list, bool is_trailer);
  bool is_open(int side, uint64_t id);
  bool is_sending(int side, uint64_t id);
  void violated(const char *clause, uint64_t id, const char *more);
  template <class Call>
  uint32_t call(Call made) {
    unsigned long before = allocations_refused;
    counts.calls++;
    refuse_at = one_in(12) ? 1 + below(6) : 0;
    in_library = true;
    uint32_t answer = made();
    in_library = false;
    lacked_ = allocations_refused != before;
    if (answer != H3_MEMORY && answer != H3_KEPT) return answer;
    counts.memory_answers++;
    if (!lacked_) violated("memory", 0, "none was refused");
    return answer;
  }
  Flow &flow(int side, uint64_t id) { return sides_[side].flows[id]; }
  uint64_t waiting(int side, uint64_t id);

  uint64_t seed_, requests_;
  bool is_aimed_, is_alike_, leaves_, lacked_ = false; // leaves_: GOAWAYs are sent; lacked_: memory was refused in the last call
  uint64_t opened_ = 0;
  Side sides_[2]; // the client, the server
};

constexpr uint64_t OWN[2][3] = {{2, 6, 10}, {3, 7, 11}};
constexpr uint64_t ALONE[2][2] = {{14, 18}, {15, 19}}; // unidirectional streams of the caller

// Every second program has both sides strict or neither, every fourth is aimed at early answers, and in the others each side is as it
// likes.
Program::Program(uint64_t seed)
    : seed_(seed), requests_(one_in(10) ? MANY_REQUESTS : FEW_REQUESTS), is_aimed_(seed % 4 == 1), leaves_(one_in(4)) {
  for (int side = 0; side < 2; side++) {
    static const uint64_t tables[] = {0, 100, 220, 4096};
    h3_config &config = sides_[side].config;
    h3_config_default(&config);
    config.server = static_cast<uint64_t>(side);
    config.strict = below(2);
    config.max_field_section_size = one_in(4) ? 65536 : 300 + below(900);
    config.table = one_of(tables);
    config.blocked = below(4);
    config.economical_table = below(2);
    config.count_acknowledgments = below(2);
    config.encoder_table = below(2) ? 4096 : 150;
    config.guard_secrets = below(2);
    config.shortest_strings = below(2);
    config.strict_connection = below(2);
    config.priority_updates = below(2) ? MANY_REQUESTS : below(3);
    config.reject_requests = !one_in(4);
    config.extended_connect = below(2);
    config.send_grease = below(2);
    config.grease = below(1000);
    config.kept_ids = one_in(3) ? UINT64_MAX : below(4);
    config.any_protocol = below(2);
    config.datagram = below(2);
    config.other_settings = below(3);
    config.other_streams = below(2);
    uint64_t least = std::max<uint64_t>(256, 4 * std::max(config.max_field_section_size, config.table));
    config.unfinished_limit = one_in(4) ? UINT64_MAX : one_in(2) ? 0 : least; // the least that is taken
  }
  if (one_in(3)) { // an endpoint that asks for a strict connection takes WebTransport with datagrams alone
    for (Side &side : sides_) side.config.datagram = 1;
    sides_[below(2)].config.webtransport = 1;
    sides_[below(2)].config.webtransport = 1;
  }
  for (Side &side : sides_) { // with the choice of sessions all is as without it
    h3_config &config = side.config;
    config.sessions = config.webtransport && config.datagram && config.extended_connect && seed / 4 % 2;
  }
  if (seed % 4 != 0) sides_[1].config.strict = sides_[0].config.strict;
  is_alike_ = sides_[0].config.strict == sides_[1].config.strict;
  for (Side &side : sides_)
    if (h3_new(&side.end, &side.config, nullptr) != H3_OK) violated("h3_new", 0, "it is refused");
}

void Program::violated(const char *clause, uint64_t id, const char *more) {
  if (++counts.violations > TOLD) return;
  printf("failed programs: seed %llu, stream %llu: %s: %s\n", static_cast<unsigned long long>(seed_), static_cast<unsigned long long>(id),
      clause, more);
  fflush(stdout); // a fuzzer ends here
}

// ---- the clauses ----

void Program::begins_with_list(int reader, uint64_t id, const h3_item &item, const Part &part) {
  uint64_t most = sides_[reader].config.max_field_section_size;
  counts.lists++;
  if (item.kind == H3_TOO_LARGE_HEAD) {
    counts.too_large++;
    if (part.kind == H3_BODY || item.number != size_of(part.list) || item.number <= most)
      violated("begins", id, "too large, and not by its size");
    return;
  }
  if (item.kind != part.kind) return violated("begins", id, "an item of another kind");
  if (size_of(part.list) > most) violated("begins", id, "a list above the announced size");
  std::vector<h3_field_size> sizes(item.fields + 1);
  std::vector<uint8_t> flags(item.fields + 1);
  std::string bytes(size_of(part.list) + 1, 0);
  FieldList came;
  if (item.len && h3_item_fields(&sides_[reader].end, sizes.data(), NULL, sizes.size(), &bytes[0], item.len - 1) != H3_ROOM)
    violated("begins", id, "fields in too little room");
  if (h3_item_fields(&sides_[reader].end, sizes.data(), flags.data(), sizes.size(), &bytes[0], bytes.size()) != H3_OK)
    return violated("begins", id, "no fields");
  for (size_t i = 0, at = 0; i < item.fields; at += sizes[i].name + sizes[i].value, i++)
    came.push_back({bytes.substr(at, sizes[i].name), bytes.substr(at + sizes[i].name, sizes[i].value), flags[i] == H3_NEVER_INDEX});
  if (came != part.list) violated("begins", id, "another list");
}

void Program::begins_with_bytes(int reader, uint64_t id, uint32_t kind, const uint8_t *bytes, size_t n) {
  Flow &sent = flow(!reader, id);
  for (size_t i = 0; i < n; i++, sent.out++) {
    counts.bytes++;
    bool is_next = sent.out < sent.sent.size() && sent.sent[sent.out].kind == kind && sent.sent[sent.out].byte == bytes[i];
    if (!is_next) return violated("begins", id, "other content");
  }
}

// in two pieces, as a caller with a small buffer gets it
void Program::begins_with_content(int reader, uint64_t id, const h3_item &item) {
  std::vector<uint8_t> bytes(item.len + 1);
  size_t first = 0, rest = 0, room = one_in(4) ? below(static_cast<uint32_t>(item.len) + 1) : item.len;
  h3_endpoint *end = &sides_[reader].end;
  if (h3_item_bytes(end, 0, bytes.data(), room, &first) != H3_OK || first != room) violated("begins", id, "no bytes");
  if (h3_item_bytes(end, room, &bytes[room], item.len - room, &rest) != (room < item.len ? H3_OK : H3_NONE) || first + rest != item.len)
    violated("begins", id, "no further bytes");
  if (item.kind == H3_RAW) counts.raw += item.len;
  begins_with_bytes(reader, id, item.kind, bytes.data(), item.len);
}

// an item is what was sent next, and none comes after the end or after a fault of the stream
void Program::begins(int reader, uint64_t id, const h3_item &item) {
  Flow &sent = flow(!reader, id);
  if (sent.given_up || sent.ended) return violated("begins", id, "an item after a fault or the end");
  if (item.kind == H3_BODY || item.kind == H3_RAW) return begins_with_content(reader, id, item);
  if (sent.out == sent.sent.size()) return violated("begins", id, "more than was sent");
  const Part &part = sent.sent[sent.out++];
  if (part.kind != H3_SESSION) return begins_with_list(reader, id, item, part);
  if (item.kind != H3_SESSION || item.number != part.session) violated("begins", id, "another session");
}

void Program::ends(uint64_t id, Flow &sent) {
  if (!sent.ended) counts.ends++;
  sent.ended = true;
  if (sent.out != sent.sent.size() || !sent.finished) violated("ends", id, "the end comes before all that was sent");
}

void Program::accepts(int sender, uint64_t id, uint32_t answer, bool in_order, uint64_t size) {
  if (answer == H3_MEMORY) return;
  if (answer == H3_OK && !in_order) violated("accepts", id, "what is not in order is sent");
  if (!in_order || size > sides_[!sender].config.max_field_section_size) return;
  counts.sends++;
  bool is_judged = answer == H3_MALFORMED && sides_[sender].config.strict;
  if (answer != H3_OK && !is_judged) violated("accepts", id, h3_answer_text(answer));
}

// A pull paused: nothing is left of the stream and of its sender's encoder stream.
void Program::comes_out_before(int reader, uint64_t id) {
  Flow &sent = flow(!reader, id);
  uint64_t encoder = OWN[!reader][1];
  if (sides_[!reader].has_fault || sent.reset || sent.given_up || !sent.flight.empty() || !flow(!reader, encoder).flight.empty()) return;
  if (waiting(!reader, id) || waiting(!reader, encoder)) return;
  counts.pauses++;
  if (sent.out != sent.sent.size()) violated("comes_out", id, "a pull pauses, and not all came out");
}

void Program::comes_out() {
  for (Side &side : sides_)
    for (auto &[id, sent] : side.flows) {
      if (sent.reset || sent.given_up) continue;
      counts.came_out++;
      if (sent.out != sent.sent.size()) violated("comes_out", id, "not all came out");
    }
}

// a side that is not strict may send a trailer into what a strict one takes for a tunnel; there is no other fault
void Program::no_connection_fault(int side, uint64_t code, const char *where) {
  sides_[side].has_fault = true;
  if (!is_alike_ && sides_[side].config.strict && code == FRAME_UNEXPECTED) {
    counts.tunnel_faults++;
    return;
  }
  char told[80];
  snprintf(told, sizeof told, "a %s, code 0x%llx, at a %s side", where, static_cast<unsigned long long>(code),
      sides_[side].config.strict ? "strict" : "plain");
  violated("no_connection_fault", 0, told);
}

void Program::shows(int side, uint64_t id) {
  h3_stream_state stream;
  h3_endpoint *end = &sides_[side].end;
  const Flow &own = flow(side, id);
  if (h3_stream(end, id, &stream) != H3_OK || stream.unread > flow(!side, id).came) violated("shows", id, "more is held than came");
  if (is_open(side, id) && id % 4 == 0 && !own.reset && stream.is_finished != own.finished) violated("shows", id, "is_finished");
  if (is_open(side, id) && id % 4 == 0 && stream.is_reset != own.reset) violated("shows", id, "is_reset");
  uint64_t named = 0;
  bool ends = id % 4 == 0 && own.finished && !own.reset && !own.end_told, is_named = h3_next_to_send(end, id, &named) == H3_OK;
  if ((stream.waiting || ends) != (is_named && named == id)) violated("shows", id, "whether it is to be sent");
  if (!is_named) return;
  uint8_t byte;
  size_t n = 0, past = 0;
  uint32_t fin = 0;
  if (h3_outgoing(end, named, &byte, 1, &n, &past, &fin) != H3_OK || (!n && !past && !fin))
    violated("shows", named, "nothing waits on a stream that is to be sent");
  if (past > flow(side, named).owned.size()) violated("shows", named, "more bytes than the caller holds");
}

uint64_t Program::waiting(int side, uint64_t id) {
  h3_stream_state stream = {};
  if (h3_stream(&sides_[side].end, id, &stream) != H3_OK) violated("shows", id, "no state");
  return stream.waiting;
}

// ---- the calls ----

bool Program::is_open(int side, uint64_t id) {
  if (sides_[side].has_fault) return false;
  return side == 0 ? id < 4 * opened_ : flow(0, id).seen;
}

bool Program::is_sending(int side, uint64_t id) {
  const Flow &own = flow(side, id);
  return is_open(side, id) && !own.finished && !own.reset;
}

void Program::open_request() {
  uint64_t id = 0;
  if (opened_ >= requests_ || sides_[0].has_fault) return;
  bool is_late = goes_away();
  uint32_t answer = call([&] { return h3_open_request(&sides_[0].end, &id, nullptr); });
  if (answer == H3_OK && id != 4 * opened_) violated("accepts", id, "another id than the next");
  if (answer == H3_OK) opened_++;
  if (is_late ? answer != H3_GOING_AWAY : answer != H3_OK && answer != H3_MEMORY) violated("accepts", id, "whether a request is opened");
}

uint32_t Program::give(int side, uint64_t id, const FieldList &list, bool is_trailer) {
  std::vector<h3_field_size> sizes;
  std::vector<uint8_t> flags;
  std::string bytes;
  for (const Field &field : list) {
    flags.push_back(field.never_indexed ? H3_NEVER_INDEX : 0);
    sizes.push_back({static_cast<uint32_t>(field.name.size()), static_cast<uint32_t>(field.value.size())});
    bytes += field.name + field.value;
  }
  auto send = is_trailer ? h3_send_trailer : h3_send_head;
  return call([&] { return send(&sides_[side].end, id, sizes.data(), flags.data(), sizes.size(), bytes.data(), bytes.size(), nullptr); });
}

void Program::send_head(int side, uint64_t id) {
  Flow &own = flow(side, id);
  bool takes_any = sides_[0].config.any_protocol && sides_[1].config.any_protocol;
  FieldList list = random_list(side, false, is_aimed_, takes_any ? "websocket" : "connect-udp");
  bool is_of_side = has(list, side ? ":status" : ":method") && !has(list, side ? ":method" : ":status");
  bool is_late = side == 0 && sides_[0].config.strict_connection && own.sent.empty() && goes_away();
  uint32_t answer = give(side, id, list, false);
  if (is_late) { // RFC 9114, section 5.2
    counts.late++;
    if (answer != H3_GOING_AWAY && is_sending(side, id)) violated("accepts", id, "a request after GOAWAY");
    return;
  }
  accepts(side, id, answer, is_sending(side, id) && !own.head_sent && is_of_side && !has(list, BAD_NAME), size_of(list));
  if (answer != H3_OK) return;
  bool interim = side && is_interim(list);
  own.sent.push_back({interim ? uint32_t{H3_INTERIM} : uint32_t{H3_HEAD}, guarded(sides_[side].config, list), 0});
  if (!interim) own.head_sent = true;
}

void Program::send_trailer(int side, uint64_t id) {
  Flow &own = flow(side, id);
  FieldList list = random_list(side, true, is_aimed_, "");
  uint32_t answer = give(side, id, list, true);
  bool is_next = own.head_sent && !own.trailer_sent;
  accepts(side, id, answer, is_sending(side, id) && is_next && !has_pseudo_field(list) && !has(list, BAD_NAME), size_of(list));
  if (answer != H3_OK) return;
  own.sent.push_back({H3_TRAILER, guarded(sides_[side].config, list), 0});
  own.trailer_sent = true;
}

void Program::send_content(int side, uint64_t id) {
  Flow &own = flow(side, id);
  h3_endpoint *end = &sides_[side].end;
  std::string bytes(below(9), static_cast<char>('a' + below(26)));
  bool stays = one_in(3); // with the caller
  uint32_t answer = call([&] {
    return stays ? h3_send_body_of(end, id, bytes.size(), nullptr) : h3_send_body(end, id, bytes.data(), bytes.size(), nullptr);
  });
  accepts(side, id, answer, is_sending(side, id) && own.head_sent && !own.trailer_sent, 0);
  if (answer != H3_OK) return;
  for (char byte : bytes) own.sent.push_back({H3_BODY, {}, static_cast<uint8_t>(byte)});
  if (stays) own.owned.insert(own.owned.end(), bytes.begin(), bytes.end());
}

void Program::finish(int side, uint64_t id) {
  Flow &own = flow(side, id);
  uint32_t answer = call([&] { return h3_finish(&sides_[side].end, id, nullptr); });
  accepts(side, id, answer, is_sending(side, id) && own.head_sent, 0);
  if (answer == H3_OK) own.finished = true;
}

void Program::reset(int side, uint64_t id) {
  Flow &own = flow(side, id);
  if (call([&] { return h3_reset(&sides_[side].end, id, nullptr); }) != H3_OK) return;
  own.reset = own.reset_in_flight = true;
  own.end_in_flight = false;
  own.owned.clear();
  own.code = 0x100 + below(20);
}

void Program::cancel(int side, uint64_t id) {
  if (call([&] { return h3_cancel(&sides_[side].end, id, nullptr); }) == H3_OK) flow(!side, id).given_up = true;
}

// QUIC takes some bytes, those that stay with the caller too, and the end after the last
void Program::take(int side, uint64_t id, size_t most) {
  Flow &own = flow(side, id);
  h3_endpoint *end = &sides_[side].end;
  size_t n = 0, past = 0;
  uint32_t fin = 0;
  uint64_t before = waiting(side, id);
  std::vector<uint8_t> bytes(std::min<size_t>(most, before) + 1);
  if (h3_outgoing(end, id, bytes.data(), bytes.size() - 1, &n, &past, &fin) != H3_OK || (!n && !past && !fin)) return;
  if (past > own.owned.size()) return violated("accepts", id, "more bytes than the caller holds");
  size_t count = most == ALL ? n + past : std::min(most, n + past), of_caller = count > n ? count - n : 0;
  if (h3_advance(end, id, count) != H3_OK || waiting(side, id) != before - count) violated("accepts", id, "h3_advance is refused");
  counts.owned += of_caller;
  own.flight.insert(own.flight.end(), bytes.begin(), bytes.begin() + static_cast<long>(std::min(n, count)));
  own.flight.insert(own.flight.end(), own.owned.begin(), own.owned.begin() + static_cast<long>(of_caller));
  own.owned.erase(own.owned.begin(), own.owned.begin() + static_cast<long>(of_caller));
  if (!fin || count != n + past || own.reset) return;
  own.end_in_flight = true;
  if (most != ALL && one_in(3)) return; // it is said later
  counts.ends_told += !own.end_told;
  if (h3_end_taken(end, id) != (own.end_told ? H3_NONE : H3_OK)) violated("accepts", id, "h3_end_taken is refused");
  own.end_told = true;
}

void Program::deliver(int from, uint64_t id, size_t most) {
  Flow &sent = flow(from, id);
  size_t n = std::min(most, sent.flight.size());
  if (sides_[!from].has_fault || sent.closed || !n) return;
  std::vector<uint8_t> bytes(sent.flight.begin(), sent.flight.begin() + static_cast<long>(n));
  uint64_t code = 0;
  bool goes_unread = is_rejected(from, id);
  uint32_t answer = call([&] { return h3_deliver(&sides_[!from].end, id, bytes.data(), n, &code); });
  if (goes_unread != (answer == H3_REJECTED)) violated("accepts", id, "whether a request is rejected");
  if (answer == H3_REJECTED) return rejects(id);
  if (answer == H3_MEMORY) return;
  if (answer == H3_CONNECTION) return no_connection_fault(!from, code, "delivery");
  if (answer != H3_OK && answer != H3_KEPT) return violated("accepts", id, "a delivery is refused");
  sent.was_kept = sent.was_kept || answer == H3_KEPT;
  sent.flight.erase(sent.flight.begin(), sent.flight.begin() + static_cast<long>(n));
  sent.seen = true;
  sent.came += n;
}

// The end, or the reset, which may overtake what is in flight. A server knows no stream of which nothing came but an end.
void Program::deliver_end(int from, uint64_t id) {
  Flow &sent = flow(from, id);
  h3_endpoint *to = &sides_[!from].end;
  if (sides_[!from].has_fault || sent.closed) return;
  if (!sent.reset_in_flight && !(sent.end_in_flight && sent.flight.empty())) return;
  bool goes_unread = is_rejected(from, id);
  uint32_t answer =
      call([&] { return sent.reset_in_flight ? h3_deliver_reset(to, id, sent.code, nullptr) : h3_deliver_end(to, id, nullptr); });
  if (goes_unread != (answer == H3_REJECTED)) violated("accepts", id, "whether a request is rejected");
  if (answer == H3_REJECTED) return rejects(id);
  if (answer == H3_MEMORY || answer == H3_NOT_OPEN) return;
  bool is_second = answer == H3_AFTER_END && sent.end_may_have_come;
  if (answer != H3_OK && answer != H3_KEPT && !is_second) return violated("accepts", id, "an end is refused");
  sent.closed = sent.seen = true;
  sent.reset_came = sent.reset_in_flight && !is_second;
}

// Bytes come, and with the last of them perhaps the end: they are read to a pause, the end or a fault.
void Program::read(int from, uint64_t id, size_t most) {
  const Flow &sent = flow(from, id);
  if (sent.closed || sides_[!from].has_fault || (sent.flight.empty() && !sent.end_in_flight)) return;
  while (read_next(from, id, most)) {
  }
}

// The next item of these, which lie in a block that is overwritten and freed as soon as the call returns; whether another may follow.
bool Program::read_next(int from, uint64_t id, size_t &most) {
  Flow &sent = flow(from, id);
  size_t n = std::min(most, sent.flight.size()), used = 0;
  bool is_last = sent.end_in_flight && n == sent.flight.size(), goes_unread = is_rejected(from, id) && (n || is_last);
  std::vector<uint8_t> taken(sent.flight.begin(), sent.flight.begin() + static_cast<long>(n)), block = taken;
  h3_item item = {};
  uint64_t code = 0;
  uint32_t answer = call([&] { return h3_read(&sides_[!from].end, id, block.data(), n, is_last, &used, &item, &code); });
  std::fill(block.begin(), block.end(), 0xee);
  if (used > n) return violated("accepts", id, "more is read than came"), false;
  sent.flight.erase(sent.flight.begin(), sent.flight.begin() + static_cast<long>(used));
  sent.came += used;
  most -= used;
  if (goes_unread != (answer == H3_REJECTED)) violated("accepts", id, "whether a request is rejected");
  if (answer == H3_REJECTED) return rejects(id), false;
  if (used) sent.seen = true;
  if (answer == H3_CONNECTION) return no_connection_fault(!from, code, "read"), false;
  if (answer == H3_NOT_OPEN && !n) return false; // nothing came but an end
  if (answer == H3_AFTER_END && sent.end_may_have_come) return sent.closed = true, false;
  sent.end_may_have_come = sent.end_may_have_come || is_last;
  sent.was_kept = sent.was_kept || answer == H3_KEPT;
  if (answer == H3_MEMORY || answer == H3_KEPT) return below(2);
  if (answer != H3_OK) return violated("accepts", id, "a read is refused"), false;
  bool goes_on = read_item(!from, id, item, taken.data(), used);
  if (!goes_on && is_last && used == n && item.kind != H3_FAULT_MEMORY) sent.closed = true;
  return goes_on;
}

bool Program::read_item(int side, uint64_t id, const h3_item &item, const uint8_t *bytes, size_t used) {
  if (item.kind != H3_BODY_GIVEN) {
    came_out(side, id, item);
    return item.kind < H3_END;
  }
  Flow &sent = flow(!side, id);
  counts.read_in_place++;
  if (!item.len || item.number + item.len > used) return violated("begins", id, "a piece beside the bytes that were given"), false;
  if (sent.given_up || sent.ended) return violated("begins", id, "a piece after a fault or the end"), false;
  begins_with_bytes(side, id, H3_BODY, bytes + item.number, item.len);
  return true;
}

void Program::told_of_fault(int side, uint64_t id, const h3_item &item) {
  Flow &sent = flow(!side, id);
  if (item.kind == H3_FAULT_RESET && (!sent.reset || item.number != sent.code)) violated("begins", id, "a reset that was not sent");
  if (item.kind == H3_FAULT_CANCELED && !sent.given_up) violated("begins", id, "a cancellation that was not made");
  if (item.kind == H3_FAULT_MALFORMED && !sent.given_up) {
    counts.malformed++;
    bool is_too_long = item.number == TOO_LONG;
    if (is_too_long) counts.too_long++;
    uint64_t most = sides_[side].config.max_field_section_size;
    if (is_too_long && (sent.out == sent.sent.size() || size_of(sent.sent[sent.out].list) <= most))
      violated("begins", id, "a list that is taken is too long");
    if (!is_too_long && !sides_[side].config.strict && item.number != H3_NO_HEAD)
      violated("begins", id, "malformed at a side that is not strict");
  }
  sent.given_up = true;
}

// whether it pauses
bool Program::pull(int side, uint64_t id) {
  h3_item item = {};
  h3_endpoint *end = &sides_[side].end;
  if (sides_[side].has_fault) return true;
  if (call([&] { return h3_pull(end, id, &item); }) != H3_OK) violated("begins", id, "a pull is refused");
  return came_out(side, id, item);
}

bool Program::came_out(int side, uint64_t id, const h3_item &item) {
  switch (item.kind) {
    case H3_FAULT_MEMORY:
      counts.memory_answers++;
      if (!lacked_) violated("memory", id, "none was refused in a pull");
      return false;
    case H3_FAULT_CONNECTION: no_connection_fault(side, item.number, "pull"); return true;
    case H3_FAULT_MALFORMED:
    case H3_FAULT_RESET:
    case H3_FAULT_CANCELED: told_of_fault(side, id, item); return false;
    case H3_PENDING:
    case H3_WAITING:
    case H3_NO_MESSAGES: comes_out_before(side, id); return true;
    case H3_END: ends(id, flow(!side, id)); return false;
    default: begins(side, id, item); return false;
  }
}

// ---- the steps ----

void Program::step_on(int side, uint64_t id, uint32_t choice) {
  size_t piece = 1 + below(below(2) ? 8 : 400);
  switch (choice) {
    case 0:
    case 1: return send_head(side, id);
    case 2:
    case 3: return send_content(side, id);
    case 4: return send_trailer(side, id);
    case 5: return finish(side, id);
    case 6: return one_in(5) ? reset(side, id) : void();
    case 7: return one_in(5) ? cancel(side, id) : void();
    case 8: return deliver_end(side, id);
    case 9:
    case 10: return take(side, below(2) ? OWN[side][below(3)] : id, piece);
    case 11: return deliver(side, below(2) ? OWN[side][below(3)] : id, piece);
    case 12: return read(side, below(2) ? OWN[side][below(3)] : id, piece);
    default: pull(side, id);
  }
}

void Program::step_beside(int side, uint64_t id, uint32_t choice) {
  uint64_t alone = one_of(ALONE[side]);
  switch (choice) {
    case 0: return say_priority(side, id);
    case 1: send_priority(id); [[fallthrough]];
    case 2:
      if (below(2)) deliver_all(0, OWN[0][0]); // the updates come
      return counts_priority(below(2), id);
    case 3: return hold(side, one_in(4) ? OWN[side][below(3)] : id);
    case 4:
    case 5: return take_by_priority(side);
    case 6: return send_datagram(side, id);
    case 7: return send_alone(side, alone);
    case 8: return below(2) ? deliver(side, alone, 1 + below(9)) : read(side, alone, 1 + below(9));
    case 9: return pull(!side, alone), deliver_end(side, alone);
    case 10: return shows_kind(side, below(2) ? alone : OWN[side][below(3)]);
    case 11: return shows_events(side);
    case 12: return pull_unblocked(side);
    case 13: return shows_drained(side);
    case 14: return one_in(6) ? close_both(side, id) : void();
    case 15: return open_request_at();
    case 16: return exchange(id);
    default: break;
  }
  if (!leaves_ || !one_in(6)) return;
  return below(3) ? below(2) ? give_notice(side) : shut_down(side) : go_away(side);
}

// a whole message both ways, as far as it is accepted, and what its client says of the response
void Program::exchange(uint64_t id) {
  for (int side = 0; side < 2; side++) {
    send_head(side, id);
    send_content(side, id);
    finish(side, id);
    bool is_blocked = below(2); // the insertions come behind
    if (!is_blocked) deliver_all(side, OWN[side][1]);
    deliver_all(side, id);
    deliver_end(side, id);
    for (int i = 0; i < 8 && !pull(!side, id); i++) {
    }
    if (is_blocked) deliver_all(side, OWN[side][1]);
    pull_unblocked(!side);
    if (side == 1 || !one_in(3)) continue;
    send_priority(id);
    deliver_all(0, OWN[0][0]);
    counts_priority(1, id);
  }
}

// mostly one of the last
uint64_t Program::any_request() {
  uint64_t count = one_in(3) ? opened_ : std::min<uint64_t>(opened_, FEW_REQUESTS);
  return 4 * (opened_ - 1 - below(static_cast<uint32_t>(count)));
}

void Program::step() {
  int side = static_cast<int>(below(2));
  if (one_in(requests_ == FEW_REQUESTS ? 16 : 5) || !opened_) return open_request();
  if (sides_[side].has_fault) return;
  uint64_t id = any_request();
  one_in(4) ? step_beside(side, id, below(18)) : step_on(side, id, below(15));
  if (!sides_[side].has_fault) shows(side, one_in(4) ? OWN[!side][below(3)] : id);
}

void Program::deliver_all(int from, uint64_t id) {
  bool reads = below(2);
  for (int i = 0; i < 20 && (waiting(from, id) || !i); i++) take(from, id, ALL); // a piece for each body that stays with the caller
  for (int i = 0; i < 40 && !flow(from, id).flight.empty(); i++) // memory may be refused
    reads ? read(from, id, ALL) : deliver(from, id, ALL);
}

// all that waits of a side goes over, and is pulled until it pauses
void Program::last_round(int side) {
  std::vector<uint64_t> ids(ALONE[side], ALONE[side] + 2);
  for (uint64_t id = 0; id < 4 * opened_; id += 4) ids.push_back(id);
  for (uint64_t id : OWN[side]) deliver_all(side, id);
  for (uint64_t id : ids) {
    deliver_all(side, id);
    for (int i = 0; i < 20 && !flow(side, id).closed; i++) deliver_end(side, id);
  }
  for (uint64_t id : ids)
    for (int pauses = 0; pauses < 4 && !flow(side, id).given_up && !flow(side, id).ended;) pauses += pull(!side, id);
}

// all of a side goes out in the order of priorities, once QUIC has credit for each stream
void Program::all_by_priority(int side) {
  h3_endpoint *end = &sides_[side].end;
  for (auto &it : sides_[side].flows)
    for (int i = 0; i < 20 && it.second.is_held; i++) // memory may be refused
      it.second.is_held = call([&] { return h3_hold(end, it.first, 0, nullptr); }) != H3_OK;
  for (int turns = 0; turns < 20000; turns++) {
    uint64_t id = 0;
    if (h3_next_by_priority(end, &id) != H3_OK) break;
    take(side, id, ALL);
  }
  uint64_t left = 0;
  if (h3_next_to_send(end, 0, &left) != H3_NONE) violated("comes_out", left, "it has no turn");
}

void Program::run() {
  counts.programs++;
  if (below(2))
    for (int side = 0; side < 2; side++) deliver_all(side, OWN[side][0]);
  while (!is_chosen_out()) step();
  for (int side = 0; side < 2; side++)
    if (below(2) && !sides_[side].has_fault) all_by_priority(side);
  for (int round = 0; round < 4; round++)
    for (int side = 0; side < 2; side++) last_round(side);
  if (!sides_[0].has_fault && !sides_[1].has_fault) comes_out();
}

} // namespace
#include "program_beside.h"
#endif
