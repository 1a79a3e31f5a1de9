// The calls of random programs (program.h) beside those of messages. What they promise by themselves is checked too:
//
// - priorities: a stream's is the one that was set, else that of an update, of its request, or the default; the stream that sends next is
//   not held, comes after the local control, encoder and decoder stream, none that waits is more urgent, and of those that are not
//   incremental it is the first;
// - GOAWAY: of requests from the last one on of which nothing came a server that asks for it takes nothing, and of all others everything;
// - an event is reported once; a stream that is unblocked does not wait; an end that is drained has nothing left to do.
#ifndef PROGRAM_BESIDE_H
#define PROGRAM_BESIDE_H
#include "program.h"

namespace {

// ---- streams ----

// by the id that QUIC gave: those below it are opened too
void Program::open_request_at() {
  uint64_t id = 4 * (opened_ + below(3)), next = 0;
  if (one_in(6)) id = 4 * below(static_cast<uint32_t>(opened_) + 1);
  h3_endpoint *end = &sides_[0].end;
  if (id >= 4 * requests_ || sides_[0].has_fault) return;
  bool is_late = goes_away(), is_past = id < 4 * opened_;
  uint32_t answer = call([&] { return h3_open_request_at(end, id, nullptr); });
  if (is_late) {
    if (answer != H3_GOING_AWAY) violated("accepts", id, "a request is opened after GOAWAY");
    return;
  }
  if (is_past != (answer == H3_OUT_OF_ORDER)) violated("accepts", id, "whether an id is past");
  if (answer != H3_OK && answer != H3_MEMORY && !is_past) violated("accepts", id, "an id is refused");
  if (h3_next_request_id(end, &next, nullptr) != H3_OK) return violated("accepts", id, "there is no next id");
  if (next < 4 * opened_ || (answer == H3_OK && next != id + 4)) violated("accepts", next, "another id than the next");
  opened_ = next / 4;
}

// a stream is given up both ways
void Program::close_both(int side, uint64_t id) {
  Flow &own = flow(side, id), &peer = flow(!side, id);
  bool is_sent = own.finished && !waiting(side, id); // the end is left at most
  uint32_t stop = 9, reset = 9;
  if (call([&] { return h3_close_stream(&sides_[side].end, id, &stop, &reset, nullptr); }) != H3_OK) {
    if (stop != 9 || reset != 9) violated("accepts", id, "a refused call wrote what QUIC is to send");
    return;
  }
  counts.closed_both++;
  if (stop > 1 || reset > 1 || !is_open(side, id)) violated("accepts", id, "what QUIC is to send of a stream that is closed");
  if (stop && peer.closed) violated("accepts", id, "STOP_SENDING after the end came");
  if (!stop && !peer.closed && !peer.end_may_have_come && !peer.given_up) violated("accepts", id, "no STOP_SENDING, and more may come");
  if (reset == (own.reset || is_sent)) violated("accepts", id, "whether RESET_STREAM is to be sent");
  if (!peer.ended) peer.given_up = true; // what came of it too
  if (!reset) return;
  own.reset = own.reset_in_flight = true;
  own.end_in_flight = false;
  own.owned.clear();
  own.code = 0x200 + below(20);
}

// ---- GOAWAY ----

// it came to the client
bool Program::goes_away() {
  h3_state state = {};
  if (h3_connection(&sides_[0].end, &state) != H3_OK) violated("shows", 0, "no state");
  return state.has_goaway;
}

// Does a delivery from this side bring a request that its server does not take (RFC 9114, section 5.2)?
bool Program::is_rejected(int from, uint64_t id) {
  const Side &server = sides_[1];
  if (from != 0 || id % 4 || !server.config.reject_requests || server.goaways.empty()) return false;
  return id >= server.goaways.back() && !flow(0, id).seen;
}

// QUIC ends the stream of a request that is rejected both ways
void Program::rejects(uint64_t id) {
  Flow &request = flow(0, id), &response = flow(1, id);
  counts.rejected++;
  request.flight.clear();
  request.closed = request.given_up = true;
  response.reset = response.reset_in_flight = true;
  response.code = H3_CODE_REQUEST_REJECTED;
  if (below(2)) reset(0, id);
}

void Program::go_away(int side) {
  Side &own = sides_[side];
  uint64_t id = side ? 4 * below(static_cast<uint32_t>(opened_) + 3) : below(9);
  bool is_raised = !own.goaways.empty() && id > own.goaways.back();
  uint32_t answer = call([&] { return h3_goaway(&own.end, id, nullptr); });
  if (is_raised != (answer == H3_RAISED)) violated("goaway", id, "whether an id is raised");
  if (answer != H3_OK && answer != H3_MEMORY && !is_raised) violated("goaway", id, "it is refused");
  if (answer != H3_OK) return;
  counts.goaways++;
  own.goaways.push_back(id);
}

void Program::give_notice(int side) {
  Side &own = sides_[side];
  uint32_t answer = call([&] { return h3_shutdown_notice(&own.end, nullptr); });
  if (answer != H3_OK && answer != H3_MEMORY) violated("goaway", 0, "a notice is refused");
  if (answer != H3_OK || !own.goaways.empty()) return;
  counts.goaways++;
  own.goaways.push_back((UINT64_C(1) << 62) - (side ? 4 : 1));
}

// the first id above all of which anything came; at a client above all that were opened
uint64_t Program::first_unseen(int side) {
  uint64_t wanted = side ? 0 : 4 * opened_, id = 1;
  for (auto &[stream, sent] : sides_[0].flows)
    if (side && stream % 4 == 0 && sent.seen) wanted = std::max(wanted, stream + 4);
  if (h3_first_unseen(&sides_[side].end, &id) != H3_OK || id != wanted) violated("goaway", id, "another id is the first unseen");
  return wanted;
}

void Program::shut_down(int side) {
  Side &own = sides_[side];
  uint64_t id = side ? first_unseen(side) : 0;
  uint32_t answer = call([&] { return h3_shutdown(&own.end, nullptr); });
  if (answer != H3_OK && answer != H3_MEMORY) violated("goaway", id, "to shut down is refused");
  if (answer != H3_OK || (!own.goaways.empty() && own.goaways.back() <= id)) return;
  counts.goaways++;
  own.goaways.push_back(id);
}

// ---- priorities ----

void Program::say_priority(int side, uint64_t id) {
  Priority said = {below(8), below(2)};
  bool is_field = below(2);
  auto say = is_field ? h3_set_initial_priority : h3_set_priority;
  uint32_t answer = call([&] { return say(&sides_[side].end, id, said.urgency, said.incremental, nullptr); });
  if (answer == H3_MEMORY) return;
  if (answer != (is_open(side, id) ? H3_OK : H3_NOT_OPEN)) violated("priorities", id, h3_answer_text(answer));
  if (answer != H3_OK) return;
  counts.priorities++;
  (is_field ? flow(side, id).of_field : flow(side, id).set).push_back(said);
}

void Program::send_priority(uint64_t id) {
  Priority said = {below(8), below(2)};
  const Flow &response = flow(1, id);
  uint32_t answer = call([&] { return h3_send_priority(&sides_[0].end, id, said.urgency, said.incremental, nullptr); });
  if (sides_[0].has_fault || answer == H3_MEMORY) return;
  bool is_over = response.ended || response.given_up, may_be_over = is_over || response.closed || response.end_may_have_come;
  if (answer == H3_ENDED ? !may_be_over : answer != H3_OK) violated("priorities", id, h3_answer_text(answer));
  if (answer != H3_OK) return;
  if (is_over) violated("priorities", id, "an update of a response that came");
  counts.priorities++;
  flow(1, id).updates.push_back(said);
}

bool Program::priority_of(int side, uint64_t id, Priority &priority) {
  return h3_priority(&sides_[side].end, id, &priority.urgency, &priority.incremental) == H3_OK;
}

// What updates said counts once they came, if their server keeps them: the last one, if it keeps as many as there are streams, and on a
// stream that is not sent off. Else it is any of them, or none.
void Program::counts_priority(int side, uint64_t id) {
  Priority counted = {9, 9};
  const Flow &own = flow(side, id), &control = flow(0, OWN[0][0]);
  if (sides_[side].has_fault) return;
  if (priority_of(side, id, counted) != is_open(side, id)) return violated("priorities", id, "whether there is one");
  if (!is_open(side, id)) return;
  Priority wanted = !own.set.empty() ? own.set.back() : !own.of_field.empty() ? own.of_field.back() : Priority{3, 0};
  bool is_updated = side == 1 && sides_[1].config.priority_updates && own.set.empty() && !own.updates.empty();
  bool is_known = control.flight.empty() && !control.was_kept && !waiting(0, OWN[0][0]) && !own.finished && !own.reset;
  if (is_updated && is_known && sides_[1].config.priority_updates == MANY_REQUESTS) {
    counts.updates++;
    wanted = own.updates.back();
    is_updated = false;
  }
  if (counted == wanted) return;
  if (!is_updated || std::find(own.updates.begin(), own.updates.end(), counted) == own.updates.end())
    violated("priorities", id, "another one counts");
}

void Program::hold(int side, uint64_t id) {
  uint32_t held = below(2);
  bool is_there = id % 4 != 0 || is_open(side, id);
  uint32_t answer = call([&] { return h3_hold(&sides_[side].end, id, held, nullptr); });
  if (answer == H3_MEMORY) return;
  if (answer != (is_there ? H3_OK : H3_NOT_OPEN)) violated("priorities", id, h3_answer_text(answer));
  if (answer == H3_OK) flow(side, id).is_held = held;
}

// The stream that sends next is this one, or there is none: of those that wait and are not held.
void Program::is_next(int side, bool is_there, uint64_t id) {
  h3_endpoint *end = &sides_[side].end;
  Priority counted = {9, 9}, other = {9, 9};
  bool is_own = id % 4 != 0, waits = false;
  if (is_there && !is_own && !priority_of(side, id, counted)) return violated("priorities", id, "a stream without one sends next");
  for (uint64_t next = 0; h3_next_to_send(end, next, &next) == H3_OK; next++) {
    if (is_there && next == id) waits = true;
    if (flow(side, next).is_held || (is_there && next == id)) continue;
    if (!is_there) return violated("priorities", next, "it waits, and none sends next");
    bool goes_before = next % 4 != 0 ? !is_own || next < id : !is_own && priority_of(side, next, other) && other.urgency < counted.urgency;
    bool is_first = next % 4 == 0 && other.urgency == counted.urgency && !other.incremental && !counted.incremental && next < id;
    if (goes_before || (!is_own && is_first)) return violated("priorities", id, "another stream goes before the one that sends next");
  }
  if (is_there && (!waits || flow(side, id).is_held)) violated("priorities", id, "it sends next, and does not wait or is held");
}

void Program::take_by_priority(int side) {
  uint64_t id = 0;
  uint32_t answer = call([&] { return h3_next_by_priority(&sides_[side].end, &id); });
  if (answer != H3_OK && answer != H3_NONE) return violated("priorities", id, h3_answer_text(answer));
  if (!lacked_) is_next(side, answer == H3_OK, id); // what an update said may count for the next call alone
  if (answer != H3_OK) return;
  counts.turns++;
  take(side, id, one_in(4) ? ALL : 1 + below(200));
  if (one_in(5)) hold(side, id);
}

// ---- datagrams, and streams of the caller ----

void Program::send_datagram(int side, uint64_t id) {
  uint8_t bytes[16];
  size_t n = 0, from = 0;
  uint64_t to = 1, code = 0;
  bool is_announced = sides_[0].config.datagram && sides_[1].config.datagram, knows = sides_[side].settings_told;
  uint32_t answer = call([&] { return h3_datagram_head(&sides_[side].end, id, bytes, 8, &n, nullptr); });
  if (answer == H3_OK && (!is_announced || !is_sending(side, id))) violated("datagrams", id, "one is sent");
  if (answer != H3_OK && is_announced && knows && is_sending(side, id)) violated("datagrams", id, h3_answer_text(answer));
  if (answer != H3_OK || sides_[!side].has_fault) return;
  counts.datagrams++;
  uint32_t told = call([&] { return h3_read_datagram(&sides_[!side].end, bytes, n + below(8), &to, &from, &code); });
  if (told == H3_CONNECTION) return no_connection_fault(!side, code, "datagram");
  if (told != H3_OK && told != H3_NOT_OPEN && told != H3_AFTER_END) violated("datagrams", id, h3_answer_text(told));
  if (told == H3_OK && (to != id || from != n || !is_open(!side, id))) violated("datagrams", id, "it comes to another stream");
}

// a stream that the caller opens by itself: of a WebTransport session (0x54), or of a type that is known to nobody (0x21)
void Program::send_alone(int side, uint64_t id) {
  Flow &own = flow(side, id);
  const h3_config &reader = sides_[!side].config;
  bool knows_sessions = reader.webtransport || !reader.strict_connection, is_session = id == ALONE[side][0];
  if (own.finished || own.reset) return;
  if (!own.head_sent) {
    uint8_t session = static_cast<uint8_t>(4 * below(FEW_REQUESTS));
    own.head_sent = true;
    if (!is_session) return own.flight.push_back(0x21);
    for (uint8_t byte : {uint8_t{0x40}, uint8_t{0x54}, session}) own.flight.push_back(byte);
    if (knows_sessions) own.sent.push_back({H3_SESSION, {}, 0, session});
    return;
  }
  for (uint32_t count = below(9); count > 0; count--) {
    own.flight.push_back(static_cast<uint8_t>(below(256)));
    if (is_session && knows_sessions) own.sent.push_back({H3_RAW, {}, own.flight.back()});
  }
  if (one_in(6)) own.finished = own.end_in_flight = true;
  if (!one_in(12)) return;
  own.reset = own.reset_in_flight = true;
  own.code = 0x300 + below(20);
}

// the type of a stream, once its first bytes came
void Program::shows_kind(int side, uint64_t id) {
  const Flow &sent = flow(side, id);
  const h3_config &reader = sides_[!side].config;
  uint32_t type = 9, wanted = H3_STREAM_UNTOLD;
  if (sides_[!side].has_fault || h3_stream_kind(&sides_[!side].end, id, &type) != H3_OK) return;
  for (uint32_t i = 0; i < 3; i++)
    if (id == OWN[side][i] && sent.came) wanted = H3_STREAM_CONTROL + i;
  if (id == ALONE[side][1] && sent.came) wanted = H3_STREAM_UNKNOWN;
  bool knows_sessions = reader.webtransport || !reader.strict_connection;
  if (id == ALONE[side][0] && sent.came > 2) wanted = knows_sessions ? H3_STREAM_SESSION : H3_STREAM_UNKNOWN; // the session's id too
  if (type != wanted && !(type == H3_STREAM_UNTOLD && sent.was_kept)) violated("shows", id, "a stream of another type");
}

// ---- what is reported ----

// each event once: the settings first, and then the last GOAWAY that came
void Program::shows_events(int side) {
  Side &own = sides_[side];
  const Side &peer = sides_[!side];
  h3_state state = {};
  uint32_t kind = 0;
  uint64_t number = 0;
  for (int i = 0; i < 4 && h3_next_event(&own.end, &kind, &number) == H3_OK; i++) {
    bool is_first = kind == H3_EVENT_SETTINGS;
    if (is_first ? own.settings_told || number : kind != H3_EVENT_GOAWAY || !own.settings_told) violated("shows", number, "another event");
    if (is_first)
      own.settings_told = true;
    else if (!own.goaways_told.empty() && number >= own.goaways_told.back())
      violated("shows", number, "a GOAWAY is reported twice");
    else
      own.goaways_told.push_back(number);
    if (!is_first && std::find(peer.goaways.begin(), peer.goaways.end(), number) == peer.goaways.end())
      violated("shows", number, "a GOAWAY that was not sent");
  }
  if (h3_connection(&own.end, &state) != H3_OK || state.has_settings != own.settings_told)
    violated("shows", 0, "settings without an event");
  if (state.has_goaway ? own.goaways_told.empty() || state.goaway != own.goaways_told.back() : !own.goaways_told.empty())
    violated("shows", state.goaway, "GOAWAY without an event");
}

void Program::pull_unblocked(int side) {
  h3_endpoint *end = &sides_[side].end;
  for (uint64_t id = 0; !sides_[side].has_fault && h3_next_unblocked(end, id, &id) == H3_OK; id++) {
    h3_item item = {};
    counts.unblocked++;
    if (h3_pull(end, id, &item) != H3_OK || item.kind == H3_WAITING) violated("shows", id, "it is unblocked, and waits");
    lacked_ = false;
    came_out(side, id, item);
  }
}

// nothing is left to be done
void Program::shows_drained(int side) {
  Side &own = sides_[side];
  uint32_t drained = 9;
  first_unseen(side);
  if (h3_is_drained(&own.end, &drained) != H3_OK || drained > 1) return violated("goaway", 0, "whether it is drained");
  if (!drained) return;
  counts.drained++;
  if (waiting(side, OWN[side][0])) violated("goaway", 0, "drained, and the control stream waits");
  if (side == 0 ? !goes_away() : own.goaways.empty()) violated("goaway", 0, "drained before GOAWAY");
  for (uint64_t id = 0; id < 4 * opened_; id += 4) {
    const Flow &sent = flow(side, id), &peer = flow(!side, id);
    if (side == 1 && !flow(0, id).seen && own.goaways.back() > id) violated("goaway", id, "drained, and a request is to come");
    if (!is_open(side, id)) continue;
    if (!sent.reset && !sent.end_told) violated("goaway", id, "drained, and something is to be sent");
    if (!peer.ended && !peer.given_up && !peer.reset_came) violated("goaway", id, "drained, and something is to be pulled");
  }
}

} // namespace
#endif
