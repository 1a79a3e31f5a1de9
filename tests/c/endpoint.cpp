/* h3.hpp: two endpoints in one program, with the bytes between them carried by hand. What one side sends is what the other receives, an
 * endpoint is freed once, and refusals keep their answers and details. Prints one line 'ok NAME', and ends with status 1 at the first thing
 * that is otherwise. */
#include "h3.hpp"

#include <algorithm>
#include <cstdio>
#include <cstdlib>
#include <type_traits>

using namespace beanwhile;

namespace {

void want(bool is_so, const char *what, int line) {
  if (is_so) return;
  std::printf("failed h3.hpp: line %d: %s\n", line, what);
  std::exit(1);
}
#define WANT(condition) want(static_cast<bool>(condition), #condition, __LINE__)

/* Carries all that waits, in pieces, and each end once. Returns how many ends went over. */
int carry(endpoint &from, endpoint &to, std::size_t piece) {
  int ends = 0;
  std::vector<std::uint8_t> room(piece);
  for (auto id = from.next_to_send(0); id; id = from.next_to_send(*id + 1)) {
    for (;;) {
      outgoing next = from.peek(*id, room);
      if (next.count == 0 && !next.is_last) break;
      WANT(to.deliver(*id, bytes(room.data(), next.count)));
      WANT(from.advance(*id, next.count));
      if (!next.is_last) continue;
      WANT(to.deliver_end(*id));
      WANT(from.end_taken(*id));
      ends++;
      break;
    }
  }
  return ends;
}

struct message {
  item head;
  std::string body;
  field_list trailer;
};

/* All that comes on a stream, to its end. */
message read(endpoint &at, std::uint64_t id) {
  message whole;
  item next;
  for (;;) {
    WANT(at.pull(id, next));
    WANT(!next.is_pause() && !next.is_fault());
    switch (next.kind) {
      case H3_HEAD: whole.head = next; break;
      case H3_BODY: whole.body += next.body; break;
      case H3_TRAILER: whole.trailer = next.fields; break;
      case H3_END: return whole;
      default: WANT(!"another kind");
    }
  }
}

bool is_list(const field_list &got, std::initializer_list<field> wanted) {
  auto at = got.begin();
  for (const field &it : wanted) {
    if (at == got.end() || !(*at == it)) return false;
    ++at;
  }
  return at == got.end();
}

void open_pair(endpoint &client, endpoint &server) {
  WANT(client.open(client_config()));
  WANT(server.open(server_config()));
  carry(client, server, 1000);
  carry(server, client, 1000);
}

void exchange(std::size_t piece) {
  endpoint client, server;
  open_pair(client, server);
  std::uint64_t id = 1;
  WANT(client.next_request_id(id) && id == 0);
  WANT(client.open_request(id) && id == 0);
  closed_stream frames;
  WANT(client.open_request_at(8) && client.open_request_at(4).answer == H3_OUT_OF_ORDER);
  WANT(client.close_stream(8, frames) && frames.stop_sending && frames.reset_stream);
  WANT(client.close_stream(12, frames).answer == H3_NOT_OPEN && frames.stop_sending);
  WANT(client.stream_kind(3) == std::uint32_t{H3_STREAM_CONTROL} && !client.stream_kind(0));
  WANT(client.frame_left(3) == 0); /* its SETTINGS frame came whole */
  const std::initializer_list<field> asked = {
      {":method", "POST"}, {":scheme", "https"}, {":authority", "localhost"}, {":path", "/"}, {"x-none", ""}, {"x-key", "a", true}};
  WANT(client.send_head(id, asked));
  WANT(client.send_body(id, std::string_view("some text")));
  const std::uint8_t more[] = {0, 255, 1};
  WANT(client.send_body(id, more));
  WANT(client.send_trailer(id, {{"x-count", "1"}, {"x-count", "2", true}}));
  WANT(client.finish(id));
  WANT(carry(client, server, piece) == 1);
  WANT(carry(client, server, piece) == 0);
  message request = read(server, id);
  WANT(is_list(request.head.fields, asked) && request.head.status == 0);
  WANT(request.head.fields.find(":path") == "/" && !request.head.fields.find("x-absent"));
  WANT(request.body == std::string_view("some text\0\xff\1", 12));
  WANT(is_list(request.trailer, {{"x-count", "1"}, {"x-count", "2", true}}));
  WANT(!is_list(request.trailer, {{"x-count", "1", true}, {"x-count", "2"}}));

  WANT(server.send_head(id, {{":status", "200"}}));
  WANT(server.finish(id));
  carry(server, client, piece);
  message response = read(client, id);
  WANT(response.head.status == 200 && response.body.empty() && response.trailer.empty());
  WANT(client.stream(id).is_finished == 1 && client.connection().has_settings == 1);
  WANT(client.peer_setting(6) == client_config().max_field_section_size && !client.peer_setting(0x21));
  std::uint8_t settings[128];
  std::size_t len = 0;
  WANT(client.remember_settings(settings, sizeof settings, len) == H3_OK && len == 24);
  WANT(client.settings_kept(settings, len) == true && client.settings_kept("\6\x80\1\0\1", 5) == false && !client.settings_kept("\6", 1));
  endpoint resumed;
  WANT(resumed.open_resumed(client_config(), settings, len));
  const h3_setting further[] = {{0x99, 7}};
  WANT(resumed.open(client_config(), further, 1) && !client.other_type(3));
  std::optional<endpoint::event> event = client.next_event();
  WANT(event && event->kind == H3_EVENT_SETTINGS && event->number == 0 && !client.next_event());
}

/* Reads a packet of a stream, and answers how many pieces of a body lay in it. */
std::size_t read_packet(endpoint &to, std::uint64_t id, std::vector<std::uint8_t> packet, bool is_end, message &whole) {
  std::size_t used = 0, in_place = 0;
  item next;
  bytes left(packet.data(), packet.size());
  do {
    WANT(to.read(id, left, is_end, next, used));
    WANT(used <= left.size() && !next.is_fault());
    if (next.kind == H3_BODY_GIVEN) {
      WANT(next.given.data() >= left.data() && next.given.data() + next.given.size() == left.data() + used);
      whole.body.append(reinterpret_cast<const char *>(next.given.data()), next.given.size());
      in_place++;
    }
    if (next.kind == H3_BODY) whole.body += next.body;
    if (next.kind == H3_HEAD) whole.head = next;
    if (next.kind == H3_TRAILER) whole.trailer = next.fields;
    left = bytes(left.data() + used, left.size() - used);
  } while (!next.is_pause() && next.kind != H3_END);
  WANT(left.size() == 0 && (next.kind == H3_END) == is_end);
  return in_place;
}

/* A body that stays with its owner goes into packets, and comes out as parts of them. */
void bodies_in_place(std::size_t packet_size) {
  const std::string body(5000, 'b');
  endpoint client, server;
  open_pair(client, server);
  std::uint64_t id = 1;
  WANT(client.open_request(id));
  WANT(client.send_body_of(id, 3).answer == H3_OUT_OF_ORDER);
  WANT(client.send_head(id, {{":method", "POST"}, {":scheme", "https"}, {":authority", "a"}, {":path", "/"}}));
  WANT(client.send_body_of(id, body.size()));
  WANT(client.send_body(id, std::string_view("and more")));
  WANT(client.send_trailer(id, {{"x-count", "1"}}));
  WANT(client.finish(id));
  std::vector<std::uint8_t> insertions(1000); /* first, so that no section waits for them */
  insertions.resize(client.peek(h3_encoder_id(0), insertions).count);
  WANT(client.advance(h3_encoder_id(0), insertions.size()) && server.deliver(h3_encoder_id(0), insertions));
  message whole;
  std::size_t at = 0, in_place = 0;
  for (bool is_end = false; !is_end;) {
    std::vector<std::uint8_t> packet(packet_size);
    outgoing next = client.peek(id, packet);
    std::size_t held = next.past < packet_size - next.count ? next.past : packet_size - next.count;
    std::copy_n(body.data() + at, held, packet.data() + next.count);
    is_end = next.is_last && held == next.past;
    at += held;
    packet.resize(next.count + held);
    WANT(client.advance(id, packet.size()));
    in_place += read_packet(server, id, packet, is_end, whole);
  }
  WANT(client.end_taken(id) && at == body.size() && whole.body == body + "and more" && in_place > 0);
  WANT(whole.head.fields.find(":path") == "/" && is_list(whole.trailer, {{"x-count", "1"}}));
  item none;
  std::size_t used = 1;
  WANT(endpoint().read(id, bytes(), false, none, used).answer == H3_NO_ENDPOINT && used == 0);
  WANT(server.read(id, bytes(reinterpret_cast<const std::uint8_t *>("x"), 1), false, none, used).answer == H3_AFTER_END && used == 0);
}

void ownership() {
  static_assert(!std::is_copy_constructible_v<endpoint> && std::is_nothrow_move_constructible_v<endpoint>);
  endpoint empty, first;
  WANT(!empty && empty.finish(0).answer == H3_NO_ENDPOINT);
  WANT(first.open(client_config()) && first);
  endpoint second = std::move(first);
  WANT(second && !first);
  WANT(second.open(server_config()));
  empty = std::move(second);
  WANT(empty && !second);
}

void refusals() {
  endpoint client, server;
  open_pair(client, server);
  std::uint64_t id;
  WANT(server.open_request(id).answer == H3_NOT_CLIENT);
  WANT(client.open_request(id));
  result refused = client.send_head(id, {{":method", "GET"}, {"Upper", "a"}});
  WANT(refused.answer == H3_FIELD_NAME && refused.detail == 1 && std::string_view(refused.text()) == "H3_FIELD_NAME");
  WANT(client.send_body(id, std::string_view("a")).answer == H3_OUT_OF_ORDER);
  item next;
  WANT(client.pull(id, next) && next.is_pause());
  WANT(server.goaway(8));
  refused = server.goaway(12);
  WANT(refused.answer == H3_RAISED && refused.detail == 8);
  /* RFC 9114, section 7.2.4: a second SETTINGS frame is H3_FRAME_UNEXPECTED, 0x105 */
  const std::uint8_t settings[] = {4, 0};
  refused = server.deliver(2, settings);
  WANT(refused.answer == H3_CONNECTION && refused.detail == 0x105);
  WANT(server.pull(0, next) && next.is_fault() && next.number == 0x105);
  h3_config wrong = client_config();
  wrong.blocked = 65536;
  WANT(client.open(wrong).answer == H3_BLOCKED_LIMIT && !client);
}

void datagrams() {
  h3_config ours = client_config(), theirs = server_config();
  ours.datagram = theirs.datagram = 1;
  endpoint client, server;
  WANT(client.open(ours) && server.open(theirs));
  carry(client, server, 1000);
  carry(server, client, 1000);
  std::uint64_t id;
  WANT(client.open_request(id));
  WANT(client.send_head(id, {{":method", "GET"}, {":scheme", "https"}, {":authority", "localhost"}, {":path", "/"}}));
  carry(client, server, 1000);
  head_bytes head;
  WANT(client.datagram_head(id, head) && head.count == 1 && head.room[0] == 0);
  WANT(client.datagram_head(4, head).answer == H3_NOT_OPEN);
  const std::uint8_t hi[] = {0x40, 0x00, 'h', 'i'}, early[] = {1}, cut[] = {0x40};
  datagram came;
  WANT(server.read_datagram(hi, came) && came.kind == datagram::is_for && came.id == 0 && came.payload.size() == 2 && came.payload.data() == hi + 2);
  WANT(server.read_datagram(early, came) && came.kind == datagram::is_early && came.id == 4);
  WANT(client.finish(id));
  carry(client, server, 1000);
  WANT(server.read_datagram(bytes(hi, 4), came) && came.kind == datagram::is_late);
  result refused = server.read_datagram(cut, came);
  WANT(refused.answer == H3_CONNECTION && refused.detail == H3_CODE_DATAGRAM_ERROR);
  WANT(client.open(client_config()) && client.read_datagram(hi, came) && came.kind == datagram::is_off);
}

/* a session of WebTransport: a stream of the server that goes both ways */
void sessions() {
  h3_config ours = client_config(), theirs = server_config();
  for (h3_config *it : {&ours, &theirs}) it->webtransport = it->extended_connect = it->datagram = it->sessions = 1;
  endpoint client, server;
  WANT(client.open(ours) && server.open(theirs));
  carry(client, server, 1000);
  carry(server, client, 1000);
  std::uint64_t session = 99, id = 99;
  WANT(client.open_request(session));
  WANT(client.send_head(session, {{":method", "CONNECT"}, {":scheme", "https"}, {":authority", "a"}, {":path", "/"}, {":protocol", "webtransport"}}));
  carry(client, server, 1000);
  WANT(server.send_head(session, {{":status", "200"}}));
  WANT(server.open_session_stream(session, true, id) && id == 1);
  const std::uint8_t raw[] = {1, 2, 3};
  WANT(server.send_raw(id, bytes(raw, sizeof raw)) && server.finish(id));
  carry(server, client, 1000);
  WANT(client.next_of_session(session, 0) == id && !client.next_of_session(session, id + 1));
  WANT(client.send_raw(id, bytes(raw, 1)) && client.send_raw(14, bytes(raw, 1)).answer == H3_NOT_OPEN);
}

void capsules() {
  const std::uint8_t all[] = {0x68, 0x43, 0x06, 0, 0, 0, 7, 'b', 'y', 0x17, 0x00};
  head_bytes head;
  WANT(capsule_head(0x2843, 6, head) && head.count == 3 && std::equal(head.room, head.room + 3, all));
  WANT(capsule_head(std::uint64_t{1} << 62, 0, head).answer == H3_ARGUMENT);
  for (std::size_t at = 0; at <= sizeof all; at++) {
    capsule_reader reader;
    std::size_t heads = 0, ends = 0, value = 0;
    for (bytes piece : {bytes(all, at), bytes(all + at, sizeof all - at)})
      for (auto told = reader.read(piece); told.part != H3_CAPSULE_PENDING; told = reader.read(piece)) {
        if (told.part == H3_CAPSULE_HEAD) WANT(told.capsule_type == (heads++ ? 0x17u : 0x2843u));
        if (told.part == H3_CAPSULE_VALUE) value += told.value.size();
        if (told.part == H3_CAPSULE_END) ends++;
      }
    WANT(heads == 2 && ends == 2 && value == 6 && reader.may_end());
  }
}

}  // namespace

int main() {
  for (std::size_t piece : {1, 7, 100000}) exchange(piece);
  for (std::size_t packet : {2, 100, 1200, 100000}) bodies_in_place(packet);
  ownership();
  refusals();
  datagrams();
  sessions();
  capsules();
  std::printf("ok h3.hpp: C++ %ld\n", static_cast<long>(__cplusplus));
}
