// A fuzzer (libFuzzer) over the bytes of a peer: each record of the input names a stream and what comes on it. The records go to two
// endpoints, to one whole and to the other byte by byte, each pulled after every delivery. At each step:
//   what h3_stream says is held is at most what came, and on what h3_next_to_send names something waits
//   after a fault of the connection each pull and each delivery tells its code
//   h3_next_event reported what h3_connection shows: the settings once, and each GOAWAY with a lower id than the one before
// and at the end both received the same of each stream, up to a fault of the connection: then the endpoint that got pieces received
// no less. (With a dynamic table a faulty peer may drop entries that a section waits for, and what comes of it depends on the pieces: then
// they are not compared. Bytes of the decoder stream that come before the settings wait for them: then a fault of the control stream behind
// its settings and one of these bytes may come in either order, so the codes are not compared.)
#include <h3.h>

#include <cstdio>
#include <cstdlib>
#include <map>
#include <set>
#include <string>
#include <vector>

namespace {

constexpr int PULLS = 100000; // more items than an input can have

void need(bool holds, const char *what) {
  if (holds) return;
  fprintf(stderr, "failed bytes: %s\n", what);
  abort();
}

// The streams that a peer may send on: requests, its control, encoder and decoder stream, and one more. With sessions a server also opens
// streams both ways.
uint64_t stream_of(uint8_t byte, const h3_config &config) {
  static const uint64_t of_client[] = {0, 4, 2, 6, 10, 14, 8, 18}, of_server[] = {0, 4, 3, 7, 11, 15, 8, 19};
  static const uint64_t with_sessions[] = {0, 1, 3, 7, 11, 15, 5, 19};
  return config.server ? of_client[byte % 8] : config.sessions ? with_sessions[byte % 8] : of_server[byte % 8];
}

// what an endpoint delivered of a stream: a line for each item, and the bytes of content as they came
struct Received {
  std::string text;
  bool in_content = false;
};

class Reader {
 public:
  Reader(const h3_config &config, bool in_pieces) : in_pieces_(in_pieces) {
    need(h3_new(&end_, &config, nullptr) == H3_OK, "no endpoint");
    if (!config.server)
      for (int i = 0; i < 3; i++) ask();
  }
  ~Reader() { h3_free(&end_); }

  void deliver(uint64_t id, const uint8_t *bytes, size_t size) {
    size_t step = in_pieces_ ? 1 : size;
    for (size_t at = 0; at < size; at += step) deliver_piece(id, bytes + at, step);
  }
  void deliver_end(uint64_t id) {
    uint64_t code = 0;
    told(h3_deliver_end(&end_, id, &code), code);
    pull_all();
  }
  void deliver_reset(uint64_t id) {
    uint64_t code = 0;
    told(h3_deliver_reset(&end_, id, 0x10c, &code), code);
    pull_all();
  }

  bool has_fault() const { return has_fault_; }
  // one of two streams may be the decoder stream
  bool may_have_waited() const { return early_.size() > 1; }
  uint64_t code() const { return code_; }
  std::map<uint64_t, Received> received;

 private:
  void ask() {
    static const h3_field_size sizes[] = {{7, 3}, {7, 5}, {10, 1}, {5, 1}};
    uint64_t id;
    need(h3_open_request(&end_, &id, nullptr) == H3_OK, "no request is opened");
    need(h3_send_head(&end_, id, sizes, nullptr, 4, ":methodGET:schemehttps:authoritya:path/", 39, nullptr) == H3_OK, "no request is sent");
  }

  void told(uint32_t answer, uint64_t code) {
    need(!has_fault_ || answer == H3_CONNECTION, "a delivery after a fault of the connection does not tell it");
    if (answer == H3_CONNECTION) fault(code);
    need(answer != H3_MEMORY && answer != H3_KEPT, "memory was refused");
  }

  void fault(uint64_t code) {
    need(!has_fault_ || code == code_, "another code than before");
    has_fault_ = true;
    code_ = code;
  }

  void deliver_piece(uint64_t id, const uint8_t *bytes, size_t size) {
    uint64_t code = 0;
    // a block of its own, so that the address sanitizer sees who reads it later
    std::vector<uint8_t> copy(bytes, bytes + size);
    uint32_t answer = h3_deliver(&end_, id, copy.data(), size, &code);
    if (answer == H3_OK || answer == H3_CONNECTION) came_[id] += size;
    told(answer, code);
    pull_all();
    read_events();
    if (id & 2 && !has_settings_) early_.insert(id);
    shows(id);
  }

  void read_events() {
    uint32_t kind;
    uint64_t number;
    while (h3_next_event(&end_, &kind, &number) == H3_OK) {
      bool is_goaway = kind == H3_EVENT_GOAWAY;
      need(is_goaway || kind == H3_EVENT_SETTINGS, "an event of another kind");
      need(is_goaway == has_settings_, "the settings come again, or behind a GOAWAY");
      need(!is_goaway || !has_goaway_ || number < goaway_, "a GOAWAY whose id is no lower than before");
      has_settings_ = true;
      has_goaway_ = is_goaway;
      goaway_ = number;
    }
    h3_state state;
    need(h3_connection(&end_, &state) == H3_OK, "no state");
    need(state.has_settings == has_settings_ && state.has_goaway == has_goaway_, "an event is missing, or is of what did not come");
    need(!has_goaway_ || state.goaway == goaway_, "the last GOAWAY was not reported");
  }

  void shows(uint64_t id) {
    h3_stream_state stream;
    need(h3_stream(&end_, id, &stream) == H3_OK && stream.unread <= came_[id], "more is held than came");
    uint64_t named;
    if (h3_next_to_send(&end_, 0, &named) != H3_OK) return;
    uint8_t byte;
    size_t n = 0;
    uint32_t fin = 0;
    need(h3_outgoing(&end_, named, &byte, 1, &n, NULL, &fin) == H3_OK && (n || fin), "nothing waits on a stream that is to be sent");
  }

  // every stream: what waits on one goes on with an insertion on another
  void pull_all() {
    static const uint64_t streams[] = {0, 1, 4, 5, 8, 14, 15, 18, 19};
    for (uint64_t id : streams)
      for (int i = 0; pull(id); i++) need(i < PULLS, "pulls do not end");
  }

  // whether another item may come
  bool pull(uint64_t id) {
    h3_item item = {};
    need(h3_pull(&end_, id, &item) == H3_OK, "a pull is refused");
    need(!has_fault_ || item.kind == H3_FAULT_CONNECTION, "a pull after a fault of the connection does not tell it");
    need(item.kind != H3_FAULT_MEMORY, "memory was refused");
    if (item.kind == H3_FAULT_CONNECTION) fault(item.number);
    if (item.kind == H3_PENDING || item.kind == H3_WAITING || item.kind == H3_NO_MESSAGES || item.kind == H3_FAULT_CONNECTION)
      return false;
    Received &of_stream = received[id];
    if (item.kind == H3_BODY || item.kind == H3_RAW) {
      of_stream.text += (of_stream.in_content ? "" : "\ncontent ") + content(item.len);
      of_stream.in_content = true;
      return true;
    }
    std::string line =
        "\n" + std::to_string(item.kind) + " " + std::to_string(item.number) + " " + std::to_string(item.status) + " " + fields(item);
    bool is_last = item.kind == H3_END || item.kind > H3_FAULT_CONNECTION;
    if (!is_last || last_[id] != line) of_stream.text += line;
    if (is_last) last_[id] = line; // it is told again by each pull
    of_stream.in_content = false;
    return !is_last;
  }

  std::string content(size_t size) {
    std::string bytes(size, 0);
    size_t n = 0;
    need(h3_item_bytes(&end_, 0, &bytes[0], size, &n) == H3_OK && n == size, "an item has no bytes");
    return bytes;
  }

  std::string fields(const h3_item &item) {
    if (item.kind > H3_HEAD && item.kind != H3_TRAILER) return "";
    std::vector<h3_field_size> sizes(item.fields + 1);
    std::string bytes(item.len, 0), text;
    need(h3_item_fields(&end_, sizes.data(), nullptr, item.fields, &bytes[0], item.len) == H3_OK, "an item has no fields");
    for (size_t i = 0; i < item.fields; i++) text += std::to_string(sizes[i].name) + "," + std::to_string(sizes[i].value) + " ";
    return text + bytes;
  }

  h3_endpoint end_ = H3_NONE_YET;
  bool in_pieces_, has_fault_ = false;
  bool has_settings_ = false, has_goaway_ = false; // as events say
  uint64_t goaway_ = 0;
  std::set<uint64_t> early_; // unidirectional streams of which bytes came before the settings
  uint64_t code_ = 0;
  std::map<uint64_t, uint64_t> came_;
  std::map<uint64_t, std::string> last_;
};

h3_config config_of(uint8_t byte) {
  h3_config config;
  h3_config_default(&config);
  config.server = byte & 1;
  config.strict = byte >> 1 & 1;
  config.table = byte & 4 ? 4096 : 0;
  config.count_acknowledgments = byte >> 3 & 1;
  config.extended_connect = byte >> 4 & 1;
  config.max_field_section_size = byte & 32 ? 65536 : 200;
  config.other_streams = byte >> 7;
  if (byte & 64) config.sessions = config.webtransport = config.datagram = config.extended_connect = 1;
  return config;
}

void compare(Reader &whole, Reader &pieces) {
  need(whole.has_fault() == pieces.has_fault(), "a fault of the connection in pieces alone, or in none");
  need(pieces.may_have_waited() || whole.code() == pieces.code(), "another fault of the connection in pieces");
  for (auto &[id, of_stream] : whole.received) {
    const std::string &text = of_stream.text, &other = pieces.received[id].text;
    need(whole.has_fault() ? other.compare(0, text.size(), text) == 0 : other == text, "other items in pieces");
  }
}

} // namespace

// records: a byte for the stream (and in its upper bits whether its end or reset comes instead), one for how many bytes follow, and these
extern "C" int LLVMFuzzerTestOneInput(const uint8_t *data, size_t size) {
  if (size == 0) return 0;
  h3_config config = config_of(*data);
  Reader whole(config, false), pieces(config, true);
  for (size_t at = 1; at < size;) {
    uint64_t id = stream_of(data[at], config);
    uint8_t what = data[at] >> 3 & 7;
    size_t count = at + 1 < size ? data[at + 1] : 0;
    if (count > size - at - 2 || at + 2 > size) count = at + 2 < size ? size - at - 2 : 0;
    for (Reader *reader : {&whole, &pieces}) {
      if (what == 7)
        reader->deliver_end(id);
      else if (what == 6)
        reader->deliver_reset(id);
      else
        reader->deliver(id, data + at + 2, count);
    }
    at += what >= 6 ? 1 : 2 + count;
  }
  if (config.table == 0) compare(whole, pieces);
  return 0;
}
