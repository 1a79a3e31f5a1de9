/* A first program: a client's request goes to a server in the same program, and the server prints the fields that it received. */
#include <h3.hpp>

#include <array>
#include <iostream>

using beanwhile::endpoint;
using beanwhile::result;

/* Carries what waits on all streams to the other endpoint, in place of QUIC. */
static result carry(endpoint &from, endpoint &to) {
  std::array<std::uint8_t, 4096> room;
  for (auto id = from.next_to_send(0); id; id = from.next_to_send(*id + 1)) {
    beanwhile::outgoing next;
    do {
      next = from.peek(*id, room);
      if (result said = to.deliver(*id, beanwhile::bytes(room.data(), next.count)); !said) return said;
      if (result said = from.advance(*id, next.count); !said) return said;
    } while (next.count == room.size() && !next.is_last);
    if (!next.is_last) continue;
    if (result said = to.deliver_end(*id); !said) return said;
    from.end_taken(*id);
  }
  return {};
}

static result exchange(endpoint &client, endpoint &server) {
  std::uint64_t id;
  if (result said = client.open(beanwhile::client_config()); !said) return said;
  if (result said = server.open(beanwhile::server_config()); !said) return said;
  if (result said = client.open_request(id); !said) return said;
  const beanwhile::field_list fields = {{":method", "GET"}, {":scheme", "https"}, {":authority", "localhost"}, {":path", "/"}};
  if (result said = client.send_head(id, fields); !said) return said;
  if (result said = client.finish(id); !said) return said;
  if (result said = carry(client, server); !said) return said;
  beanwhile::item item;
  if (result said = server.pull(id, item); !said) return said;
  for (const beanwhile::field &it : item.fields) std::cout << it.name << " = " << it.value << '\n';
  return {};
}

int main() {
  endpoint client, server;
  result said = exchange(client, server);
  if (said) return 0;
  std::cerr << "refused: " << said.text() << '\n';
  return 1;
}
