"""A first program: a client's request goes to a server in the same program, and the server prints the fields that it received."""

from beanwhile_h3 import Config, Endpoint, Head


def carry(sender: Endpoint, receiver: Endpoint) -> None:
    """Carries what waits on all streams to the other endpoint, in place of QUIC."""
    while (id := sender.next_to_send()) is not None:
        data, is_last = sender.outgoing(id)
        receiver.deliver(id, data)
        sender.advance(id, len(data))
        if is_last:
            receiver.deliver_end(id)
            sender.end_taken(id)


with Endpoint(Config.client()) as client, Endpoint(Config.server()) as server:
    id = client.open_request()
    client.send_head(id, [(b":method", b"GET"), (b":scheme", b"https"), (b":authority", b"localhost"), (b":path", b"/")])
    client.finish(id)
    carry(client, server)
    head = server.next_item(id)
    assert isinstance(head, Head)
    for name, value in head.fields:
        print(name.decode(), "=", value.decode())
