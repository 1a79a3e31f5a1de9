// A first program: a client's request goes to a server in the same program, and the server prints the fields that it received.
package main

import (
	"fmt"
	"log"

	"beanwhile/h3"
)

func want(err error) {
	if err != nil {
		log.Fatal(err)
	}
}

// carry carries what waits on all streams to the other endpoint, in place of QUIC.
func carry(from, to *h3.Endpoint) {
	buffer := make([]byte, 4096)
	for id, ok := from.NextToSend(0); ok; id, ok = from.NextToSend(id + 1) {
		for {
			count, isLast := from.Outgoing(id, buffer)
			want(to.Deliver(id, buffer[:count]))
			want(from.Advance(id, count))
			if isLast {
				want(to.DeliverEnd(id))
				from.EndTaken(id)
			}
			if isLast || count < len(buffer) {
				break
			}
		}
	}
}

func main() {
	client, err := h3.New(h3.DefaultConfig(false))
	want(err)
	defer client.Close()
	server, err := h3.New(h3.DefaultConfig(true))
	want(err)
	defer server.Close()

	id, err := client.OpenRequest()
	want(err)
	want(client.SendHead(id, []h3.Field{
		{Name: ":method", Value: "GET"},
		{Name: ":scheme", Value: "https"},
		{Name: ":authority", Value: "localhost"},
		{Name: ":path", Value: "/"},
	}))
	want(client.Finish(id))
	carry(client, server)
	item, err := server.Pull(id)
	want(err)
	for _, field := range item.Fields {
		fmt.Println(field.Name, "=", field.Value)
	}
}
