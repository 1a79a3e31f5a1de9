package h3

import (
	"bytes"
	"errors"
	"testing"
	"unsafe"
)

// isPart says whether one slice is a part of another one's memory.
func isPart(part, whole []byte) bool {
	if len(part) == 0 || len(whole) == 0 {
		return false
	}
	from, first := uintptr(unsafe.Pointer(&part[0])), uintptr(unsafe.Pointer(&whole[0]))
	return from >= first && from+uintptr(len(part)) <= first+uintptr(len(whole))
}

// packet is the next bytes of a stream, at most so many: those of the endpoint, and then those of the body that the caller holds.
func packet(t *testing.T, from *Endpoint, id uint64, size int, held []byte) (made, left []byte, end bool) {
	t.Helper()
	made = make([]byte, size)
	count, past, end := from.OutgoingPast(id, made)
	taken := copy(made[count:], held[:past])
	is(t, from.Advance(id, count+taken), nil)
	return made[:count+taken], held[taken:], end && taken == past
}

// received is what came out of a message, and how many pieces of its body lay in the packets.
type received struct {
	head, trailer []Field
	body          []byte
	pieces        int
	end           bool
}

func (r *received) read(t *testing.T, at *Endpoint, id uint64, given []byte, end bool) {
	t.Helper()
	for rest := given; ; {
		var item Item
		var err error
		item, rest, err = at.Read(id, rest, end)
		is(t, err, nil)
		switch item.Kind {
		case Head:
			r.head = item.Fields
		case Trailer:
			r.trailer = item.Fields
		case Body:
			r.body = append(r.body, item.Bytes...)
		case BodyGiven:
			is(t, isPart(item.Bytes, given), true)
			r.body = append(r.body, item.Bytes...)
			r.pieces++
		case End:
			r.end = true
		}
		if item.Kind == End || item.Kind.IsPause() {
			is(t, len(rest), 0)
			break
		}
	}
	for i := range given { // nobody reads a packet again
		given[i] = 0xee
	}
}

func TestBodiesInPlace(t *testing.T) {
	held := bytes.Repeat([]byte("0123456789"), 500)
	for _, size := range []int{2, 100, 1200, 100000} {
		client, server := pair(t)
		id, err := client.OpenRequest()
		is(t, err, nil)
		is(t, errors.Is(client.SendBodyOf(id, 3), OutOfOrder), true)
		is(t, errors.Is(client.SendBodyOf(id, -1), Argument), true)
		is(t, client.SendHead(id, get), nil)
		is(t, client.SendBodyOf(id, len(held)), nil)
		is(t, client.SendBody(id, []byte("and more")), nil)
		is(t, client.SendTrailer(id, []Field{{Name: "x-count", Value: "1"}}), nil)
		is(t, client.Finish(id), nil)
		count, end := client.Outgoing(id, make([]byte, 100000))
		is(t, count == 0 && !end, true) // bytes that the caller holds follow

		insertions := make([]byte, 1000) // first, so that no section waits for them
		n, _ := client.Outgoing(6, insertions)
		is(t, server.Deliver(6, insertions[:n]), nil)
		is(t, client.Advance(6, n), nil)
		var got received
		for left := held; !got.end; {
			var made []byte
			made, left, end = packet(t, client, id, size, left)
			got.read(t, server, id, made, end)
		}
		is(t, client.EndTaken(id), true)
		is(t, got.head, get)
		is(t, got.trailer, []Field{{Name: "x-count", Value: "1"}})
		is(t, string(got.body), string(held)+"and more")
		is(t, got.pieces > 0, true)
		_, rest, err := server.Read(id, []byte("x"), false)
		is(t, errors.Is(err, AfterEnd) && len(rest) == 1, true)
	}
}

func TestReadRefusals(t *testing.T) {
	server := made(t, DefaultConfig(true))
	// DATA before a header section (RFC 9114, section 4.1)
	_, _, err := server.Read(0, []byte("\x00\x03abc"), false)
	is(t, err, error(Fault{FaultConnection, 0x105}))
	_, rest, err := server.Read(1<<62, []byte("a"), false)
	is(t, errors.Is(err, Argument) && len(rest) == 1, true)
	server.Close()
	_, rest, err = server.Read(0, []byte("a"), true)
	is(t, errors.Is(err, NoEndpoint) && len(rest) == 1, true)
}
