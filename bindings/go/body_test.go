package h3

import (
	"bytes"
	"errors"
	"io"
	"strings"
	"testing"
)

// TestBodies: the body of a message as an io.Writer and an io.Reader, with a trailer section, in a loop that a pause and 16 KiB end.
func TestBodies(t *testing.T) {
	sent := bytes.Repeat([]byte("0123456789"), 20000)
	trailer := []Field{{Name: "x-count", Value: "1"}, {Name: "x-count", Value: "2"}}
	client, server := pair(t)
	id, err := client.OpenRequest()
	is(t, err, nil)
	post := append([]Field{{Name: ":method", Value: "POST"}}, get[1:]...)
	is(t, client.SendHead(id, post), nil)
	flushes, most := 0, uint64(0)
	writer := client.BodyWriter(id, func() error {
		if waiting := client.Stream(id).Waiting; waiting > most {
			most = waiting
		}
		flushes++
		carry(t, client, server, 1000)
		return nil
	})
	count, err := writer.Write(sent)
	is(t, []any{count, err}, []any{len(sent), nil})
	is(t, writer.SendTrailer(trailer), nil)
	is(t, writer.Close(), nil)
	// 200,000 bytes: 12 pieces of 16 KiB, and the rest with the end. Each piece has a frame's type and length in 5 bytes (RFC 9114, section
	// 7.1), and the first has the header section too
	is(t, []any{flushes, most < 17*1024}, []any{13, true})
	_, err = writer.Write([]byte("x"))
	is(t, err, Error{Answer: OutOfOrder})

	pull(t, server, id, Head)
	reader := server.BodyReader(id, func(Item) error { return errors.New("a pause") })
	got, err := io.ReadAll(reader)
	is(t, err, nil)
	is(t, bytes.Equal(got, sent), true)
	is(t, reader.Trailer(), trailer)
	count, err = reader.Read(make([]byte, 1))
	is(t, []any{count, err}, []any{0, io.EOF})
}

// TestBodyReaderWaits: a pause is waited for, and what else may come is an error.
func TestBodyReaderWaits(t *testing.T) {
	client, server := pair(t)
	id, err := client.OpenRequest()
	is(t, err, nil)
	is(t, client.SendHead(id, append([]Field{{Name: ":method", Value: "POST"}}, get[1:]...)), nil)
	letters, stop, over := []string{"a", "b", "c"}, errors.New("stop"), false
	reader := server.BodyReader(id, func(pause Item) error {
		is(t, pause.Kind, Pending)
		if over {
			return stop
		}
		over = len(letters) == 1
		is(t, client.SendBody(id, []byte(letters[0])), nil)
		letters = letters[1:]
		carry(t, client, server, 1000)
		return nil
	})
	carry(t, client, server, 1000)
	_, err = reader.Read(make([]byte, 10)) // the header section was not pulled
	is(t, err, Error{Answer: OutOfOrder})
	got, err := io.ReadAll(reader)
	is(t, []any{string(got), err}, []any{"abc", stop})
	count, err := reader.Read(nil)
	is(t, []any{count, err}, []any{0, nil})
	is(t, server.DeliverReset(id, RequestCancelled), nil)
	_, err = reader.Read(make([]byte, 10))
	is(t, err, Fault{FaultReset, RequestCancelled})
	is(t, reader.Trailer() == nil, true)

	// a stream that has no messages, and a trailer section above the limit
	_, err = server.BodyReader(2, nil).Read(make([]byte, 1))
	is(t, err, Error{Answer: OutOfOrder})
	config := DefaultConfig(true)
	config.MaxFieldSectionSize = 200
	small := made(t, config)
	other := made(t, DefaultConfig(false))
	_, err = other.OpenRequest()
	is(t, err, nil)
	is(t, other.SendHead(0, get), nil)
	is(t, other.SendTrailer(0, []Field{{Name: "x-large", Value: strings.Repeat("v", 300)}}), nil)
	is(t, other.Finish(0), nil)
	carry(t, other, small, 1000)
	pull(t, small, 0, Head)
	_, err = small.BodyReader(0, nil).Read(make([]byte, 1))
	is(t, err, Error{TooLarge, uint64(len("x-large") + 300 + 32)})
}
