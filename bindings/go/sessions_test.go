package h3

import (
	"errors"
	"testing"
)

// sessionPair is a client and a server of sessions (draft-ietf-webtrans-http3-02), or without the choice that lets them open streams.
func sessionPair(t *testing.T, sessions bool) (client, server *Endpoint) {
	t.Helper()
	both := func(isServer bool) *Endpoint {
		config := DefaultConfig(isServer)
		config.WebTransport, config.ExtendedConnect, config.Datagram, config.Sessions = true, true, true, sessions
		config.MaxWebTransportSessions = 1
		return made(t, config)
	}
	client, server = both(false), both(true)
	carry(t, client, server, 1000)
	carry(t, server, client, 1000)
	return client, server
}

func begin(t *testing.T, client, server *Endpoint) uint64 {
	t.Helper()
	id, err := client.OpenRequest()
	is(t, err, nil)
	is(t, client.SendHead(id, []Field{{Name: ":method", Value: "CONNECT"}, {Name: ":scheme", Value: "https"}, {Name: ":authority", Value: "localhost"},
		{Name: ":path", Value: "/"}, {Name: ":protocol", Value: "webtransport"}}), nil)
	carry(t, client, server, 1000)
	pull(t, server, id, Head)
	is(t, server.SendHead(id, []Field{{Name: ":status", Value: "200"}}), nil)
	carry(t, server, client, 1000)
	pull(t, client, id, Head)
	return id
}

func TestSessionStreams(t *testing.T) {
	client, server := sessionPair(t, true)
	session := begin(t, client, server)
	for _, it := range []struct {
		side, peer *Endpoint
		bothWays   bool
		id         uint64
		front      string
	}{{server, client, true, 1, "\x40\x41\x00"}, {client, server, true, 4, "\x40\x41\x00"}, {client, server, false, 14, "\x40\x54\x00"}, {server, client, false, 15, "\x40\x54\x00"}} {
		id, err := it.side.OpenSessionStream(session, it.bothWays)
		is(t, err, nil)
		is(t, id, it.id)
		front := make([]byte, 8)
		count, _ := it.side.Outgoing(id, front)
		is(t, string(front[:count]), it.front)
		is(t, it.side.SendRaw(id, []byte("one")), nil)
		is(t, it.side.Finish(id), nil)
		carry(t, it.side, it.peer, 2)
		is(t, pull(t, it.peer, id, Session).Number, session)
		var all []byte
		item, err := it.peer.Pull(id)
		for ; err == nil && item.Kind == Raw; item, err = it.peer.Pull(id) {
			all = append(all, item.Bytes...)
		}
		is(t, string(all), "one")
		is(t, item.Kind, End)
		if it.bothWays {
			is(t, it.peer.SendRaw(id, []byte("two")), nil)
			carry(t, it.peer, it.side, 1000)
			is(t, string(pull(t, it.side, id, Raw).Bytes), "two")
		} else {
			is(t, errors.Is(it.peer.SendRaw(id, nil), NotOpen), true)
		}
	}
}

func TestSessionEnds(t *testing.T) {
	client, server := sessionPair(t, true)
	session := begin(t, client, server)
	for range []int{1, 2} {
		_, err := client.OpenSessionStream(session, false)
		is(t, err, nil)
	}
	var ended []uint64
	for id, ok := client.NextOfSession(session, 0); ok; id, ok = client.NextOfSession(session, id+1) {
		stop, reset, err := client.CloseStream(id)
		is(t, err, nil)
		is(t, []bool{stop, reset}, []bool{false, true})
		ended = append(ended, id)
	}
	is(t, ended, []uint64{14, 18})
	_, ok := client.NextOfSession(session, 0)
	is(t, ok, false)
}

func TestNoSessions(t *testing.T) {
	client, server := sessionPair(t, false)
	session := begin(t, client, server)
	for _, side := range []*Endpoint{client, server} {
		_, err := side.OpenSessionStream(session, true)
		is(t, errors.Is(err, NoSessions), true)
	}
	_, err := New(Config{Sessions: true})
	is(t, err, Error{Setting, 0x2b603742})
}

func TestSessionCodes(t *testing.T) {
	for number, code := range map[uint32]uint64{0: 0x52e4a40fa8db, 29: 0x52e4a40fa8f8, 30: 0x52e4a40fa8fa, 255: 0x52e4a40fa9e2} {
		is(t, WebTransportCode(number), code)
		got, ok := WebTransportNumber(code)
		is(t, got, number)
		is(t, ok, true)
	}
	for _, code := range []uint64{0x52e4a40fa8f9, 0x10c} {
		_, ok := WebTransportNumber(code)
		is(t, ok, false)
	}
}
