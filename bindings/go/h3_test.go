package h3

import (
	"bytes"
	"errors"
	"reflect"
	"strings"
	"testing"
)

// made is an endpoint that is closed at the test's end.
func made(t *testing.T, config Config) *Endpoint {
	t.Helper()
	endpoint, err := New(config)
	if err != nil {
		t.Fatal(err)
	}
	t.Cleanup(endpoint.Close)
	return endpoint
}

// pair is a client and a server, whose settings each has of the other.
func pair(t *testing.T) (client, server *Endpoint) {
	t.Helper()
	client, server = made(t, DefaultConfig(false)), made(t, DefaultConfig(true))
	carry(t, client, server, 1000)
	carry(t, server, client, 1000)
	return client, server
}

// carry carries all that waits, in pieces, and each end once. It answers how many ends went over.
func carry(t *testing.T, from, to *Endpoint, piece int) (ends int) {
	t.Helper()
	for id, ok := from.NextToSend(0); ok; id, ok = from.NextToSend(id + 1) {
		buffer := make([]byte, piece)
		for {
			count, end := from.Outgoing(id, buffer)
			if count == 0 && !end {
				break
			}
			is(t, to.Deliver(id, buffer[:count]), nil)
			is(t, from.Advance(id, count), nil)
			if end {
				is(t, to.DeliverEnd(id), nil)
				is(t, from.EndTaken(id), true)
				ends++
				break
			}
		}
	}
	return ends
}

func is(t *testing.T, got, wanted any) {
	t.Helper()
	if !reflect.DeepEqual(got, wanted) {
		t.Fatalf("%v, and wanted %v", got, wanted)
	}
}

// pull expects an item of this kind.
func pull(t *testing.T, endpoint *Endpoint, id uint64, kind Kind) Item {
	t.Helper()
	item, err := endpoint.Pull(id)
	if err != nil || item.Kind != kind {
		t.Fatalf("%v %v, and wanted %v", item.Kind, err, kind)
	}
	return item
}

// body pulls a body, and what comes after it.
func body(t *testing.T, endpoint *Endpoint, id uint64) (all []byte, behind Item) {
	t.Helper()
	for {
		item, err := endpoint.Pull(id)
		if err != nil {
			t.Fatal(err)
		}
		if item.Kind != Body {
			return all, item
		}
		all = append(all, item.Bytes...)
	}
}

var get = []Field{{Name: ":method", Value: "GET"}, {Name: ":scheme", Value: "https"}, {Name: ":authority", Value: "localhost"}, {Name: ":path", Value: "/"}}

// A flag goes over and comes, in a header and a trailer section, and on to a next hop.
func TestNeverIndexed(t *testing.T) {
	secret := Field{Name: "authorization", Value: "a", NeverIndexed: true}
	head, trailer := append(get[:4:4], secret), []Field{{Name: "x-a", Value: "1"}, {Name: "x-b", Value: "2", NeverIndexed: true}}
	for hop := 0; hop < 2; hop++ {
		client, server := pair(t)
		id, err := client.OpenRequest()
		is(t, err, nil)
		is(t, client.SendHead(id, head), nil)
		waiting := make([]byte, 64)
		count, _ := client.Outgoing(id, waiting)
		// RFC 9204, section 4.5.4: 01, N, T and the index 84; the value, whose Huffman code is not shorter
		is(t, bytes.HasSuffix(waiting[:count], []byte{0x7f, 0x45, 1, 'a'}), true)
		is(t, client.SendTrailer(id, trailer), nil)
		is(t, client.Finish(id), nil)
		carry(t, client, server, 1000)
		came := pull(t, server, id, Head).Fields
		is(t, came, head)
		is(t, came[4].NeverIndexed && !came[0].NeverIndexed, true)
		head, trailer = came, pull(t, server, id, Trailer).Fields
		is(t, trailer[1].NeverIndexed && !trailer[0].NeverIndexed, true)
		pull(t, server, id, End)
	}
}

func TestExchange(t *testing.T) {
	sent := bytes.Repeat([]byte("0123456789"), 2000)
	head := append(append([]Field{}, get...), Field{Name: "x-long", Value: strings.Repeat("v", 3000)}, Field{Name: "x-none", Value: ""})
	head[0].Value = "POST"
	trailer := []Field{{Name: "x-count", Value: "1"}, {Name: "x-count", Value: "2"}}
	for _, piece := range []int{1, 7, 1000, 100000} {
		client, server := pair(t)
		next, err := client.NextRequestID()
		is(t, err, nil)
		id, err := client.OpenRequest()
		is(t, err, nil)
		is(t, id, next)
		is(t, client.SendHead(id, head), nil)
		is(t, client.SendBody(id, sent), nil)
		is(t, client.SendTrailer(id, trailer), nil)
		is(t, carry(t, client, server, piece), 0)
		is(t, client.Finish(id), nil)
		is(t, carry(t, client, server, piece), 1)
		is(t, carry(t, client, server, piece), 0)

		is(t, pull(t, server, id, Head).Fields, head)
		got, behind := body(t, server, id)
		is(t, bytes.Equal(got, sent), true)
		is(t, behind.Kind, Trailer)
		is(t, behind.Fields, trailer)
		pull(t, server, id, End)

		is(t, server.SendHead(id, []Field{{Name: ":status", Value: "103"}}), nil)
		is(t, server.SendHead(id, []Field{{Name: ":status", Value: "200"}, {Name: "x-a", Value: "b"}}), nil)
		is(t, server.SendTrailer(id, []Field{{Name: "x-a", Value: "b"}}), nil)
		is(t, server.Finish(id), nil)
		is(t, carry(t, server, client, piece), 1)
		is(t, pull(t, client, id, Interim).Status, 103)
		response := pull(t, client, id, Head)
		is(t, response.Status, 200)
		is(t, response.Fields, []Field{{Name: ":status", Value: "200"}, {Name: "x-a", Value: "b"}})
		value, ok := response.Value("x-a")
		is(t, value == "b" && ok, true)
		_, ok = response.Value("x-b")
		is(t, ok, false)
		is(t, pull(t, client, id, Trailer).Fields, []Field{{Name: "x-a", Value: "b"}})
		pull(t, client, id, End)
		is(t, client.Stream(id), StreamState{HasOutgoing: true, Finished: true, Tries: 1})
	}
}

func TestStates(t *testing.T) {
	client, server := pair(t)
	id, _ := client.OpenRequest()
	is(t, client.SendHead(id, get), nil)
	is(t, client.Stream(id).Waiting > 0, true)
	is(t, *client.Connection().Peer, PeerLimits{Table: 4096, Blocked: 16, Section: 65536})
	is(t, client.Connection().Goaway, (*uint64)(nil))
	value, ok := client.PeerSetting(6)
	is(t, value == 65536 && ok, true)
	_, ok = client.PeerSetting(0x21)
	is(t, ok, false)
	is(t, made(t, DefaultConfig(false)).Connection().Peer, (*PeerLimits)(nil))

	event, ok := client.NextEvent()
	is(t, event == Event{Kind: EventSettings} && ok, true)
	_, ok = client.NextEvent()
	is(t, ok, false)
	is(t, server.Goaway(8), nil)
	is(t, server.Goaway(4), nil)
	carry(t, server, client, 100)
	is(t, *client.Connection().Goaway, uint64(4))
	event, ok = client.NextEvent()
	is(t, event == Event{EventGoaway, 4} && ok, true)
	_, ok = client.NextEvent()
	is(t, ok, false)
	_, err := client.NextRequestID()
	is(t, err, Error{GoingAway, 4})
	is(t, errors.Is(err, GoingAway) && !errors.Is(err, Closed), true)
	is(t, err.Error(), "h3: the peer takes no more requests (H3_GOING_AWAY), 4")
	_, err = client.OpenRequest()
	is(t, err, Error{GoingAway, 4})
	is(t, ControlID(true) == 3 && EncoderID(false) == 6 && DecoderID(true) == 11, true)
	version, _ := Version()
	is(t, version>>16, uint32(1))
}

func TestStreams(t *testing.T) {
	client, server := pair(t)
	is(t, client.OpenRequestAt(8), nil)
	id, err := client.OpenRequest()
	is(t, []any{id, err}, []any{uint64(12), nil})
	is(t, client.OpenRequestAt(4) != nil, true)
	// neither half has ended; then the end of the peer's half came
	stop, reset, err := client.CloseStream(4)
	is(t, []any{stop, reset, err}, []any{true, true, nil})
	is(t, client.DeliverEnd(8), nil)
	stop, reset, err = client.CloseStream(8)
	is(t, []any{stop, reset, err}, []any{false, true, nil})
	// 0x21 is reserved (RFC 9114, section 6.2.3)
	is(t, server.Deliver(14, []byte{0x21}), nil)
	for id, wanted := range map[uint64]StreamType{2: StreamControl, 6: StreamEncoder, 10: StreamDecoder, 14: StreamUnknown, 18: StreamUntold} {
		kind, ok := server.StreamKind(id)
		is(t, []any{kind, ok}, []any{wanted, true})
	}
	_, ok := server.StreamKind(0)
	is(t, ok, false)
	// one byte of four of a GOAWAY frame's payload arrives (RFC 9114, section 7.2.6)
	is(t, server.Deliver(2, []byte{7, 4, 0x80}), nil)
	is(t, []any{server.FrameLeft(2), server.FrameLeft(14)}, []any{uint64(3), uint64(0)})
}

func TestExtensions(t *testing.T) {
	// further settings, and streams of other types (RFC 9114, sections 7.2.4 and 6.2)
	config := DefaultConfig(true)
	config.OtherSettings, config.OtherStreams = 1, true
	server := made(t, config)
	client, err := NewWith(DefaultConfig(false), FurtherSetting{0x99, 7}, FurtherSetting{0x9a, 8})
	is(t, err, nil)
	defer client.Close()
	_, ok := client.RememberSettings()
	is(t, ok, false)
	carry(t, client, server, 1000)
	carry(t, server, client, 1000)
	value, ok := server.PeerSetting(0x99)
	is(t, []any{value, ok}, []any{uint64(7), true})
	_, ok = server.PeerSetting(0x9a)
	is(t, ok, false)
	is(t, server.Deliver(14, []byte{0x40, 0x99, 'a'}), nil)
	kind, _ := server.StreamKind(14)
	number, ok := server.OtherType(14)
	is(t, []any{kind, number, ok}, []any{StreamOther, uint64(0x99), true})
	is(t, pull(t, server, 14, Raw).Bytes, []byte("a"))
	_, ok = server.OtherType(2)
	is(t, ok, false)
	_, err = NewWith(DefaultConfig(false), FurtherSetting{6, 7})
	is(t, err != nil, true)
	// settings that are remembered (section 7.2.4.2)
	remembered, ok := client.RememberSettings()
	is(t, []any{len(remembered), ok}, []any{24, true})
	kept, known := client.SettingsKept(remembered)
	is(t, []bool{kept, known}, []bool{true, true})
	kept, known = client.SettingsKept([]byte{6, 0x80, 1, 0, 1})
	is(t, []bool{kept, known}, []bool{false, true})
	resumed, err := NewResumed(DefaultConfig(false), []byte{6, 0x40, 0x64}, FurtherSetting{0x99, 7})
	is(t, err, nil)
	defer resumed.Close()
	id, _ := resumed.OpenRequest()
	is(t, resumed.SendHead(id, get) != nil, true) // above 100 bytes
	_, err = NewResumed(DefaultConfig(true), remembered)
	is(t, err != nil, true)
}

func TestPauses(t *testing.T) {
	client, server := pair(t)
	id, _ := client.OpenRequest()
	pull(t, client, id, Pending)
	pull(t, client, 3, NoMessages)
	is(t, client.SendHead(id, get), nil)
	carry(t, client, server, 100)
	pull(t, server, id, Head)
	is(t, pull(t, server, id, Pending).Kind.IsPause(), true)
	is(t, Kind(End).IsPause(), false)
	is(t, Waiting.String(), "H3_WAITING")
}

func TestFaults(t *testing.T) {
	// a client that sends what breaks rules, and a strict server
	plain := DefaultConfig(false)
	plain.Strict = false
	client, server := made(t, plain), made(t, DefaultConfig(true))
	carry(t, client, server, 1000)
	carry(t, server, client, 1000)
	// two requests that break rules (RFC 9114, sections 4.2 and 4.1.1), one that is reset and one that is given up
	var fault Fault
	for i, wanted := range []struct {
		send  func(id uint64) error
		fault Fault
		code  uint64
	}{
		{func(id uint64) error {
			return client.SendHead(id, append(get[:4:4], Field{Name: "connection", Value: "close"}))
		},
			Fault{FaultMalformed, uint64(ConnectionField)}, MessageError},
		{func(id uint64) error { return server.DeliverEnd(id) }, Fault{FaultMalformed, uint64(NoHead)}, RequestIncomplete},
		{func(id uint64) error { return server.DeliverReset(id, 0x10c) }, Fault{FaultReset, 0x10c}, RequestCancelled},
		{func(id uint64) error { server.Deliver(id, nil); return server.Cancel(id) }, Fault{FaultCanceled, 0}, RequestCancelled},
	} {
		id, err := client.OpenRequest()
		is(t, err, nil)
		is(t, id, uint64(4*i))
		is(t, wanted.send(id), nil)
		carry(t, client, server, 100)
		_, err = server.Pull(id)
		is(t, errors.As(err, &fault), true)
		is(t, fault, wanted.fault)
		is(t, fault.Code(true), wanted.code)
	}
	is(t, Fault{FaultMalformed, uint64(ConnectionField)}.Error(), "h3: the message is malformed: H3_CONNECTION_FIELD")
	is(t, errors.Is(Fault{Kind: FaultMemory}, Memory) && !errors.Is(fault, Memory), true)

	// a second SETTINGS frame (RFC 9114, section 7.2.4) is a fault of the connection: 0x105, H3_FRAME_UNEXPECTED
	err := server.Deliver(2, []byte{4, 0})
	is(t, err, Error{ConnectionFault, 0x105})
	var refused Error
	is(t, errors.As(err, &refused), true)
	code, isFault := refused.Code()
	is(t, code == 0x105 && isFault, true)
	_, err = server.Pull(0)
	is(t, errors.As(err, &fault), true)
	is(t, fault, Fault{FaultConnection, 0x105})
	is(t, errors.Is(server.Goaway(0), Closed), true)
}

func TestRefusals(t *testing.T) {
	client, server := pair(t)
	id, _ := client.OpenRequest()
	is(t, client.SendBody(id, []byte("a")), Error{Answer: OutOfOrder})
	is(t, client.SendHead(id, []Field{{Name: "Upper", Value: "a"}}), Error{Answer: FieldName})
	invalidSecond := []Field{{Name: ":scheme", Value: "https"}, {Name: ":method", Value: "G T"}}
	is(t, client.SendHead(id, invalidSecond), Error{Answer: FieldValue, Detail: 1})
	is(t, client.SendHead(id, []Field{{Name: ":status", Value: "200"}}), Error{Answer: WrongSide})
	is(t, client.SendHead(id, append(get[:4:4], Field{Name: "connection", Value: "close"})), Error{Malformed, uint64(ConnectionField)})
	is(t, client.SendTrailer(id, nil), Error{Answer: OutOfOrder})
	is(t, client.Reset(2), Error{Answer: Critical})
	is(t, client.Advance(id, 1), Error{Answer: Argument})
	is(t, client.Advance(id, -1), Error{Answer: Argument})
	is(t, client.EndTaken(id), false)
	_, err := client.Pull(1 << 62)
	is(t, err, Error{Answer: Argument})
	_, err = server.OpenRequest()
	is(t, errors.Is(err, NotClient), true)
	config := DefaultConfig(true)
	config.Table = 1 << 30
	_, err = New(config)
	is(t, err, Error{Answer: TableLimit})
	config = DefaultConfig(true)
	config.MaxFieldSectionSize = 1 << 62
	_, err = New(config)
	is(t, err, Error{Setting, 6})
	config = DefaultConfig(true)
	config.UnfinishedLimit = 4*config.MaxFieldSectionSize - 1
	_, err = New(config)
	is(t, err, Error{Answer: UnfinishedLimit})
	for answer := Answer(1); answer <= Setting; answer++ { // each has its text, but that which no call of this package answers
		_, ok := refusals[answer]
		is(t, ok, answer.String() != "H3_KEPT")
	}
	client.Close()
	client.Close()
	is(t, errors.Is(client.Finish(id), NoEndpoint), true)
	_, ok := client.NextToSend(0)
	is(t, ok, false)
	is(t, client.Stream(id), StreamState{})
}

// TestPriorities: the server's own counts before an update, and that before the field. Bytes are those of RFC 9218, section 7.2.
func TestPriorities(t *testing.T) {
	client, server := pair(t)
	id, err := client.OpenRequest()
	is(t, err, nil)
	is(t, client.SendHead(id, get), nil)
	carry(t, client, server, 1000)
	counts := func(wanted Priority) {
		t.Helper()
		priority, ok := server.PriorityOf(id)
		is(t, ok, true)
		is(t, priority, wanted)
	}
	counts(Priority{3, false})
	is(t, server.SetInitialPriority(id, Priority{5, false}), nil)
	counts(Priority{5, false})
	is(t, client.SendPriority(id, Priority{1, true}), nil)
	buffer := make([]byte, 64)
	count, _ := client.Outgoing(2, buffer)
	is(t, string(buffer[:count]), "\x80\x0f\x07\x00\x07\x00u=1, i")
	carry(t, client, server, 1000)
	is(t, server.SetInitialPriority(id, Priority{5, false}), nil)
	counts(Priority{1, true})
	is(t, server.SetPriority(id, Priority{7, false}), nil)
	is(t, client.SendPriority(id, Priority{0, false}), nil)
	carry(t, client, server, 1000)
	counts(Priority{7, false})
	_, ok := server.PriorityOf(4)
	is(t, ok, false)
}
