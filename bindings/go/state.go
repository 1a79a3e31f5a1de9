package h3

// #include <h3.h>
import "C"

// StreamState is what an endpoint tells of a stream, as h3_stream_state.
type StreamState struct {
	Waiting     uint64 // bytes that wait to be sent
	Unread      uint64 // bytes that came and are still held: grant credit for the others
	HasOutgoing bool   // something can be sent
	Finished    bool   // the local message was finished
	Reset       bool   // sending was reset
	Tries       int    // how often the field section that is next was tried
}

// Stream is the state of a stream. Of an invalid id (2^62 or more), and of an endpoint that was closed, all of it is zero.
func (e *Endpoint) Stream(id uint64) StreamState {
	var s C.h3_stream_state
	if C.h3_stream(&e.raw, C.uint64_t(id), &s) != C.H3_OK {
		return StreamState{}
	}
	return StreamState{uint64(s.waiting), uint64(s.unread), s.has_outgoing == 1, s.is_finished == 1, s.is_reset == 1, int(s.tries)}
}

// FrameLeft is how many bytes of the payload of the frame under way are still to come on a request stream or the peer's control stream.
func (e *Endpoint) FrameLeft(id uint64) uint64 {
	var left C.uint64_t
	C.h3_frame_left(&e.raw, C.uint64_t(id), &left)
	return uint64(left)
}

// StreamType is the type of a unidirectional stream (RFC 9114, section 6.2), as h3_stream_type.
type StreamType int

const (
	StreamUntold  StreamType = C.H3_STREAM_UNTOLD // too few bytes came
	StreamControl StreamType = C.H3_STREAM_CONTROL
	StreamEncoder StreamType = C.H3_STREAM_ENCODER
	StreamDecoder StreamType = C.H3_STREAM_DECODER
	StreamPush    StreamType = C.H3_STREAM_PUSH
	StreamSession StreamType = C.H3_STREAM_SESSION // of a WebTransport session
	StreamUnknown StreamType = C.H3_STREAM_UNKNOWN // what comes on it is dropped: QUIC may send STOP_SENDING
	StreamOther   StreamType = C.H3_STREAM_OTHER   // of another type, and delivered: with Config.OtherStreams
)

// StreamKind is the type of a unidirectional stream of the peer, by what came on it; false: it is another stream.
func (e *Endpoint) StreamKind(id uint64) (StreamType, bool) {
	var kind C.uint32_t
	answer := C.h3_stream_kind(&e.raw, C.uint64_t(id), &kind)
	return StreamType(kind), answer == C.H3_OK
}

// OtherType is the type of a StreamOther, by the number that it begins with; false: it is another stream.
func (e *Endpoint) OtherType(id uint64) (uint64, bool) {
	var number C.uint64_t
	answer := C.h3_other_type(&e.raw, C.uint64_t(id), &number)
	return uint64(number), answer == C.H3_OK
}

// PeerLimits is what the peer's settings allow.
type PeerLimits struct {
	Table   uint64 // the capacity of its dynamic table in bytes
	Blocked uint64 // how many of its streams may wait
	Section uint64 // the greatest size of a field section
}

// ConnectionState is what an endpoint tells of the connection, as h3_state.
type ConnectionState struct {
	SendingTable, ReceivingTable uint64      // sizes of the dynamic tables that this side and the peer write, in bytes
	WaitingHeads                 uint64      // how many streams wait for insertions
	Sent                         uint64      // bytes of names, values and bodies that were sent, and 64 for each field and each call
	Goaway                       *uint64     // the id of the peer's last GOAWAY; nil: none came
	Peer                         *PeerLimits // nil: its settings have not come
}

// Connection is the state of the connection. Of an endpoint that was closed all of it is zero.
func (e *Endpoint) Connection() ConnectionState {
	var s C.h3_state
	if C.h3_connection(&e.raw, &s) != C.H3_OK {
		return ConnectionState{}
	}
	state := ConnectionState{
		SendingTable: uint64(s.sending_table), ReceivingTable: uint64(s.receiving_table),
		WaitingHeads: uint64(s.waiting_heads), Sent: uint64(s.sent),
	}
	if s.has_goaway == 1 {
		id := uint64(s.goaway)
		state.Goaway = &id
	}
	if s.has_settings == 1 {
		state.Peer = &PeerLimits{uint64(s.peer_table), uint64(s.peer_blocked), uint64(s.peer_section)}
	}
	return state
}

// EventKind is the kind of an event of the connection, as h3_event.
type EventKind int

const (
	EventSettings EventKind = C.H3_EVENT_SETTINGS // the peer's settings came
	EventGoaway   EventKind = C.H3_EVENT_GOAWAY   // the peer's last GOAWAY has another id than was returned before
)

// Event is an event of the connection.
type Event struct {
	Kind EventKind
	ID   uint64 // of EventGoaway: a server processes no request from this id on (RFC 9114, section 5.2)
}

// NextEvent returns the next event of the connection, each once. After data on a unidirectional stream of the peer, call it until it
// returns false: then there is none. Of several GOAWAY frames it returns the last one.
func (e *Endpoint) NextEvent() (Event, bool) {
	var kind C.uint32_t
	var number C.uint64_t
	answer := C.h3_next_event(&e.raw, &kind, &number)
	return Event{EventKind(kind), uint64(number)}, answer == C.H3_OK
}

// PeerSetting is the value of a setting that the peer announced (RFC 9114, section 7.2.4); false: it is not among them, or they have not come.
func (e *Endpoint) PeerSetting(setting uint64) (uint64, bool) {
	var value C.uint64_t
	answer := C.h3_peer_setting(&e.raw, C.uint64_t(setting), &value)
	return uint64(value), answer == C.H3_OK
}

// RememberSettings copies the settings of the server, at most 128 bytes. Keep them with its session ticket for NewResumed. It returns false
// before they came, or out of memory.
func (e *Endpoint) RememberSettings() ([]byte, bool) {
	var buffer [128]byte
	var n C.size_t
	answer := C.h3_remember_settings(&e.raw, start(buffer[:]), C.size_t(len(buffer)), &n)
	return buffer[:n], answer == C.H3_OK
}

// SettingsKept returns whether the settings that came keep to those that were remembered. The second result is false before they came, or if
// the bytes are no settings. If kept is false, and the server accepted the 0-RTT data, close the connection with CodeSettingsError (RFC 9114,
// section 7.2.4.2).
func (e *Endpoint) SettingsKept(remembered []byte) (kept, known bool) {
	var is C.uint32_t
	answer := C.h3_settings_kept(&e.raw, start(remembered), C.size_t(len(remembered)), &is)
	return is == 1, answer == C.H3_OK
}

func side(server bool) C.int {
	if server {
		return 1
	}
	return 0
}

// ControlID, EncoderID and DecoderID are the ids of the local unidirectional streams.
func ControlID(server bool) uint64 { return uint64(C.h3_control_id(side(server))) }

// EncoderID is the id of the local encoder stream.
func EncoderID(server bool) uint64 { return uint64(C.h3_encoder_id(side(server))) }

// DecoderID is the id of the local decoder stream.
func DecoderID(server bool) uint64 { return uint64(C.h3_decoder_id(side(server))) }

// Version is the version of the library, major, minor and patch, a byte each, and whether it was proved.
func Version() (version uint32, isProved bool) {
	v := uint32(C.h3_version())
	return v &^ C.H3_UNPROVED, v&C.H3_UNPROVED == 0
}
