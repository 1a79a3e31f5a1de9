package h3

// #include <h3.h>
import "C"

// DatagramKind is what a datagram is that came.
type DatagramKind int

// What a datagram is that came.
const (
	DatagramFor   DatagramKind = iota // it is for the request on the stream ID, with this Payload
	DatagramEarly                     // for the stream ID, before its first bytes or the peer's settings: drop it, or read it again later
	DatagramLate                      // nothing more is received on its stream: drop it
	DatagramOff                       // one of the sides announced no datagrams: drop it
)

// Datagram is what came as the payload of a QUIC DATAGRAM frame.
type Datagram struct {
	Kind    DatagramKind
	ID      uint64 // of DatagramFor and DatagramEarly
	Payload []byte // of DatagramFor: a part of the bytes that came
}

const headRoom = 16

// AppendDatagramHead appends what stands in front of the payload of an HTTP datagram for the request on a stream, 1 to 8 bytes. Append the
// payload, and send both as the payload of a QUIC DATAGRAM frame (RFC 9297, section 2.1).
func (e *Endpoint) AppendDatagramHead(to []byte, id uint64) ([]byte, error) {
	var head [headRoom]byte
	var n C.size_t
	var detail C.uint64_t
	err := refusal(C.h3_datagram_head(&e.raw, C.uint64_t(id), start(head[:]), headRoom, &n, &detail), detail)
	if err != nil {
		return to, err
	}
	return append(to, head[:n]...), nil
}

// ReadDatagram reads the payload of a QUIC DATAGRAM frame, and keeps nothing of it. If the datagram is malformed, or the connection had a
// fault before, it returns an Error: close the connection with its Code.
func (e *Endpoint) ReadDatagram(bytes []byte) (Datagram, error) {
	var id, detail C.uint64_t
	var from C.size_t
	switch answer := C.h3_read_datagram(&e.raw, start(bytes), C.size_t(len(bytes)), &id, &from, &detail); answer {
	case C.H3_OK:
		return Datagram{DatagramFor, uint64(id), bytes[from:]}, nil
	case C.H3_NOT_OPEN:
		return Datagram{DatagramEarly, uint64(id), nil}, nil
	case C.H3_AFTER_END:
		return Datagram{Kind: DatagramLate}, nil
	case C.H3_NO_DATAGRAMS:
		return Datagram{Kind: DatagramOff}, nil
	default:
		return Datagram{Kind: DatagramOff}, refusal(answer, detail)
	}
}

// CapsuleReader reads the capsules of one stream (RFC 9297, section 3.2), whose bytes come in any pieces. The zero value is a reader at the
// beginning of the data.
type CapsuleReader struct {
	raw C.h3_capsule_reader
}

// CapsulePart is what bytes of capsules tell.
type CapsulePart int

// What bytes of capsules tell.
const (
	CapsulePending CapsulePart = C.H3_CAPSULE_PENDING // nothing more: all bytes were taken
	CapsuleHead    CapsulePart = C.H3_CAPSULE_HEAD    // a capsule begins: its Type, and the Length of its value
	CapsuleValue   CapsulePart = C.H3_CAPSULE_VALUE   // the next bytes of the Value
	CapsuleEnd     CapsulePart = C.H3_CAPSULE_END     // the capsule is whole
)

// Capsule is what a reader tells.
type Capsule struct {
	Part         CapsulePart
	Type, Length uint64 // of CapsuleHead
	Value        []byte // of CapsuleValue: a part of the bytes that were given
}

// Read tells what comes next in bytes that follow, and returns those that it did not take. Call it with these until it tells
// CapsulePending. Skip the values of types that you do not know.
func (r *CapsuleReader) Read(bytes []byte) (Capsule, []byte) {
	var used C.size_t
	var told C.h3_capsule
	C.h3_read_capsule(&r.raw, start(bytes), C.size_t(len(bytes)), &used, &told)
	capsule := Capsule{Part: CapsulePart(told.part)}
	switch capsule.Part {
	case CapsuleHead:
		capsule.Type, capsule.Length = uint64(told.capsule_type), uint64(told.length)
	case CapsuleValue:
		capsule.Value = bytes[:used]
	}
	return capsule, bytes[used:]
}

// MayEnd returns whether the data may end here. Call it after CapsulePending, when the stream ends. If it returns false, the last capsule is
// not whole, and the message is malformed (RFC 9297, section 3.3).
func (r *CapsuleReader) MayEnd() bool {
	var ends C.uint32_t
	return C.h3_capsule_ends(&r.raw, &ends) == C.H3_OK && ends == 1
}

// AppendCapsuleHead appends what stands in front of the value of a capsule: send it, and so many bytes of a value, as a body. A type or
// length of 2^62 or more is an Argument.
func AppendCapsuleHead(to []byte, capsuleType, length uint64) ([]byte, error) {
	var head [headRoom]byte
	var n C.size_t
	if err := refusal(C.h3_capsule_head(C.uint64_t(capsuleType), C.uint64_t(length), start(head[:]), headRoom, &n), 0); err != nil {
		return to, err
	}
	return append(to, head[:n]...), nil
}
