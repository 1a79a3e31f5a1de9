package h3

// #include <h3.h>
import "C"

import "fmt"

// Answer is why a call was refused: an h3_answer. It is an error, so that errors.Is(err, h3.GoingAway) asks for it.
type Answer uint32

// The answers of h3.h. Those from Closed to Raised, and Memory, are the refusals of an endpoint.
const (
	Closed          Answer = C.H3_CLOSED            // the connection had this fault before; detail: its code
	ConnectionFault Answer = C.H3_CONNECTION        // what was delivered is a fault of the connection; detail: its code
	NotReceiving    Answer = C.H3_NOT_RECEIVING     // the peer sends nothing on this stream
	AfterEnd        Answer = C.H3_AFTER_END         // the stream's end or reset came before
	NotClient       Answer = C.H3_NOT_CLIENT        // only a client opens request streams
	GoingAway       Answer = C.H3_GOING_AWAY        // the peer takes no request from this id on; detail: the id
	IDsUsedUp       Answer = C.H3_IDS_USED_UP       // there are no further ids below 2^62
	NotOpen         Answer = C.H3_NOT_OPEN          // the stream is not open at this side
	OutOfOrder      Answer = C.H3_OUT_OF_ORDER      // not at this place of the message
	WrongSide       Answer = C.H3_WRONG_SIDE        // a client sends header sections of requests, a server those of responses
	PseudoInTrailer Answer = C.H3_PSEUDO_IN_TRAILER // a trailer has no pseudo-header field
	TooLarge        Answer = C.H3_TOO_LARGE         // the field section is larger than the peer takes; detail: its size
	Critical        Answer = C.H3_CRITICAL          // the connection needs this stream
	Ended           Answer = C.H3_ENDED             // the stream has ended
	NotRequestID    Answer = C.H3_NOT_REQUEST_ID    // a server's GOAWAY and a datagram name a request stream: a multiple of 4
	Raised          Answer = C.H3_RAISED            // an earlier GOAWAY had a lower id; detail: that id
	Memory          Answer = C.H3_MEMORY            // out of memory: nothing is lost, the same call may be made again
	TableLimit      Answer = C.H3_TABLE_LIMIT       // Table is above 2^30 - 1
	BlockedLimit    Answer = C.H3_BLOCKED_LIMIT     // Blocked is above 65535
	Setting         Answer = C.H3_SETTING           // a setting cannot be announced; detail: its id
	UnfinishedLimit Answer = C.H3_UNFINISHED_LIMIT  // UnfinishedLimit is below four times what is announced
	FieldName       Answer = C.H3_FIELD_NAME        // a name is empty, not in lower case, or an unknown pseudo-header field; detail: the field's index
	FieldValue      Answer = C.H3_FIELD_VALUE       // a value is not in the grammar of its name; detail: the field's index
	FieldCount      Answer = C.H3_FIELD_COUNT       // there are more different names than fit
	Malformed       Answer = C.H3_MALFORMED         // a strict peer would call the message malformed; detail: the Malformation
	NoDatagrams     Answer = C.H3_NO_DATAGRAMS      // a side announced no HTTP datagrams, or the peer's settings have not come
	Rejected        Answer = C.H3_REJECTED          // the request is rejected, nothing was delivered; detail: CodeRequestRejected
	NoSessions      Answer = C.H3_NO_SESSIONS       // Sessions of Config is false, or the peer takes none
	Argument        Answer = C.H3_ARGUMENT          // an argument is out of range
	NoEndpoint      Answer = C.H3_NO_ENDPOINT       // the endpoint was closed
)

// String is the answer's name in h3.h.
func (a Answer) String() string { return C.GoString(C.h3_answer_text(C.uint32_t(a))) }

var refusals = map[Answer]string{
	Closed:          "the connection is closed",
	ConnectionFault: "the connection has a fault",
	NotReceiving:    "the peer sends nothing on this stream",
	AfterEnd:        "the stream's end or reset came before",
	NotClient:       "only a client opens requests",
	GoingAway:       "the peer takes no more requests",
	IDsUsedUp:       "there are no further stream ids",
	NotOpen:         "the stream is not open",
	OutOfOrder:      "not at this place of the message",
	WrongSide:       "a header section of the other side",
	PseudoInTrailer: "a pseudo-header field in a trailer",
	TooLarge:        "the fields are larger than the peer takes",
	Critical:        "the connection needs this stream",
	Ended:           "the stream has ended",
	NotRequestID:    "not the id of a request stream",
	Raised:          "an earlier GOAWAY had a lower id",
	Malformed:       "a strict peer would call the message malformed",
	Memory:          "out of memory",
	TableLimit:      "the table is above its limit",
	BlockedLimit:    "the count of blocked streams is above its limit",
	Setting:         "a setting cannot be announced",
	UnfinishedLimit: "the limit on what is unfinished is below four times what is announced",
	FieldName:       "invalid field name",
	FieldValue:      "invalid field value",
	FieldCount:      "too many fields",
	NoDatagrams:     "a side announced no HTTP datagrams",
	Rejected:        "the request is rejected",
	NoSessions:      "there are no sessions",
	Argument:        "an argument is out of range",
	NoEndpoint:      "the endpoint was closed",
}

func (a Answer) Error() string {
	if text, ok := refusals[a]; ok {
		return fmt.Sprintf("h3: %s (%s)", text, a.String())
	}
	return fmt.Sprintf("h3: %s (%d)", a.String(), uint32(a))
}

// Error is a call that was refused.
type Error struct {
	Answer Answer
	Detail uint64 // what the answer names: a code, an id, a size, a setting, a field's index, a Malformation; else 0
}

func (e Error) Error() string {
	switch e.Answer {
	case Closed, ConnectionFault, Setting, Rejected:
		return fmt.Sprintf("%s, %#x", e.Answer.Error(), e.Detail)
	case Malformed:
		return fmt.Sprintf("%s, %s", e.Answer.Error(), Malformation(e.Detail))
	case FieldName, FieldValue:
		return fmt.Sprintf("%s, field %d", e.Answer.Error(), e.Detail)
	case GoingAway, TooLarge, Raised:
		return fmt.Sprintf("%s, %d", e.Answer.Error(), e.Detail)
	}
	return e.Answer.Error()
}

// Unwrap is the answer: errors.Is(err, h3.Memory) asks for it.
func (e Error) Unwrap() error { return e.Answer }

// Code is what the QUIC connection is closed with, if the refusal says that it has a fault.
func (e Error) Code() (code uint64, isFault bool) {
	return e.Detail, e.Answer == Closed || e.Answer == ConnectionFault
}

func refusal(answer C.uint32_t, detail C.uint64_t) error {
	if answer == C.H3_OK {
		return nil
	}
	return Error{Answer(answer), uint64(detail)}
}

// Malformation is why a message is malformed (RFC 9114, section 4.1.2): an h3_malformation.
type Malformation uint64

// The malformations of h3.h. Those from LatePseudoField to NoTrailerField are found if Strict is set, TooLong if there is a
// limit on what is unfinished.
const (
	BadName              Malformation = C.H3_BAD_NAME
	BadValue             Malformation = C.H3_BAD_VALUE
	TooMany              Malformation = C.H3_TOO_MANY
	HeadOfWrongSide      Malformation = C.H3_HEAD_OF_WRONG_SIDE
	PseudoFieldInTrailer Malformation = C.H3_PSEUDO_FIELD_IN_TRAILER
	NoHead               Malformation = C.H3_NO_HEAD
	LatePseudoField      Malformation = C.H3_LATE_PSEUDO_FIELD
	WrongPseudoField     Malformation = C.H3_WRONG_PSEUDO_FIELD
	RepeatedPseudoField  Malformation = C.H3_REPEATED_PSEUDO_FIELD
	ConnectionField      Malformation = C.H3_CONNECTION_FIELD
	BadContentLength     Malformation = C.H3_BAD_CONTENT_LENGTH
	BadProtocol          Malformation = C.H3_BAD_PROTOCOL
	BadConnect           Malformation = C.H3_BAD_CONNECT
	MissingPseudoField   Malformation = C.H3_MISSING_PSEUDO_FIELD
	BadScheme            Malformation = C.H3_BAD_SCHEME
	BadAuthority         Malformation = C.H3_BAD_AUTHORITY
	BadPath              Malformation = C.H3_BAD_PATH
	BadStatus            Malformation = C.H3_BAD_STATUS
	NoTrailerField       Malformation = C.H3_NO_TRAILER_FIELD
	TooLong              Malformation = C.H3_TOO_LONG
)

// String is the malformation's name in h3.h.
func (m Malformation) String() string { return C.GoString(C.h3_malformation_text(C.uint64_t(m))) }

// Codes of RFC 9114, section 8.1, and of RFC 9297, section 5.2, that a program names.
const (
	DatagramError     = C.H3_CODE_DATAGRAM_ERROR
	NoError           = C.H3_CODE_NO_ERROR
	InternalError     = C.H3_CODE_INTERNAL_ERROR
	ExcessiveLoad     = C.H3_CODE_EXCESSIVE_LOAD
	RequestRejected   = C.H3_CODE_REQUEST_REJECTED
	RequestCancelled  = C.H3_CODE_REQUEST_CANCELLED
	RequestIncomplete = C.H3_CODE_REQUEST_INCOMPLETE
	MessageError      = C.H3_CODE_MESSAGE_ERROR
)

// Fault is why a stream delivers nothing more: one of FaultConnection, FaultMalformed, FaultReset, FaultCanceled and FaultMemory, which
// loses nothing.
type Fault struct {
	Kind   Kind
	Number uint64 // a code, or a Malformation; else 0
}

func (f Fault) Error() string {
	switch f.Kind {
	case FaultConnection:
		return fmt.Sprintf("h3: the connection has a fault, %#x", f.Number)
	case FaultMalformed:
		return fmt.Sprintf("h3: the message is malformed: %s", Malformation(f.Number))
	case FaultReset:
		return fmt.Sprintf("h3: the peer reset the stream, %#x", f.Number)
	case FaultCanceled:
		return "h3: the stream was given up"
	}
	return "h3: out of memory"
}

// Is says whether another error is the same kind of fault, or Memory: errors.Is(err, h3.Memory) holds of a call and of a pull.
func (f Fault) Is(other error) bool { return f.Kind == FaultMemory && other == error(Memory) }

// Code is the code that ends the stream, or the connection if the fault is the connection's (RFC 9114, sections 4.1.1, 4.1.2 and 8.1).
func (f Fault) Code(server bool) uint64 {
	return uint64(C.h3_error_code(C.uint32_t(f.Kind), C.uint64_t(f.Number), side(server)))
}
