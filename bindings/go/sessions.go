package h3

// #include <h3.h>
import "C"

// OpenSessionStream opens a stream of the WebTransport session whose request has this id: both ways, or from this side alone. QUIC opens the
// stream of the id that it returns.
func (e *Endpoint) OpenSessionStream(session uint64, bothWays bool) (uint64, error) {
	var id, detail C.uint64_t
	var both C.uint32_t
	if bothWays {
		both = 1
	}
	err := refusal(C.h3_open_session_stream(&e.raw, C.uint64_t(session), both, &id, &detail), detail)
	return uint64(id), err
}

// SendRaw sends bytes on a stream of a WebTransport session, as they are. The bytes are copied.
func (e *Endpoint) SendRaw(id uint64, bytes []byte) error {
	var detail C.uint64_t
	return refusal(C.h3_send_raw(&e.raw, C.uint64_t(id), start(bytes), C.size_t(len(bytes)), &detail), detail)
}

// NextOfSession is the lowest id from an id on of a stream of a WebTransport session; false: there is none. When the session ends, close each
// of them with CloseStream.
func (e *Endpoint) NextOfSession(session, from uint64) (uint64, bool) {
	var id C.uint64_t
	answer := C.h3_next_of_session(&e.raw, C.uint64_t(session), C.uint64_t(from), &id)
	return uint64(id), answer == C.H3_OK
}

// WebTransportCode is the code with which a stream of a session is reset for a number of an application.
func WebTransportCode(number uint32) uint64 {
	return uint64(C.h3_webtransport_code(C.uint32_t(number)))
}

// WebTransportNumber is the number of an application for such a code; false: no number has it.
func WebTransportNumber(code uint64) (uint32, bool) {
	var number C.uint32_t
	answer := C.h3_webtransport_number(C.uint64_t(code), &number)
	return uint32(number), answer == C.H3_OK
}
