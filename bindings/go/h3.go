// Package h3 is one endpoint of an HTTP/3 connection (RFC 9114, RFC 9204), for programs that have a QUIC library: the calls of
// beanwhile/h3.h.
//
// An Endpoint reads no socket and starts no goroutine. A program reads what came on a stream (Read; or Deliver and Pull), sends messages
// (OpenRequest, SendHead, SendBody or SendBodyOf, SendTrailer, Finish), and passes what waits to QUIC (NextToSend, Outgoing, Advance,
// EndTaken).
//
// The library is found by pkg-config, as beanwhile-h3.
package h3

/*
#cgo pkg-config: beanwhile-h3
#include <h3.h>
*/
import "C"

import "unsafe"

// Endpoint is one endpoint of a connection. One call at a time: a program with several goroutines has a lock around its calls. Two
// endpoints share nothing. Close frees it.
type Endpoint struct {
	raw C.h3_endpoint
}

// New makes an endpoint. Begin the configuration with DefaultConfig.
func New(config Config) (*Endpoint, error) {
	var detail C.uint64_t
	raw := config.raw()
	endpoint := &Endpoint{}
	if err := refusal(C.h3_new(&endpoint.raw, &raw, &detail), detail); err != nil {
		return nil, err
	}
	return endpoint, nil
}

// FurtherSetting is a setting of an extension (RFC 9114, section 7.2.4).
type FurtherSetting struct {
	ID, Value uint64
}

// settings is the beginning of an array of them, and nil if there are none.
func settings(further []FurtherSetting) *C.h3_setting {
	if len(further) == 0 {
		return nil
	}
	pairs := make([]C.h3_setting, len(further))
	for at, setting := range further {
		pairs[at] = C.h3_setting{id: C.uint64_t(setting.ID), value: C.uint64_t(setting.Value)}
	}
	return &pairs[0]
}

// NewWith makes an endpoint that announces further settings after those of the configuration, at most 8, for an extension that the caller
// speaks. Refused as Setting: an id of HTTP/2's, one that the configuration announces, one given twice, an id or a value of 2^62 or more.
func NewWith(config Config, further ...FurtherSetting) (*Endpoint, error) {
	var detail C.uint64_t
	raw := config.raw()
	endpoint := &Endpoint{}
	answer := C.h3_new_with(&endpoint.raw, &raw, settings(further), C.size_t(len(further)), &detail)
	if err := refusal(answer, detail); err != nil {
		return nil, err
	}
	return endpoint, nil
}

// NewResumed makes a client for a connection that sends 0-RTT data. RememberSettings of an earlier connection copied the settings that it keeps
// to until the server's settings come (RFC 9114, section 7.2.4.2). It announces further settings as NewWith does.
func NewResumed(config Config, remembered []byte, further ...FurtherSetting) (*Endpoint, error) {
	var detail C.uint64_t
	raw := config.raw()
	endpoint := &Endpoint{}
	answer := C.h3_new_resumed(&endpoint.raw, &raw, settings(further), C.size_t(len(further)), start(remembered), C.size_t(len(remembered)), &detail)
	if err := refusal(answer, detail); err != nil {
		return nil, err
	}
	return endpoint, nil
}

// Close frees the endpoint. A second one does nothing, and every other call after it returns NoEndpoint.
func (e *Endpoint) Close() {
	C.h3_free(&e.raw)
}

// OpenRequest opens a client's next request, and returns the id of its stream: 0, 4, 8, ..
//
// QUIC counts its streams by itself. Call OpenRequest first, and open no stream of QUIC if it is refused. If it gives an id and QUIC has no
// room, keep the id for the next stream that QUIC opens.
func (e *Endpoint) OpenRequest() (uint64, error) {
	var id, detail C.uint64_t
	err := refusal(C.h3_open_request(&e.raw, &id, &detail), detail)
	return uint64(id), err
}

// NextRequestID is the id that OpenRequest gives next, or its refusal. It opens nothing.
func (e *Endpoint) NextRequestID() (uint64, error) {
	var id, detail C.uint64_t
	err := refusal(C.h3_next_request_id(&e.raw, &id, &detail), detail)
	return uint64(id), err
}

// OpenRequestAt opens the request of an id that QUIC gave, and all with lower ids that are not open.
func (e *Endpoint) OpenRequestAt(id uint64) error {
	var detail C.uint64_t
	return refusal(C.h3_open_request_at(&e.raw, C.uint64_t(id), &detail), detail)
}

// start is the address of the first byte, or nil if there is none.
func start(bytes []byte) unsafe.Pointer {
	if len(bytes) == 0 {
		return nil
	}
	return unsafe.Pointer(&bytes[0])
}

// Field is a field of a header or trailer section. A name is in lower case; a pseudo-header field's begins with ':'.
type Field struct {
	Name, Value string
	// NeverIndexed: the field is a literal on every hop, and in no table of QPACK (RFC 9204, section 7.1.3): so secrets are sent. One that
	// came so has to be sent on so.
	NeverIndexed bool
}

// row is a list as the library takes it: the sizes of names and values, the flags of fields, and all bytes of names and values.
type row struct {
	sizes []C.h3_field_size
	flags []C.uint8_t
	bytes []byte
}

func inARow(fields []Field) row {
	total := 0
	for _, field := range fields {
		total += len(field.Name) + len(field.Value)
	}
	list := row{make([]C.h3_field_size, len(fields)), make([]C.uint8_t, len(fields)), make([]byte, 0, total)}
	for i, field := range fields {
		list.sizes[i].name, list.sizes[i].value = C.uint32_t(len(field.Name)), C.uint32_t(len(field.Value))
		if field.NeverIndexed {
			list.flags[i] = C.H3_NEVER_INDEX
		}
		list.bytes = append(append(list.bytes, field.Name...), field.Value...)
	}
	return list
}

func (list row) first() *C.h3_field_size {
	if len(list.sizes) == 0 {
		return nil
	}
	return &list.sizes[0]
}

func (list row) firstFlags() *C.uint8_t {
	if len(list.flags) == 0 {
		return nil
	}
	return &list.flags[0]
}

func (list row) count() C.size_t { return C.size_t(len(list.sizes)) }

func (list row) len() C.size_t { return C.size_t(len(list.bytes)) }

// SendHead sends a header section: these fields in this order. Pseudo-header fields come first, each once. A response with a status from
// 100 to 199 is an interim response: send another header section after it.
func (e *Endpoint) SendHead(id uint64, fields []Field) error {
	var detail C.uint64_t
	list := inARow(fields)
	answer := C.h3_send_head(&e.raw, C.uint64_t(id), list.first(), list.firstFlags(), list.count(), start(list.bytes), list.len(), &detail)
	return refusal(answer, detail)
}

// SendTrailer sends a trailer section as the list that it is given as.
func (e *Endpoint) SendTrailer(id uint64, fields []Field) error {
	var detail C.uint64_t
	list := inARow(fields)
	answer := C.h3_send_trailer(&e.raw, C.uint64_t(id), list.first(), list.firstFlags(), list.count(), start(list.bytes), list.len(), &detail)
	return refusal(answer, detail)
}

// SendBody sends a piece of a body. The bytes are copied.
func (e *Endpoint) SendBody(id uint64, bytes []byte) error {
	var detail C.uint64_t
	return refusal(C.h3_send_body(&e.raw, C.uint64_t(id), start(bytes), C.size_t(len(bytes)), &detail), detail)
}

// SendBodyOf sends a piece of a body of this length, whose bytes stay with the caller: the package never reads them. OutgoingPast says
// when they go out. Keep them until QUIC needs them no more.
func (e *Endpoint) SendBodyOf(id uint64, length int) error {
	var detail C.uint64_t
	if length < 0 {
		return Error{Answer: Argument}
	}
	return refusal(C.h3_send_body_of(&e.raw, C.uint64_t(id), C.size_t(length), &detail), detail)
}

// Finish says that the local message is whole: FIN goes after what waits.
func (e *Endpoint) Finish(id uint64) error {
	var detail C.uint64_t
	return refusal(C.h3_finish(&e.raw, C.uint64_t(id), &detail), detail)
}

// Reset ends sending on a stream, and drops what waits: QUIC sends RESET_STREAM.
func (e *Endpoint) Reset(id uint64) error {
	var detail C.uint64_t
	return refusal(C.h3_reset(&e.raw, C.uint64_t(id), &detail), detail)
}

// Cancel says that nothing more of a request stream is needed: QUIC sends STOP_SENDING.
func (e *Endpoint) Cancel(id uint64) error {
	var detail C.uint64_t
	return refusal(C.h3_cancel(&e.raw, C.uint64_t(id), &detail), detail)
}

// CloseStream cancels and resets a request stream, each if that half is open: which frames QUIC is to send for it.
func (e *Endpoint) CloseStream(id uint64) (stopSending, resetStream bool, err error) {
	var stop, reset C.uint32_t
	var detail C.uint64_t
	err = refusal(C.h3_close_stream(&e.raw, C.uint64_t(id), &stop, &reset, &detail), detail)
	return stop == 1, reset == 1, err
}

// Goaway says that a server takes no request from this id on, a multiple of 4, or a client no push (RFC 9114, section 5.2).
func (e *Endpoint) Goaway(id uint64) error {
	var detail C.uint64_t
	return refusal(C.h3_goaway(&e.raw, C.uint64_t(id), &detail), detail)
}

// ShutdownNotice is the first step of a shutdown (RFC 9114, section 5.2): it sends a GOAWAY with the greatest id. After it arrives the peer
// opens no further request. What it sent before is processed.
func (e *Endpoint) ShutdownNotice() error {
	var detail C.uint64_t
	return refusal(C.h3_shutdown_notice(&e.raw, &detail), detail)
}

// Shutdown is the second step: a GOAWAY of a server with FirstUnseen, of a client with 0. A delivery of a later request is Rejected then:
// deliver no more of its stream, and reset it both ways with CodeRequestRejected.
func (e *Endpoint) Shutdown() error {
	var detail C.uint64_t
	return refusal(C.h3_shutdown(&e.raw, &detail), detail)
}

// FirstUnseen is the first id of a request stream above all of which anything came.
func (e *Endpoint) FirstUnseen() uint64 {
	var id C.uint64_t
	C.h3_first_unseen(&e.raw, &id)
	return uint64(id)
}

// IsDrained says that nothing is left to be done: the connection can be closed without losing a request. It needs EndTaken for each FIN.
func (e *Endpoint) IsDrained() bool {
	var drained C.uint32_t
	return C.h3_is_drained(&e.raw, &drained) == C.H3_OK && drained == 1
}

// NextToSend is the lowest stream from an id on on which bytes wait, or an end of which EndTaken did not speak; false: there is none.
func (e *Endpoint) NextToSend(from uint64) (uint64, bool) {
	var id C.uint64_t
	answer := C.h3_next_to_send(&e.raw, C.uint64_t(from), &id)
	return uint64(id), answer == C.H3_OK
}

// NextByPriority is the stream that sends next (RFC 9218, section 10): the local streams first, then the most urgent, by turns. It returns
// false if none does.
func (e *Endpoint) NextByPriority() (uint64, bool) {
	var id C.uint64_t
	answer := C.h3_next_by_priority(&e.raw, &id)
	return uint64(id), answer == C.H3_OK
}

// SetPriority gives a request stream its priority, whatever its client says.
func (e *Endpoint) SetPriority(id uint64, priority Priority) error {
	var detail C.uint64_t
	urgency, incremental := C.uint32_t(priority.Urgency), bit(priority.Incremental)
	return refusal(C.h3_set_priority(&e.raw, C.uint64_t(id), urgency, incremental, &detail), detail)
}

// SetInitialPriority sets the priority that the request's `priority` field asks for (ReadPriority). A PRIORITY_UPDATE frame of the client
// overrides it, and so does SetPriority. The default is urgency 3, not incremental.
func (e *Endpoint) SetInitialPriority(id uint64, priority Priority) error {
	var detail C.uint64_t
	urgency, incremental := C.uint32_t(priority.Urgency), bit(priority.Incremental)
	return refusal(C.h3_set_initial_priority(&e.raw, C.uint64_t(id), urgency, incremental, &detail), detail)
}

// PriorityOf is the priority that counts of a request stream; false: it is not open.
func (e *Endpoint) PriorityOf(id uint64) (Priority, bool) {
	var urgency, incremental C.uint32_t
	answer := C.h3_priority(&e.raw, C.uint64_t(id), &urgency, &incremental)
	return Priority{uint8(urgency), incremental != 0}, answer == C.H3_OK
}

// SendPriority tells the server the priority of a response from now on (RFC 9218, section 7.2).
func (e *Endpoint) SendPriority(id uint64, priority Priority) error {
	var detail C.uint64_t
	urgency, incremental := C.uint32_t(priority.Urgency), bit(priority.Incremental)
	return refusal(C.h3_send_priority(&e.raw, C.uint64_t(id), urgency, incremental, &detail), detail)
}

// Hold says that QUIC has no credit for a stream, so that NextByPriority skips it, or that it has credit again.
func (e *Endpoint) Hold(id uint64, held bool) error {
	var detail C.uint64_t
	return refusal(C.h3_hold(&e.raw, C.uint64_t(id), bit(held), &detail), detail)
}

// bit is 1 or 0.
func bit(is bool) C.uint32_t {
	if is {
		return 1
	}
	return 0
}

// NextUnblocked returns the lowest id, from the given one on, of a stream that can be pulled again: its pull returned Waiting, and the
// insertions that it needs have arrived. It returns false if there is none.
func (e *Endpoint) NextUnblocked(from uint64) (uint64, bool) {
	var id C.uint64_t
	answer := C.h3_next_unblocked(&e.raw, C.uint64_t(from), &id)
	return uint64(id), answer == C.H3_OK
}

// Outgoing copies the first bytes that wait on a stream into the buffer, and returns whether the stream ends after them. They wait until
// Advance. It is for streams without a body of SendBodyOf: if bytes of one follow it returns none, and OutgoingPast tells of them.
func (e *Endpoint) Outgoing(id uint64, buffer []byte) (count int, end bool) {
	count, past, end := e.OutgoingPast(id, buffer)
	if past > 0 {
		return 0, false
	}
	return count, end
}

// OutgoingPast copies the first bytes that wait on a stream into the buffer. It returns how many bytes of a body that the caller holds
// (SendBodyOf) come next, and whether the stream ends after both. They wait until Advance, which counts both.
func (e *Endpoint) OutgoingPast(id uint64, buffer []byte) (count, past int, end bool) {
	var n, held C.size_t
	var fin C.uint32_t
	if C.h3_outgoing(&e.raw, C.uint64_t(id), start(buffer), C.size_t(len(buffer)), &n, &held, &fin) != C.H3_OK {
		return 0, 0, false
	}
	return int(n), int(held), fin == 1
}

// Advance says that QUIC has so many bytes of a stream: at most those that wait.
func (e *Endpoint) Advance(id uint64, count int) error {
	if count < 0 {
		return Error{Answer: Argument}
	}
	return refusal(C.h3_advance(&e.raw, C.uint64_t(id), C.size_t(count)), 0)
}

// EndTaken says that QUIC has the FIN of a stream: NextToSend names it no longer. false: no end was next.
func (e *Endpoint) EndTaken(id uint64) bool { return C.h3_end_taken(&e.raw, C.uint64_t(id)) == C.H3_OK }

// taken is the refusal of a delivery. If the bytes were taken and an allocation failed while they were read, nothing is refused: the next
// delivery or pull reads on.
func taken(answer C.uint32_t, detail C.uint64_t) error {
	if answer == C.H3_KEPT {
		return nil
	}
	return refusal(answer, detail)
}

// Deliver passes bytes that came on a stream, after those that came before. An Error with a Code ends the connection. One that is Memory
// took nothing: deliver again.
func (e *Endpoint) Deliver(id uint64, bytes []byte) error {
	var detail C.uint64_t
	return taken(C.h3_deliver(&e.raw, C.uint64_t(id), start(bytes), C.size_t(len(bytes)), &detail), detail)
}

// DeliverEnd says that the stream's FIN came.
func (e *Endpoint) DeliverEnd(id uint64) error {
	var detail C.uint64_t
	return taken(C.h3_deliver_end(&e.raw, C.uint64_t(id), &detail), detail)
}

// DeliverReset says that RESET_STREAM came with this code.
func (e *Endpoint) DeliverReset(id, code uint64) error {
	var detail C.uint64_t
	return taken(C.h3_deliver_reset(&e.raw, C.uint64_t(id), C.uint64_t(code), &detail), detail)
}
