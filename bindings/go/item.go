package h3

// #include <h3.h>
import "C"

// Kind is what a read or a pull returned: an h3_kind.
type Kind uint32

// Items, pauses (Pending, Waiting, NoMessages), and the kinds of a Fault.
const (
	Interim         Kind = C.H3_INTERIM        // a response's header section with a status from 100 to 199
	Head            Kind = C.H3_HEAD           // the header section
	Body            Kind = C.H3_BODY           // a piece of the body
	Trailer         Kind = C.H3_TRAILER        // the trailer
	TooLargeHead    Kind = C.H3_TOO_LARGE_HEAD // in the place of a header or trailer section above the local limit; Number: its size
	Session         Kind = C.H3_SESSION        // a WebTransport session begins; Number: its id
	Raw             Kind = C.H3_RAW            // bytes of a session, or of a StreamOther
	End             Kind = C.H3_END            // the stream has ended, and all of it was delivered
	Pending         Kind = C.H3_PENDING        // the next item is not there yet
	Waiting         Kind = C.H3_WAITING        // the next field section needs insertions of the peer's encoder; Number: how many in all
	NoMessages      Kind = C.H3_NO_MESSAGES    // the stream has no messages for this side
	FaultConnection Kind = C.H3_FAULT_CONNECTION
	FaultMalformed  Kind = C.H3_FAULT_MALFORMED
	FaultReset      Kind = C.H3_FAULT_RESET
	FaultCanceled   Kind = C.H3_FAULT_CANCELED
	FaultMemory     Kind = C.H3_FAULT_MEMORY
	BodyGiven       Kind = C.H3_BODY_GIVEN // of Read: a piece of the body, a part of the bytes that were given
)

// String is the kind's name in h3.h.
func (k Kind) String() string { return C.GoString(C.h3_kind_text(C.uint32_t(k))) }

// IsPause says that nothing was delivered yet, and nothing is wrong.
func (k Kind) IsPause() bool { return k == Pending || k == Waiting || k == NoMessages }

// Item is what a read or a pull returned: its kind, and what the kind has.
type Item struct {
	Kind   Kind
	Status int     // of a response's header section
	Number uint64  // what the kind says
	Fields []Field // of a header or trailer section
	Bytes  []byte  // of a body, or of a session; of BodyGiven a part of the bytes that were given
}

// Value is the first value of a name, and whether there is one.
func (i Item) Value(name string) (string, bool) {
	for _, field := range i.Fields {
		if field.Name == name {
			return field.Value, true
		}
	}
	return "", false
}

// fields reads the list of the header or trailer section that was pulled last, in the order that it came.
func (e *Endpoint) fields(count, length int) ([]Field, error) {
	sizes, flags, bytes, fields := make([]C.h3_field_size, count), make([]C.uint8_t, count), make([]byte, length), make([]Field, count)
	if answer := C.h3_item_fields(&e.raw, &sizes[0], &flags[0], C.size_t(count), start(bytes), C.size_t(length)); answer != C.H3_OK {
		return nil, refusal(answer, 0)
	}
	for i, size := range sizes {
		name, value := int(size.name), int(size.value)
		fields[i] = Field{string(bytes[:name]), string(bytes[name : name+value]), flags[i] == C.H3_NEVER_INDEX}
		bytes = bytes[name+value:]
	}
	return fields, nil
}

// bytes reads the bytes of the body or session that was pulled last.
func (e *Endpoint) bytes(length int) ([]byte, error) {
	var count C.size_t
	bytes := make([]byte, length)
	answer := C.h3_item_bytes(&e.raw, 0, start(bytes), C.size_t(length), &count)
	return bytes, refusal(answer, 0)
}

// Read takes bytes that came on a stream, and its end after them. It returns the next item, a pause, or a Fault as the error; and the bytes
// that are left. Call it with these until a pause, End, or a Fault that is not Memory. It copies no body: the Bytes of an item of kind
// BodyGiven are a part of those that were given. If an allocation fails nothing is lost: go on with the bytes that are left.
func (e *Endpoint) Read(id uint64, bytes []byte, end bool) (item Item, rest []byte, err error) {
	var raw C.h3_item
	var used C.size_t
	var detail C.uint64_t
	given := bytes
	for answer := C.uint32_t(C.H3_KEPT); answer == C.H3_KEPT; bytes = bytes[used:] {
		used, given = 0, bytes
		answer = C.h3_read(&e.raw, C.uint64_t(id), start(bytes), C.size_t(len(bytes)), side(end), &used, &raw, &detail)
		if answer != C.H3_OK && answer != C.H3_KEPT {
			return Item{}, bytes[used:], refusal(answer, detail)
		}
	}
	if raw.kind == C.H3_BODY_GIVEN {
		from, to := int(raw.number), int(raw.number)+int(raw.len)
		return Item{Kind: BodyGiven, Bytes: given[from:to:to]}, bytes, nil
	}
	item, err = e.item(raw)
	return item, bytes, err
}

// Pull returns what comes next on a stream: an item, a pause, or a Fault as the error. If an allocation fails nothing is lost: pull again.
func (e *Endpoint) Pull(id uint64) (Item, error) {
	var raw C.h3_item
	if answer := C.h3_pull(&e.raw, C.uint64_t(id), &raw); answer != C.H3_OK {
		return Item{}, refusal(answer, 0)
	}
	return e.item(raw)
}

// item has what the endpoint holds of an item.
func (e *Endpoint) item(raw C.h3_item) (Item, error) {
	item := Item{Kind: Kind(raw.kind), Status: int(raw.status), Number: uint64(raw.number)}
	var err error
	switch {
	case item.Kind >= FaultConnection && item.Kind <= FaultMemory:
		return Item{Kind: item.Kind, Number: item.Number}, Fault{item.Kind, item.Number}
	case raw.fields > 0:
		item.Fields, err = e.fields(int(raw.fields), int(raw.len))
	case raw.len > 0:
		item.Bytes, err = e.bytes(int(raw.len))
	}
	return item, err
}
