package h3

// #include <h3.h>
import "C"

// Priority is the priority of a response (RFC 9218, section 4).
type Priority struct {
	Urgency     uint8 // from 0, the most urgent, to 7
	Incremental bool  // parts of the response are of use before it is whole
}

// ReadPriority reads the value of a `priority` field (RFC 9218, section 4). Join the values of several such fields by ", ". An urgency that is
// missing is 3, and an incremental that is missing is false. It returns false if the value is not a dictionary (RFC 8941, section 3.2): ignore
// the field then.
func ReadPriority(value []byte) (Priority, bool) {
	var urgency, incremental C.uint32_t
	answer := C.h3_priority_read(start(value), C.size_t(len(value)), &urgency, &incremental)
	return Priority{uint8(urgency), incremental != 0}, answer == C.H3_OK
}
