package main

// What quic-go tells of its packets, since its streams do not say what was acknowledged.

import (
	"context"
	"sync"
	"time"
)

// trace is told of the packets of one connection.
type trace struct {
	forget   func()
	lock     sync.Mutex
	ending   map[streamID]bool // streams that were closed, and whose end is in no packet yet
	inFlight int               // packets that are neither acknowledged nor lost
	heard    time.Time         // when the peer did something last; a PING is nothing
}

// sent sees the ends of streams go out.
func (t *trace) sent(frames []frame) {
	t.lock.Lock()
	defer t.lock.Unlock()
	for _, frame := range frames {
		switch frame := frame.(type) {
		case *streamFrame:
			if frame.Fin {
				delete(t.ending, frame.StreamID)
			}
		case *resetFrame:
			delete(t.ending, frame.StreamID)
		}
	}
}

// fly sees how many packets are neither acknowledged nor lost.
func (t *trace) fly(packets int) {
	t.lock.Lock()
	defer t.lock.Unlock()
	if packets < t.inFlight {
		t.heard = time.Now()
	}
	t.inFlight = packets
}

// received sees what a packet of the peer's has. One with PING alone keeps a connection open, and asks for nothing.
func (t *trace) received(frames []frame) {
	for _, frame := range frames {
		switch frame.(type) {
		case *pingFrame, *ackFrame:
		default:
			t.listen()
			return
		}
	}
}

// listen begins the time again in which the peer did nothing.
func (t *trace) listen() {
	t.lock.Lock()
	defer t.lock.Unlock()
	t.heard = time.Now()
}

// closeStream closes a stream, whose end may have to wait for the peer's credit. A client has no trace.
func (t *trace) closeStream(stream sendStream) error {
	if t == nil {
		return stream.Close()
	}
	t.lock.Lock()
	t.ending[stream.StreamID()] = true
	t.lock.Unlock()
	err := stream.Close()
	if err != nil { // it was reset
		t.lock.Lock()
		delete(t.ending, stream.StreamID())
		t.lock.Unlock()
	}
	return err
}

// isSilent says whether the peer's QUIC has all that was sent, and did nothing for so long.
func (t *trace) isSilent(long time.Duration) bool {
	t.lock.Lock()
	defer t.lock.Unlock()
	return len(t.ending) == 0 && t.inFlight == 0 && time.Since(t.heard) >= long
}

// tracer has the trace of each connection, by quic-go's number.
type tracer struct{ traces sync.Map }

// begin makes the trace of a connection, whose context quic-go tells.
func (t *tracer) begin(context context.Context) *trace {
	number := context.Value(tracingKey)
	made := &trace{forget: func() { t.traces.Delete(number) }, ending: map[streamID]bool{}, heard: time.Now()}
	t.traces.Store(number, made)
	return made
}

// of is the trace of a connection. nil: it is over.
func (t *tracer) of(connection quicConnection) *trace {
	made, _ := t.traces.Load(connection.Context().Value(tracingKey))
	found, _ := made.(*trace)
	return found
}
