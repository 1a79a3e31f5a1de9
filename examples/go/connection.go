package main

// HTTP/3 over a connection of quic-go: an Endpoint. A request is read and written by whoever calls it, the connection's own streams by goroutines.
// quic-go copies what is written.

import (
	"context"
	"crypto/tls"
	"errors"
	"io"
	"sync"
	"sync/atomic"
	"time"

	"beanwhile/h3"
)

const (
	piece     = 16 * 1024  // bytes that are moved at once
	heldLimit = 264 * 1024 // bytes of a stream that the endpoint may hold: a header section of 64 KiB has up to 256 KiB in the Huffman code
	streams   = 100        // requests that a client may have at once

	grace        = 100 * time.Millisecond // that a client has for an answer before it is told to send no more
	sectionGrace = 2 * time.Second        // the same where its header section is too long: it may read no answer until that is sent
	notice       = time.Second            // between the first GOAWAY and the last: requests that were on their way come
)

// errTooLarge is the fault of a frame that is larger than any that is taken.
var errTooLarge = errors.New("a frame is too large")

// codeOf is the code that a request is given up with.
func codeOf(err error, server bool) streamCode {
	var fault h3.Fault
	switch {
	case err == errTooLarge:
		return h3.ExcessiveLoad
	case errors.Is(err, h3.Rejected):
		return h3.RequestRejected
	case errors.As(err, &fault):
		return streamCode(fault.Code(server))
	}
	return h3.InternalError
}

// closingCode is the code that the connection is closed with.
func closingCode(err error) closeCode {
	var refused h3.Error
	var fault h3.Fault
	if errors.As(err, &refused) {
		if code, isFault := refused.Code(); isFault {
			return closeCode(code)
		}
	} else if errors.As(err, &fault) && fault.Kind == h3.FaultConnection {
		return closeCode(fault.Number)
	}
	return h3.InternalError
}

// pieces has the buffers that are not in use. A stream that waits has none.
var pieces = sync.Pool{New: func() any { return new([piece]byte) }}

// Connection is one connection. Its lock is held in each call of the endpoint. All requests of the connection want it, so whoever has several
// calls to make takes it once.
type Connection struct {
	opening  sync.Mutex // one request is opened at a time
	opened   *uint64    // the id that the endpoint gave and QUIC has no stream for yet
	lock     sync.Mutex
	endpoint *h3.Endpoint
	quic     quicConnection
	trace    *trace         // a server's
	own      []*own         // control, encoder and decoder stream
	inserted *sync.Cond     // the peer's encoder stream was read, or the connection is over
	broken   error          // why the connection is over
	writers  sync.WaitGroup // those of the own streams

	endID   uint64        // a server's: where the requests end that the connection may have; 0: nowhere
	leaving chan struct{} // closed: the peer was told by GOAWAY to open no more requests
	active  atomic.Int64  // requests of which Done was not said: those that Accept gave, and those of a Transport
}

// half is the own half of a stream.
type half struct {
	stream sendStream
	id     uint64
}

// own is a stream of the connection's own, which has a writer.
type own struct {
	half
	changed *sync.Cond // bytes came to be sent, or the connection is over
}

// Request is a request and its response: one bidirectional stream.
type Request struct {
	connection *Connection
	stream     quicStream
	id         uint64
	sending    half
	isNew      bool           // a server's: nothing was read of it, and the endpoint does not know it yet
	unreadable error          // why nothing more can be read of the stream
	incoming   *h3.BodyReader // the body of the peer's message
	outgoing   *h3.BodyWriter // that of the local one
}

func (c *Connection) newRequest(stream quicStream, isNew bool) *Request {
	id := uint64(stream.StreamID())
	r := &Request{connection: c, stream: stream, id: id, sending: half{stream, id}, isNew: isNew}
	r.incoming = c.endpoint.BodyReader(id, r.wait)
	r.outgoing = c.endpoint.BodyWriter(id, func() error {
		c.flush(r.sending)
		return nil
	})
	return r
}

// NewConnection opens the three own streams, and reads the peer's. A server has a trace, and takes so many requests (0: no limit).
func NewConnection(connection quicConnection, trace *trace, requests uint64) (*Connection, error) {
	endpoint, err := h3.New(h3.DefaultConfig(trace != nil))
	if err != nil {
		return nil, err
	}
	c := &Connection{endpoint: endpoint, quic: connection, trace: trace, leaving: make(chan struct{}), endID: 4 * requests}
	c.inserted = sync.NewCond(&c.lock)
	for i := 0; i < 3; i++ {
		stream, err := connection.OpenUniStream()
		if err != nil {
			connection.CloseWithError(h3.InternalError, "")
			c.Close()
			return nil, err
		}
		c.startWriting(&own{half{stream, uint64(stream.StreamID())}, sync.NewCond(&c.lock)})
	}
	go c.readOthers()
	return c, nil
}

// over says that the connection is over, and wakes whoever waits. The first reason stays. The lock is held.
func (c *Connection) over(why error) {
	if c.broken == nil {
		c.broken = why
	}
	for _, stream := range c.own {
		stream.changed.Broadcast()
	}
	c.inserted.Broadcast()
}

// fail closes the connection with the code that a refusal names, else with H3_INTERNAL_ERROR. The lock is held.
func (c *Connection) fail(err error) error {
	if c.broken != nil {
		return c.broken
	}
	go c.quic.CloseWithError(closingCode(err), "")
	c.over(err)
	return err
}

// Close closes the connection without a fault, and frees the endpoint. A request that is still read or written is told so.
func (c *Connection) Close() {
	c.lock.Lock()
	c.over(io.EOF)
	c.lock.Unlock()
	c.quic.CloseWithError(h3.NoError, "")
	c.writers.Wait()
	c.lock.Lock()
	c.endpoint.Close()
	c.lock.Unlock()
}

// startWriting starts the writer of an own stream.
func (c *Connection) startWriting(stream *own) {
	c.lock.Lock()
	defer c.lock.Unlock()
	c.own = append(c.own, stream)
	c.writers.Add(1)
	go func() {
		defer c.writers.Done()
		c.lock.Lock()
		defer c.lock.Unlock()
		for c.broken == nil {
			c.flush(stream.half)
			if c.broken == nil {
				stream.changed.Wait()
			}
		}
	}()
}

// wakeOwn wakes the writers of the own unidirectional streams that have something to send. The lock is held.
func (c *Connection) wakeOwn() {
	control, decoder := c.own[0], c.own[2]
	for id, ok := c.endpoint.NextToSend(control.id); ok && id <= decoder.id; id, ok = c.endpoint.NextToSend(id + 1) {
		if id%4 == control.id {
			c.own[id/4].changed.Broadcast()
		}
	}
}

// flush moves what waits on a stream to QUIC, and its end behind it. It waits until QUIC has room. The lock is held, and let go in between.
func (c *Connection) flush(half half) {
	for c.broken == nil && c.writePiece(half) {
	}
}

// writePiece moves a piece of what waits on a stream, and says whether more may follow: not behind the end, nor where QUIC takes no more of it.
// The lock is held, and let go in between.
func (c *Connection) writePiece(half half) bool {
	buffer := pieces.Get().(*[piece]byte)
	defer pieces.Put(buffer)
	count, end := c.endpoint.Outgoing(half.id, buffer[:])
	if count == 0 && !end {
		return false
	}
	c.lock.Unlock()
	_, err := half.stream.Write(buffer[:count])
	if err == nil && end {
		err = c.trace.closeStream(half.stream)
	}
	c.lock.Lock()
	if err != nil {
		c.endpoint.Reset(half.id) // the peer stopped it, or the connection is over
	} else if err := c.endpoint.Advance(half.id, count); err != nil {
		c.fail(err)
	} else if end {
		c.endpoint.EndTaken(half.id) // the stream is named no longer
	}
	return err == nil && !end
}

// deliver hands over what was read of a stream: bytes, its end, or its reset. The lock is held.
func (c *Connection) deliver(id uint64, bytes []byte, end error) error {
	err := c.endpoint.Deliver(id, bytes)
	if err == nil && errors.Is(end, io.EOF) {
		err = c.endpoint.DeliverEnd(id)
	} else if code, isReset := resetCode(end); err == nil && isReset {
		err = c.endpoint.DeliverReset(id, code)
	}
	if errors.Is(err, h3.Rejected) { // this server shuts down: nothing of the request was processed
		return err
	}
	if err != nil {
		return c.fail(err)
	}
	c.wakeOwn()
	return nil
}

// pull is what comes next on a stream. A fault of the connection, or want of memory, is an error. The lock is held.
func (c *Connection) pull(id uint64) (h3.Item, error) {
	item, err := c.endpoint.Pull(id)
	if item.Kind > h3.FaultConnection && item.Kind != h3.FaultMemory {
		err = nil // a fault of this stream alone: the item tells it
	}
	if err != nil {
		return h3.Item{}, c.fail(err)
	}
	if item.Kind != h3.Body && item.Kind != h3.Pending {
		c.wakeOwn()
	}
	return item, nil
}

// readOther reads one of the peer's unidirectional streams: settings, instructions, or what is thrown away.
func (c *Connection) readOther(stream receiveStream) {
	id, buffer := uint64(stream.StreamID()), make([]byte, 4096)
	for {
		count, end := stream.Read(buffer)
		c.lock.Lock()
		err := c.deliver(id, buffer[:count], end)
		for err == nil {
			var item h3.Item
			if item, err = c.pull(id); item.Kind >= h3.End {
				break
			}
		}
		if err == nil && c.endpoint.Stream(id).Unread > heldLimit {
			err = c.fail(h3.Fault{Kind: h3.FaultConnection, Number: h3.ExcessiveLoad})
		}
		c.inserted.Broadcast()
		c.lock.Unlock()
		if err != nil || end != nil {
			return
		}
	}
}

// readOthers reads the peer's unidirectional streams until the connection is over.
func (c *Connection) readOthers() {
	for {
		stream, err := c.quic.AcceptUniStream(context.Background())
		if err != nil {
			c.lock.Lock()
			c.over(err)
			c.lock.Unlock()
			return
		}
		go c.readOther(stream)
	}
}

// openID asks the endpoint for a request's id, or gives the one that no stream of QUIC was there for the last time.
func (c *Connection) openID() (uint64, error) {
	c.lock.Lock()
	defer c.lock.Unlock()
	if c.opened == nil {
		id, err := c.endpoint.OpenRequest()
		if err != nil {
			return 0, err
		}
		c.opened = &id
	}
	return *c.opened, nil
}

// Open opens a client's request. It waits while the peer allows no more at once. The endpoint is asked first, and what it refuses opens no
// stream: so the ids of both stay the same.
func (c *Connection) Open(ctx context.Context) (*Request, error) {
	c.opening.Lock()
	defer c.opening.Unlock()
	id, err := c.openID()
	if err != nil {
		return nil, err
	}
	stream, err := c.quic.OpenStreamSync(ctx)
	if err != nil {
		return nil, err
	}
	c.lock.Lock()
	defer c.lock.Unlock()
	c.opened = nil
	if id != uint64(stream.StreamID()) {
		return nil, c.fail(errors.New("the ids of QUIC and of the endpoint differ"))
	}
	return c.newRequest(stream, false), nil
}

// Accept waits for a client's next request. The peer is told to open no more while it can still use as many streams as it may have opened: so none
// is rejected.
func (c *Connection) Accept() (*Request, error) {
	stream, err := c.quic.AcceptStream(context.Background())
	if err != nil {
		return nil, err
	}
	c.active.Add(1)
	if c.endID > 0 && uint64(stream.StreamID())+4+4*streams >= c.endID {
		c.sayGoaway(func() error {
			if c.isLeaving() {
				return nil
			}
			return c.endpoint.Goaway(c.endID)
		})
	}
	return c.newRequest(stream, true), nil
}

// isLeaving says whether GOAWAY was sent. The lock is held.
func (c *Connection) isLeaving() bool {
	select {
	case <-c.leaving:
		return true
	default:
		return false
	}
}

// sayGoaway makes a call of the endpoint that sends GOAWAY: the peer opens no more requests.
func (c *Connection) sayGoaway(say func() error) {
	c.lock.Lock()
	defer c.lock.Unlock()
	if c.broken != nil {
		return
	}
	if err := say(); err != nil {
		c.fail(err)
	}
	if !c.isLeaving() {
		close(c.leaving)
	}
	c.wakeOwn()
}

// Leave takes no further request but those that are on their way (RFC 9114, section 5.2). It waits for these; the endpoint rejects those that come
// later.
func (c *Connection) Leave() {
	c.sayGoaway(c.endpoint.ShutdownNotice)
	select {
	case <-c.quic.Context().Done():
	case <-time.After(notice):
	}
	c.sayGoaway(c.endpoint.Shutdown)
}

// Done says that a request is over: answered, rejected, or given up.
func (r *Request) Done() { r.connection.active.Add(-1) }

// state is what TLS says of the connection.
func (c *Connection) state() *tls.ConnectionState {
	state := tlsOf(c.quic)
	return &state
}

// isDone says whether all that was begun is answered, and written.
func (c *Connection) isDone() bool { return c.active.Load() == 0 }

// call makes calls of the endpoint.
func (r *Request) call(calls func(*h3.Endpoint) error) error {
	c := r.connection
	c.lock.Lock()
	defer c.lock.Unlock()
	if c.broken != nil {
		return c.broken
	}
	return calls(c.endpoint)
}

// SendHead sends a head, its fields in the order that they have here: pseudo-header fields first. It goes out with what is sent behind it.
func (r *Request) SendHead(fields []h3.Field) error {
	return r.call(func(endpoint *h3.Endpoint) error {
		defer r.connection.wakeOwn()
		return endpoint.SendHead(r.id, fields)
	})
}

// Write sends a piece of the body. Small pieces go out together, or with the end. It waits until QUIC has room.
func (r *Request) Write(bytes []byte) (count int, err error) {
	err = r.call(func(*h3.Endpoint) error {
		count, err = r.outgoing.Write(bytes)
		return err
	})
	return count, err
}

// Flush moves what was sent to QUIC, and waits until it has room.
func (r *Request) Flush() error {
	return r.call(func(*h3.Endpoint) error {
		r.connection.flush(r.sending)
		return nil
	})
}

// SendTrailer sends a trailer section, after the body.
func (r *Request) SendTrailer(fields []h3.Field) error {
	return r.call(func(*h3.Endpoint) error {
		defer r.connection.wakeOwn()
		return r.outgoing.SendTrailer(fields)
	})
}

// Finish ends the local message, and waits until QUIC has taken all of it.
func (r *Request) Finish() error {
	return r.call(func(*h3.Endpoint) error { return r.outgoing.Close() })
}

// Send sends a whole message, as SendHead, Write and Finish do.
func (r *Request) Send(fields []h3.Field, body []byte) error {
	return r.call(func(endpoint *h3.Endpoint) error {
		err := endpoint.SendHead(r.id, fields)
		if err == nil {
			err = endpoint.SendBody(r.id, body)
		}
		if err == nil {
			err = endpoint.Finish(r.id)
		}
		r.connection.wakeOwn()
		if err == nil {
			r.connection.flush(r.sending)
		}
		return err
	})
}

// IsStopped says whether the own message was cut off: by the peer, which wants no more of it, or by GiveUp.
func (r *Request) IsStopped() bool {
	r.connection.lock.Lock()
	defer r.connection.lock.Unlock()
	return r.connection.endpoint.Stream(r.id).Reset
}

// GiveUp sends nothing more, and wants nothing more.
func (r *Request) GiveUp(code streamCode) {
	r.call(func(endpoint *h3.Endpoint) error {
		endpoint.Cancel(r.id) // refused where the peer's message is over
		if endpoint.Reset(r.id) == nil {
			r.stream.CancelWrite(code)
		}
		r.connection.wakeOwn()
		return nil
	})
	r.stream.CancelRead(code)
}

// Ignore wants nothing more of the request: a server has answered (RFC 9114, section 4.1), and the client need not send the rest. It is told so a
// little later, so that it reads the answer first: some clients fail where they are stopped in sending.
func (r *Request) Ignore() { r.ignore(h3.NoError, grace) }

// IgnoreSection does the same where the header section is longer than the endpoint keeps.
func (r *Request) IgnoreSection() { r.ignore(h3.ExcessiveLoad, sectionGrace) }

func (r *Request) ignore(code streamCode, after time.Duration) {
	r.call(func(endpoint *h3.Endpoint) error {
		defer r.connection.wakeOwn()
		return endpoint.Cancel(r.id) // refused where the message is over
	})
	time.AfterFunc(after, func() { r.stream.CancelRead(code) })
}

// Next waits for the next item of the peer's message. A fault of the message is an error. What came before the connection was over is returned all
// the same.
func (r *Request) Next() (h3.Item, error) {
	err := r.begin()
	defer r.connection.lock.Unlock()
	for err == nil {
		var item h3.Item
		item, err = r.connection.pull(r.id)
		switch {
		case err != nil:
		case item.Kind.IsPause():
			err = r.wait(item)
		case item.Kind > h3.FaultConnection:
			return item, h3.Fault{Kind: item.Kind, Number: item.Number}
		default:
			return item, nil
		}
	}
	return h3.Item{}, err
}

// Read reads the body of the peer's message, whose header section Next returned. It returns io.EOF after the message: then Trailer has the trailer
// section.
func (r *Request) Read(bytes []byte) (int, error) {
	r.connection.lock.Lock()
	defer r.connection.lock.Unlock()
	count, err := r.incoming.Read(bytes)
	var fault h3.Fault
	if errors.As(err, &fault) && (fault.Kind == h3.FaultConnection || fault.Kind == h3.FaultMemory) {
		err = r.connection.fail(err)
	}
	if err != nil {
		r.connection.wakeOwn()
	}
	return count, err
}

// Trailer is the trailer section of the peer's message, after Read returned io.EOF.
func (r *Request) Trailer() []h3.Field { return r.incoming.Trailer() }

// begin takes the lock. It first reads a piece of a request that the endpoint does not know yet.
func (r *Request) begin() (err error) {
	if !r.isNew {
		r.connection.lock.Lock()
		return nil
	}
	r.isNew = false
	return r.read()
}

// wait waits at a pause until there may be a next item. quic-go grants credit for what is read, so no more is read of a stream of which the
// endpoint holds so much: a frame that is larger is a fault. The lock is held, and free in between.
func (r *Request) wait(pause h3.Item) error {
	c := r.connection
	switch {
	case pause.Kind == h3.Waiting && c.broken != nil:
		return c.broken
	case pause.Kind == h3.Waiting:
		c.inserted.Wait()
		return nil
	case r.unreadable != nil:
		return r.unreadable
	case c.endpoint.Stream(r.id).Unread > heldLimit:
		return errTooLarge
	}
	c.lock.Unlock()
	return r.read()
}

// read reads a piece of the stream, takes the lock, and delivers the piece.
func (r *Request) read() error {
	buffer := pieces.Get().(*[piece]byte)
	defer pieces.Put(buffer)
	count, end := r.stream.Read(buffer[:])
	r.connection.lock.Lock()
	r.unreadable = end
	err := r.connection.deliver(r.id, buffer[:count], end)
	if errors.Is(err, h3.Rejected) {
		r.stream.CancelWrite(h3.RequestRejected)
		r.stream.CancelRead(h3.RequestRejected)
	}
	return err
}
