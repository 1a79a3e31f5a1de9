package h3

import "io"

// bodyPiece is how many bytes of a body a BodyWriter sends at once, and how many may wait before it flushes.
const bodyPiece = 16 * 1024

// BodyReader is the body of the peer's message: an io.Reader. Endpoint.BodyReader makes it.
type BodyReader struct {
	endpoint *Endpoint
	id       uint64
	wait     func(pause Item) error
	rest     []byte
	trailer  []Field
}

// BodyReader returns a reader of the body on a stream. Pull the header section first. At a pause the reader calls wait, which has to return
// after a delivery on this stream, or on the peer's encoder stream if the pause is Waiting. Read returns the error of wait.
//
// A lock around the endpoint's calls is held while Read is called. wait frees it while it waits, and takes it again.
func (e *Endpoint) BodyReader(id uint64, wait func(pause Item) error) *BodyReader {
	return &BodyReader{endpoint: e, id: id, wait: wait}
}

// Read reads bytes of the body, and returns io.EOF after the message. Other errors are those of Pull and of wait, and these two.
// Error{Answer: OutOfOrder}: the next item is no body. Error{TooLarge, size}: the trailer section is above the local limit.
func (b *BodyReader) Read(bytes []byte) (int, error) {
	for len(b.rest) == 0 && len(bytes) > 0 {
		item, err := b.endpoint.Pull(b.id)
		switch {
		case err != nil:
			return 0, err
		case item.Kind == Body:
			b.rest = item.Bytes
		case item.Kind == Trailer:
			b.trailer = item.Fields
		case item.Kind == End:
			return 0, io.EOF
		case item.Kind == TooLargeHead:
			return 0, Error{TooLarge, item.Number}
		case !item.Kind.IsPause() || item.Kind == NoMessages:
			return 0, Error{Answer: OutOfOrder}
		default:
			if err := b.wait(item); err != nil {
				return 0, err
			}
		}
	}
	count := copy(bytes, b.rest)
	b.rest = b.rest[count:]
	return count, nil
}

// Trailer is the trailer section, once Read has returned io.EOF; nil if there is none.
func (b *BodyReader) Trailer() []Field { return b.trailer }

// BodyWriter is the body of the local message: an io.WriteCloser. Endpoint.BodyWriter makes it.
type BodyWriter struct {
	endpoint *Endpoint
	id       uint64
	flush    func() error
}

// BodyWriter returns a writer of the body on a stream. Send the header section first. When 16 KiB wait, and at the end, it calls flush,
// which has to pass what waits on the stream to QUIC, and to return after QUIC took it. So a body of any length needs 16 KiB.
//
// A lock around the endpoint's calls is held while Write and Close are called. flush frees it while it waits, and takes it again.
func (e *Endpoint) BodyWriter(id uint64, flush func() error) *BodyWriter {
	return &BodyWriter{endpoint: e, id: id, flush: flush}
}

// Write sends bytes of the body. It returns how many were sent before an error of SendBody or of flush.
func (b *BodyWriter) Write(bytes []byte) (int, error) {
	sent := 0
	for sent < len(bytes) {
		piece := bytes[sent:]
		if len(piece) > bodyPiece {
			piece = piece[:bodyPiece]
		}
		if err := b.endpoint.SendBody(b.id, piece); err != nil {
			return sent, err
		}
		sent += len(piece)
		if b.endpoint.Stream(b.id).Waiting >= bodyPiece {
			if err := b.flush(); err != nil {
				return sent, err
			}
		}
	}
	return sent, nil
}

// SendTrailer sends the trailer section: its fields as the list that they are given as.
func (b *BodyWriter) SendTrailer(fields []Field) error {
	return b.endpoint.SendTrailer(b.id, fields)
}

// Close ends the message, and calls flush.
func (b *BodyWriter) Close() error {
	if err := b.endpoint.Finish(b.id); err != nil {
		return err
	}
	return b.flush()
}
