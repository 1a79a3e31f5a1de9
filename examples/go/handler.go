package main

// An http.Handler over a Request.

import (
	"context"
	"errors"
	"fmt"
	"io"
	"net/http"
	"net/url"
	"os"
	"strings"
	"sync"
	"time"

	"beanwhile/h3"
)

// drained is how many bytes of a body are read that a handler left, so that the connection goes on without a reset.
const drained = 64 * 1024

// serveHandler answers a request by a handler.
func serveHandler(request *Request, by http.Handler) error {
	text := &handler{Request: request}
	head, err := request.Next()
	switch {
	case isTooLong(err):
		return text.refuseSection()
	case err != nil:
		return err
	case head.Kind == h3.TooLargeHead:
		return text.refuse("431", tooLarge)
	case head.Kind != h3.Head:
		return fmt.Errorf("%v is no header section", head.Kind)
	}
	asked, err := askedOf(head)
	if err != nil {
		return text.refuse("400", err.Error()+"\n")
	}
	ctx, cancel := context.WithCancel(request.stream.Context())
	defer cancel()
	asked = asked.WithContext(ctx)
	asked.RemoteAddr = request.connection.quic.RemoteAddr().String()
	asked.TLS = request.connection.state()
	writer := &responseWriter{request: request, header: http.Header{}, isHead: asked.Method == http.MethodHead}
	asked.Body = &requestBody{request, writer, asked}
	if err := handle(by, writer, asked); err != nil {
		return err
	}
	if err := writer.finish(); err != nil {
		return err
	}
	if _, err := io.CopyN(io.Discard, asked.Body, drained); !errors.Is(err, io.EOF) {
		request.Ignore()
	}
	return nil
}

// handle calls a handler. One that panics has its request given up.
func handle(by http.Handler, writer *responseWriter, asked *http.Request) (err error) {
	defer func() {
		if why := recover(); why != nil {
			err = http.ErrAbortHandler
			if why != http.ErrAbortHandler {
				err = fmt.Errorf("a handler panicked: %v", why)
			}
		}
	}()
	by.ServeHTTP(writer, asked)
	return nil
}

// askedOf is the request of a header section. A strict endpoint judged its pseudo-header fields before.
func askedOf(head h3.Item) (*http.Request, error) {
	method, path, authority := value(head, ":method"), value(head, ":path"), value(head, ":authority")
	header := headerOf(head.Fields)
	if authority == "" {
		authority = header.Get("Host")
	}
	header.Del("Host")
	place := &url.URL{Host: authority}
	if method != http.MethodConnect {
		var err error
		if place, err = url.ParseRequestURI(path); err != nil {
			return nil, errNoPath
		}
	}
	return &http.Request{
		Method: method, URL: place, Host: authority, RequestURI: path, Proto: "HTTP/3.0", ProtoMajor: 3,
		Header: header, ContentLength: lengthOf(header),
	}, nil
}

// requestBody is the body of a client's request.
type requestBody struct {
	request *Request
	writer  *responseWriter
	asked   *http.Request
}

// Read reads the body. A client that waits for 100 (Expect) has it before. After io.EOF the request has its trailer section.
func (b *requestBody) Read(bytes []byte) (int, error) {
	if b.asked.Header.Get("Expect") == "100-continue" {
		b.writer.sendContinue()
	}
	count, err := b.request.Read(bytes)
	if err == io.EOF {
		b.asked.Trailer = trailerOf(b.request.Trailer())
	}
	return count, err
}

// Close leaves what was not read: serveHandler reads or stops it.
func (b *requestBody) Close() error { return nil }

// responseWriter is an http.ResponseWriter and an http.Flusher. A handler may read the body in one goroutine and write in another.
type responseWriter struct {
	request     *Request
	lock        sync.Mutex // of what follows
	header      http.Header
	status      int // 0: the header section was not sent
	isContinued bool
	isHead      bool
	trailer     map[string]bool // names that the header section announced
	err         error
}

// Header is what WriteHeader sends. What stands there later, below a name that the field trailer announced or that begins with
// http.TrailerPrefix, is the trailer section.
func (w *responseWriter) Header() http.Header { return w.header }

func (w *responseWriter) isTrailer(name string) bool {
	return w.trailer[name] || strings.HasPrefix(name, http.TrailerPrefix)
}

// WriteHeader sends the header section: of an interim response for a status from 100 to 199.
func (w *responseWriter) WriteHeader(status int) {
	w.lock.Lock()
	defer w.lock.Unlock()
	w.sendHead(status)
}

// sendContinue sends 100, unless it or the header section was sent before. It does not wait for a write: that has sent the header section.
func (w *responseWriter) sendContinue() {
	if !w.lock.TryLock() {
		return
	}
	defer w.lock.Unlock()
	if !w.isContinued {
		w.sendHead(http.StatusContinue)
	}
}

// sendHead is WriteHeader with the lock held.
func (w *responseWriter) sendHead(status int) {
	if w.status != 0 {
		return
	}
	isInterim := status >= 100 && status < 200
	if isInterim {
		w.isContinued = w.isContinued || status == http.StatusContinue
	} else {
		w.status = status
		w.trailer = map[string]bool{}
		for _, names := range w.header["Trailer"] {
			for _, name := range strings.Split(names, ",") {
				w.trailer[http.CanonicalHeaderKey(strings.TrimSpace(name))] = true
			}
		}
		if w.header.Get("Date") == "" {
			w.header.Set("Date", time.Now().UTC().Format(http.TimeFormat))
		}
	}
	fields := appendHeader([]h3.Field{{Name: ":status", Value: fmt.Sprint(status)}}, w.header, w.isTrailer)
	w.fail(w.request.SendHead(fields))
	if isInterim {
		w.fail(w.request.Flush())
	}
}

// fail keeps the first error.
func (w *responseWriter) fail(err error) {
	if w.err == nil {
		w.err = err
	}
}

// hasBody says whether a response with this status may have a body (RFC 9110, section 6.4.1).
func hasBody(status int) bool {
	return status != http.StatusNoContent && status != http.StatusNotModified
}

// Write sends a piece of the body, and the header section before it.
func (w *responseWriter) Write(bytes []byte) (int, error) {
	w.lock.Lock()
	defer w.lock.Unlock()
	if w.status == 0 {
		if w.header.Get("Content-Type") == "" && len(bytes) > 0 {
			w.header.Set("Content-Type", http.DetectContentType(bytes))
		}
		w.sendHead(http.StatusOK)
	}
	switch {
	case w.err != nil:
		return 0, w.err
	case !hasBody(w.status):
		return 0, http.ErrBodyNotAllowed
	case w.isHead:
		return len(bytes), nil
	}
	count, err := w.request.Write(bytes)
	w.fail(err)
	return count, err
}

// Flush sends what was written.
func (w *responseWriter) Flush() {
	w.lock.Lock()
	defer w.lock.Unlock()
	if w.status == 0 {
		w.sendHead(http.StatusOK)
	}
	w.fail(w.request.Flush())
}

// finish sends what a handler left: the header section if it wrote nothing, the trailer section, and the end.
func (w *responseWriter) finish() error {
	w.lock.Lock()
	defer w.lock.Unlock()
	if w.status == 0 {
		if w.header.Get("Content-Length") == "" && !w.isHead {
			w.header.Set("Content-Length", "0")
		}
		w.sendHead(http.StatusOK)
	}
	trailer := http.Header{}
	for name, values := range w.header {
		if w.isTrailer(name) {
			trailer[strings.TrimPrefix(name, http.TrailerPrefix)] = values
		}
	}
	if w.err == nil && len(trailer) > 0 {
		w.fail(w.request.SendTrailer(appendHeader(nil, trailer, func(string) bool { return false })))
	}
	if w.err == nil {
		w.fail(w.request.Finish())
	}
	return w.err
}

// filesAndPosts serves a folder by net/http, and answers POST with the count and the SHA-256 of the body, or with the body at /echo.
func filesAndPosts(folder string) http.Handler {
	files := http.FileServer(http.Dir(folder))
	return http.HandlerFunc(func(writer http.ResponseWriter, asked *http.Request) {
		var err error
		switch {
		case asked.Method != http.MethodPost:
			files.ServeHTTP(writer, asked)
		case asked.URL.Path == "/echo":
			_, err = io.Copy(writer, asked.Body)
		default:
			var text string
			if text, err = digestOf(asked.Body); err == nil {
				io.WriteString(writer, text)
			}
		}
		if err != nil {
			fmt.Fprintln(os.Stderr, "h3go:", asked.URL, "failed:", err)
			panic(http.ErrAbortHandler)
		}
	})
}
