package main

import (
	"context"
	"crypto/sha256"
	"crypto/tls"
	"errors"
	"flag"
	"fmt"
	"io"
	"net/http"
	"os"
	"os/signal"
	"strconv"
	"sync"
	"syscall"
	"time"

	"beanwhile/h3"
)

// linger is how long a client may be silent that has all its answers, and is expected to close.
const linger = 5 * time.Second

const tooLarge = "the fields are too large\n"

// handler answers one request.
type handler struct {
	*Request
	files  *folder
	method string
}

func value(head h3.Item, name string) string {
	value, _ := head.Value(name)
	return value
}

func head(status, kind string, length int64) []h3.Field {
	return []h3.Field{{Name: ":status", Value: status}, {Name: "content-type", Value: kind}, {Name: "content-length", Value: strconv.FormatInt(length, 10)}}
}

// whole sends an answer, of HEAD without its body.
func (h *handler) whole(fields []h3.Field, body []byte) error {
	if h.method == http.MethodHead {
		body = nil
	}
	return h.Send(fields, body)
}

func (h *handler) text(status, text string) error {
	return h.whole(head(status, "text/plain; charset=utf-8", int64(len(text))), []byte(text))
}

// refuse answers with a text, and does not read what it refuses: a body may be long.
func (h *handler) refuse(status, text string) error {
	err := h.text(status, text)
	if err == nil {
		h.Ignore()
	}
	return err
}

// refuseSection answers a request whose header section is longer than the endpoint keeps.
func (h *handler) refuseSection() error {
	err := h.text("431", tooLarge)
	if err == nil {
		h.IgnoreSection()
	}
	return err
}

// isTooLong says whether a header section is longer than the endpoint keeps.
func isTooLong(err error) bool {
	var fault h3.Fault
	return errors.As(err, &fault) && fault.Kind == h3.FaultMalformed && h3.Malformation(fault.Number) == h3.TooLong
}

// file answers with a file below the folder.
func (h *handler) file(name string) error {
	file, err := h.files.open(name)
	if err == errNoPath {
		return h.text("400", "no path\n")
	}
	if err != nil {
		return h.text("404", "no such file\n")
	}
	defer file.close()
	if file.rest == nil || h.method == http.MethodHead {
		return h.whole(file.fields, file.small)
	}
	if err := h.SendHead(file.fields); err != nil {
		return err
	}
	if _, err := io.CopyN(h.Request, file.rest, file.length); err != nil {
		return err
	}
	return h.Finish()
}

// post answers with the count and the SHA-256 of the body.
func (h *handler) post() error {
	text, err := digestOf(h.Request)
	if err != nil {
		return err
	}
	return h.text("200", text)
}

// digestOf is the line with the count and the SHA-256 of a body.
func digestOf(body io.Reader) (string, error) {
	hash := sha256.New()
	count, err := io.Copy(hash, body)
	return fmt.Sprintf("%d %x\n", count, hash.Sum(nil)), err
}

// rest reads what comes behind the head of a request without a body, so that its end, or its reset, is seen.
func (h *handler) rest() error {
	for {
		item, err := h.Next()
		if err != nil || item.Kind == h3.End {
			return err
		}
	}
}

func (h *handler) answer() error {
	head, err := h.Next()
	if isTooLong(err) {
		return h.refuseSection()
	}
	if err != nil {
		return err
	}
	if head.Kind != h3.Head && head.Kind != h3.TooLargeHead {
		return fmt.Errorf("%v is no head", head.Kind) // a session of WebTransport
	}
	h.method = value(head, ":method")
	switch {
	case head.Kind == h3.TooLargeHead:
		return h.refuse("431", tooLarge)
	case h.method == http.MethodPost:
		return h.post()
	case h.method == http.MethodGet || h.method == http.MethodHead:
		err = h.file(value(head, ":path"))
	default:
		return h.refuse("405", "GET, HEAD and POST are known\n")
	}
	if err != nil {
		return err
	}
	return h.rest()
}

// takeRequests answers each request of a connection, at once, until the connection is over.
func takeRequests(connection *Connection, answer func(*Request) error) {
	for {
		request, err := connection.Accept()
		if err != nil {
			return
		}
		go func() {
			defer request.Done()
			if err := answer(request); err != nil {
				fmt.Fprintln(os.Stderr, "h3go: stream", request.id, "failed:", err)
				request.GiveUp(codeOf(err, true))
			}
		}()
	}
}

// server is what all connections share.
type server struct {
	answer   func(*Request) error
	requests uint64        // at most so many are taken on a connection
	drain    time.Duration // what was begun has so long at the end
	leave    chan struct{} // closed: what was begun is to end
	traces   tracer
}

// serve serves a connection until it is over, or no further request is taken and what was begun is done. Then the client is expected to close,
// since its QUIC may have what its reader has not; if it is silent for long, the connection is closed here.
func (s *server) serve(session quicConnection) {
	trace := s.traces.of(session)
	if trace == nil {
		return
	}
	connection, err := NewConnection(session, trace, s.requests)
	if err != nil {
		return
	}
	defer connection.Close()
	over := make(chan struct{})
	go func() {
		defer close(over)
		takeRequests(connection, s.answer)
	}()
	leave, leaving := s.leave, connection.leaving
	ticker := time.NewTicker(time.Hour)
	defer ticker.Stop()
	for {
		select {
		case <-over:
			return
		case <-leave:
			connection.Leave()
			leave = nil
		case <-leaving:
			trace.listen()
			ticker.Reset(linger / 50)
			leaving = nil
		case <-ticker.C:
			if connection.isDone() && trace.isSilent(linger) {
				return
			}
		}
	}
}

// run serves until it is told to leave, and then what was begun.
func (s *server) run(listener quicListener) {
	accepting, stop := context.WithCancel(context.Background())
	go func() {
		<-s.leave
		stop()
	}()
	var connections sync.WaitGroup
	for {
		session, err := listener.Accept(accepting)
		if err != nil {
			break
		}
		connections.Add(1)
		go func() {
			defer connections.Done()
			s.serve(session)
		}()
	}
	go func() { // no more are taken
		for {
			session, err := listener.Accept(context.Background())
			if err != nil {
				return
			}
			session.CloseWithError(h3.NoError, "")
		}
	}()
	over := make(chan struct{})
	go func() {
		defer close(over)
		connections.Wait()
	}()
	select {
	case <-over:
	case <-time.After(s.drain):
	}
}

// leaveAt tells a server to leave at the first signal, and ends the program at the second.
func leaveAt(signals <-chan os.Signal, leave chan<- struct{}) {
	<-signals
	close(leave)
	<-signals
	fail(errors.New("what was begun is cut off"))
}

// answerOf is what answers a request with files below a folder, and POST with a digest.
func answerOf(name string, byHandler bool) func(*Request) error {
	if byHandler {
		handler := filesAndPosts(name)
		return func(request *Request) error { return serveHandler(request, handler) }
	}
	files := newFolder(name)
	return func(request *Request) error { return (&handler{Request: request, files: files}).answer() }
}

func serveCommand(words []string) error {
	options := flag.NewFlagSet("serve", flag.ExitOnError)
	requests := options.Uint64("requests", 100000, "at most so many requests on a connection: GOAWAY goes out when 100 are left (0: no limit)")
	drain := options.Duration("drain", time.Minute, "what was begun has so long at the end")
	byHandler := options.Bool("handler", false, "the folder is served by an http.Handler")
	options.Parse(words)
	if options.NArg() != 4 {
		return errors.New("serve [-requests N] [-drain DURATION] [-handler] ADDRESS CERTIFICATE KEY FOLDER")
	}
	address := options.Arg(0)
	pair, err := tls.LoadX509KeyPair(options.Arg(1), options.Arg(2))
	if err != nil {
		return err
	}
	s := &server{answer: answerOf(options.Arg(3), *byHandler), requests: *requests, drain: *drain, leave: make(chan struct{})}
	config := settings.Clone()
	s.traces.into(config)
	listener, err := listen(address, &tls.Config{Certificates: []tls.Certificate{pair}, NextProtos: []string{"h3"}}, config)
	if err != nil {
		return err
	}
	signals := make(chan os.Signal, 2)
	signal.Notify(signals, syscall.SIGTERM, syscall.SIGINT)
	go leaveAt(signals, s.leave)
	fmt.Println("serving", options.Arg(3), "at", address)
	s.run(listener)
	return listener.Close()
}
