package main

// An http.RoundTripper over connections of HTTP/3.

import (
	"context"
	"crypto/tls"
	"errors"
	"io"
	"net/http"
	"net/http/httptrace"
	"net/textproto"
	"strconv"
	"sync"
	"time"

	"beanwhile/h3"
)

// Transport is an http.RoundTripper: one connection for each authority, which is opened at its first request, and again where it is over or its
// server takes no more requests.
type Transport struct {
	TLS  *tls.Config // with the protocol h3
	lock sync.Mutex
	held map[string]*held
}

// held is the connection to one authority.
type held struct {
	lock       sync.Mutex // while it is opened, the others wait
	connection *Connection
}

func (t *Transport) of(authority string) *held {
	t.lock.Lock()
	defer t.lock.Unlock()
	if t.held == nil {
		t.held = map[string]*held{}
	}
	if t.held[authority] == nil {
		t.held[authority] = &held{}
	}
	return t.held[authority]
}

// Close closes all connections.
func (t *Transport) Close() {
	t.lock.Lock()
	defer t.lock.Unlock()
	for _, it := range t.held {
		it.lock.Lock()
		if it.connection != nil {
			it.connection.Close()
			it.connection = nil
		}
		it.lock.Unlock()
	}
}

// open opens a request, if need be on a new connection: nothing was sent of one that could not be opened.
func (t *Transport) open(ctx context.Context, authority string) (*Request, error) {
	it := t.of(authority)
	it.lock.Lock()
	defer it.lock.Unlock()
	for {
		isNew := it.connection == nil
		if isNew {
			session, err := dial(ctx, authority, t.TLS, settings)
			if err != nil {
				return nil, err
			}
			if it.connection, err = NewConnection(session, nil, 0); err != nil {
				return nil, err
			}
		}
		request, err := it.connection.Open(ctx)
		if err == nil || isNew || ctx.Err() != nil {
			return request, err
		}
		leave(it.connection)
		it.connection = nil
	}
}

// leave closes a connection once what was begun on it is over.
func leave(connection *Connection) {
	go func() {
		for !connection.isDone() {
			time.Sleep(grace)
		}
		connection.Close()
	}()
}

// authorityOf is where a URL leads to, with its port.
func authorityOf(asked *http.Request) string {
	if asked.URL.Port() == "" {
		return asked.URL.Host + ":443"
	}
	return asked.URL.Host
}

// RoundTrip sends a request, and returns the response once its header section came. The body is sent and read meanwhile.
func (t *Transport) RoundTrip(asked *http.Request) (*http.Response, error) {
	if asked.URL.Scheme != "https" || asked.URL.Host == "" || asked.Method == http.MethodConnect {
		closeBody(asked)
		return nil, errors.New("h3go: a request of https, and not CONNECT, is expected")
	}
	request, err := t.open(asked.Context(), authorityOf(asked))
	if err != nil {
		closeBody(asked)
		return nil, err
	}
	request.connection.active.Add(1)
	over := make(chan struct{})
	go func() { // the request ends with its context
		select {
		case <-asked.Context().Done():
			request.GiveUp(h3.RequestCancelled)
		case <-over:
		}
		request.Done()
	}()
	sent := make(chan error, 1)
	go func() { sent <- send(request, asked) }()
	response, err := receive(request, asked)
	if err != nil {
		request.GiveUp(codeOf(err, false))
		close(over)
		return nil, reason(asked.Context(), err, sent)
	}
	response.Body = &responseBody{request: request, response: response, over: over}
	return response, nil
}

// reason is why there is no response: the end of the context, or why the request could not be sent, else what was seen in reading.
func reason(ctx context.Context, err error, sent <-chan error) error {
	if ctx.Err() != nil {
		return ctx.Err()
	}
	var fault h3.Fault
	if errors.As(err, &fault) && fault.Kind == h3.FaultCanceled {
		return <-sent
	}
	return err
}

func closeBody(asked *http.Request) {
	if asked.Body != nil {
		asked.Body.Close()
	}
}

func fieldsOf(asked *http.Request) []h3.Field {
	authority := asked.Host
	if authority == "" {
		authority = asked.URL.Host
	}
	fields := []h3.Field{
		{Name: ":method", Value: asked.Method}, {Name: ":scheme", Value: "https"},
		{Name: ":authority", Value: authority}, {Name: ":path", Value: asked.URL.RequestURI()},
	}
	if asked.Method == "" {
		fields[0].Value = http.MethodGet
	}
	fields = appendHeader(fields, asked.Header, func(name string) bool { return name == "Host" || name == "Content-Length" || name == "Trailer" })
	if asked.Body != nil && asked.Body != http.NoBody && asked.ContentLength > 0 {
		fields = append(fields, h3.Field{Name: "content-length", Value: strconv.FormatInt(asked.ContentLength, 10)})
	}
	for name := range asked.Trailer {
		fields = append(fields, h3.Field{Name: "trailer", Value: name})
	}
	return fields
}

// send sends a request. One that cannot be sent is given up, unless the server wanted no more of it: then there may be a response all the same.
func send(request *Request, asked *http.Request) error {
	defer closeBody(asked)
	err := request.SendHead(fieldsOf(asked))
	if err == nil && asked.Body != nil && asked.Body != http.NoBody {
		err = sendBody(request, asked)
	}
	if err == nil && len(asked.Trailer) > 0 {
		err = request.SendTrailer(appendHeader(nil, asked.Trailer, func(string) bool { return false }))
	}
	if err == nil {
		err = request.Finish()
	}
	if err == nil || request.IsStopped() {
		return nil
	}
	request.GiveUp(h3.RequestCancelled)
	return err
}

// sendBody sends the header section at once, since a body may take its time, and one of unknown length as it comes.
func sendBody(request *Request, asked *http.Request) error {
	err := request.Flush()
	if err != nil {
		return err
	}
	if asked.ContentLength > 0 {
		_, err = io.Copy(request, asked.Body)
	} else {
		_, err = io.Copy(atOnce{request}, asked.Body)
	}
	return err
}

// atOnce sends what is written at once.
type atOnce struct{ *Request }

func (a atOnce) Write(bytes []byte) (int, error) {
	count, err := a.Request.Write(bytes)
	if err == nil {
		err = a.Flush()
	}
	return count, err
}

// receive waits for the header section of the response, after interim ones.
func receive(request *Request, asked *http.Request) (*http.Response, error) {
	for {
		head, err := request.Next()
		switch {
		case err != nil:
			return nil, err
		case head.Kind == h3.TooLargeHead:
			return nil, errors.New("h3go: the header section of the response is too large")
		case head.Kind == h3.Head:
			header := headerOf(head.Fields)
			return &http.Response{
				Status: strconv.Itoa(head.Status) + " " + http.StatusText(head.Status), StatusCode: head.Status,
				Proto: "HTTP/3.0", ProtoMajor: 3, Header: header, ContentLength: lengthOf(header),
				Request: asked, TLS: request.connection.state(),
			}, nil
		}
		trace := httptrace.ContextClientTrace(asked.Context())
		if head.Kind == h3.Interim && trace != nil && trace.Got1xxResponse != nil {
			if err := trace.Got1xxResponse(head.Status, textproto.MIMEHeader(headerOf(head.Fields))); err != nil {
				return nil, err
			}
		}
	}
}

// responseBody is the body of a response.
type responseBody struct {
	request  *Request
	response *http.Response
	over     chan struct{}
	ended    sync.Once
	isWhole  bool
}

func (b *responseBody) end() { b.ended.Do(func() { close(b.over) }) }

// Read reads the body. After io.EOF the response has its trailer section.
func (b *responseBody) Read(bytes []byte) (int, error) {
	count, err := b.request.Read(bytes)
	if err == io.EOF {
		b.isWhole = true
		b.response.Trailer = trailerOf(b.request.Trailer())
	}
	if err == nil {
		return count, nil
	}
	ctx := b.response.Request.Context()
	b.end()
	if err != io.EOF && ctx.Err() != nil {
		err = ctx.Err()
	}
	return count, err
}

// Close gives up what was not read.
func (b *responseBody) Close() error {
	if !b.isWhole {
		b.request.GiveUp(h3.RequestCancelled)
	}
	b.end()
	return nil
}
