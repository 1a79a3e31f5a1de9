package main

// An http.Client over Transport, and an http.Handler over serveHandler, with quic-go on loopback between them.

import (
	"bytes"
	"context"
	"crypto/ecdsa"
	"crypto/elliptic"
	"crypto/rand"
	"crypto/tls"
	"crypto/x509"
	"errors"
	"fmt"
	"io"
	"math/big"
	"net"
	"net/http"
	"net/http/httptrace"
	"net/textproto"
	"reflect"
	"strings"
	"sync"
	"testing"
	"time"
)

// certificate is one of localhost, and those that take it.
func certificate(t *testing.T) (tls.Certificate, *x509.CertPool) {
	t.Helper()
	key, err := ecdsa.GenerateKey(elliptic.P256(), rand.Reader)
	is(t, err, nil)
	made := x509.Certificate{SerialNumber: big.NewInt(1), DNSNames: []string{"localhost"}, IPAddresses: []net.IP{net.IPv4(127, 0, 0, 1)},
		NotBefore: time.Now().Add(-time.Hour), NotAfter: time.Now().Add(time.Hour), IsCA: true, BasicConstraintsValid: true}
	text, err := x509.CreateCertificate(rand.Reader, &made, &made, &key.PublicKey, key)
	is(t, err, nil)
	parsed, err := x509.ParseCertificate(text)
	is(t, err, nil)
	pool := x509.NewCertPool()
	pool.AddCert(parsed)
	return tls.Certificate{Certificate: [][]byte{text}, PrivateKey: key}, pool
}

// serving serves a handler until the test's end. It returns a client, and what its URLs begin with.
func serving(t *testing.T, requests uint64, by http.HandlerFunc) (*http.Client, string) {
	t.Helper()
	pair, pool := certificate(t)
	s := &server{answer: func(request *Request) error { return serveHandler(request, by) }, requests: requests, leave: make(chan struct{})}
	config := settings.Clone()
	s.traces.into(config)
	listener, err := listen("127.0.0.1:0", &tls.Config{Certificates: []tls.Certificate{pair}, NextProtos: []string{"h3"}}, config)
	is(t, err, nil)
	go s.run(listener)
	transport := &Transport{TLS: &tls.Config{RootCAs: pool, NextProtos: []string{"h3"}}}
	t.Cleanup(func() {
		transport.Close()
		listener.Close()
	})
	return &http.Client{Transport: transport, Timeout: time.Minute}, "https://" + listener.Addr().String()
}

func is(t *testing.T, got, wanted any) {
	t.Helper()
	if !reflect.DeepEqual(got, wanted) {
		t.Fatalf("%v, and wanted %v", got, wanted)
	}
}

// got is a response and its body.
func got(t *testing.T, client *http.Client, asked *http.Request) (*http.Response, string) {
	t.Helper()
	response, err := client.Do(asked)
	is(t, err, nil)
	defer response.Body.Close()
	body, err := io.ReadAll(response.Body)
	is(t, err, nil)
	return response, string(body)
}

func request(t *testing.T, method, place string, body io.Reader) *http.Request {
	t.Helper()
	asked, err := http.NewRequest(method, place, body)
	is(t, err, nil)
	return asked
}

func TestRequestAndResponse(t *testing.T) {
	client, place := serving(t, 0, func(writer http.ResponseWriter, asked *http.Request) {
		is(t, []any{asked.Method, asked.URL.Path, asked.URL.Query().Get("c"), asked.RequestURI, asked.Proto}, []any{"GET", "/a b", "d", "/a%20b?c=d", "HTTP/3.0"})
		is(t, []any{"https://" + asked.Host, asked.Header["X-A"], asked.Header["Cookie"]}, []any{"https://" + asked.Host, []string{"1", "2"}, []string{"a=b; c=d"}})
		is(t, asked.TLS.NegotiatedProtocol, "h3")
		writer.Header().Set("Connection", "close") // which HTTP/3 has not
		writer.Header().Set("X-B", "3")
		writer.WriteHeader(http.StatusTeapot)
		io.WriteString(writer, "<html>")
	})
	asked := request(t, "GET", place+"/a%20b?c=d", nil)
	asked.Header = http.Header{"X-A": {"1", "2"}, "Cookie": {"a=b", "c=d"}, "Connection": {"close"}}
	response, body := got(t, client, asked)
	is(t, []any{response.StatusCode, response.Status, response.Proto, body}, []any{418, "418 I'm a teapot", "HTTP/3.0", "<html>"})
	is(t, []any{response.Header.Get("X-B"), response.Header.Get("Connection"), response.Header.Get("Date") != ""}, []any{"3", "", true})
	is(t, response.ContentLength, int64(-1))
}

func TestBodiesAreStreamsBothWays(t *testing.T) {
	client, place := serving(t, 0, func(writer http.ResponseWriter, asked *http.Request) {
		io.Copy(writer, asked.Body)
	})
	var all sync.WaitGroup
	for i := 0; i < 20; i++ {
		all.Add(1)
		go func(i int) {
			defer all.Done()
			sent := bytes.Repeat([]byte{byte(i)}, i*100000)
			_, body := got(t, client, request(t, "POST", place, bytes.NewReader(sent)))
			if !bytes.Equal([]byte(body), sent) {
				t.Errorf("%d bytes of %d", len(body), len(sent))
			}
		}(i)
	}
	all.Wait()
	// what was written comes back before more is written
	from, to := io.Pipe()
	client, place = serving(t, 0, func(writer http.ResponseWriter, asked *http.Request) {
		writer.(http.Flusher).Flush()
		for buffer := make([]byte, 10); ; {
			count, err := asked.Body.Read(buffer)
			if err != nil {
				return
			}
			writer.Write(bytes.ToUpper(buffer[:count]))
			writer.(http.Flusher).Flush()
		}
	})
	asked := request(t, "POST", place, from)
	go to.Write([]byte("a"))
	response, err := client.Do(asked)
	is(t, err, nil)
	defer response.Body.Close()
	buffer := make([]byte, 10)
	for _, letter := range []string{"A", "B", "C"} {
		count, err := response.Body.Read(buffer)
		is(t, []any{string(buffer[:count]), err}, []any{letter, nil})
		if letter != "C" {
			to.Write([]byte(strings.ToLower(string(letter[0] + 1))))
		}
	}
	to.Close()
	_, err = response.Body.Read(buffer)
	is(t, err, io.EOF)
}

// TestBothWaysAtOnce: a handler that writes in one goroutine and reads in another.
func TestBothWaysAtOnce(t *testing.T) {
	client, place := serving(t, 0, func(writer http.ResponseWriter, asked *http.Request) {
		written := make(chan bool)
		go func() {
			defer close(written)
			for i := 0; i < 1000; i++ {
				writer.Write(make([]byte, 1000))
			}
		}()
		count, err := io.Copy(io.Discard, asked.Body)
		is(t, []any{count, err}, []any{int64(1000000), nil})
		<-written
	})
	asked := request(t, "POST", place, bytes.NewReader(make([]byte, 1000000)))
	asked.Header.Set("Expect", "100-continue")
	_, body := got(t, client, asked)
	is(t, len(body), 1000000)
}

func TestInterimResponsesAndTrailers(t *testing.T) {
	client, place := serving(t, 0, func(writer http.ResponseWriter, asked *http.Request) {
		writer.Header().Set("Link", "</style.css>")
		writer.WriteHeader(http.StatusEarlyHints)
		writer.Header().Set("Trailer", "X-Sum")
		body, err := io.ReadAll(asked.Body)
		is(t, err, nil)
		fmt.Fprint(writer, len(body))
		writer.Header().Set("X-Sum", asked.Trailer.Get("X-Count"))
		writer.Header().Set(http.TrailerPrefix+"X-More", "yes")
	})
	early := 0
	trace := &httptrace.ClientTrace{Got1xxResponse: func(status int, header textproto.MIMEHeader) error {
		early = status
		is(t, header.Get("Link"), "</style.css>")
		return nil
	}}
	asked := request(t, "POST", place, io.MultiReader(strings.NewReader("abc")))
	asked = asked.WithContext(httptrace.WithClientTrace(asked.Context(), trace))
	asked.Trailer = http.Header{"X-Count": {"7"}}
	response, body := got(t, client, asked)
	is(t, []any{early, response.StatusCode, body}, []any{103, 200, "3"})
	is(t, response.Trailer, http.Header{"X-Sum": {"7"}, "X-More": {"yes"}})
	is(t, response.Header.Get("X-Sum"), "")
}

func TestContinueAndHeadAndNothing(t *testing.T) {
	client, place := serving(t, 0, func(writer http.ResponseWriter, asked *http.Request) {
		switch asked.URL.Path {
		case "/continue":
			io.Copy(io.Discard, asked.Body)
		case "/head":
			writer.Header().Set("Content-Length", "5")
			io.WriteString(writer, "12345")
		case "/none":
			writer.WriteHeader(http.StatusNoContent)
			_, err := io.WriteString(writer, "x")
			is(t, err, http.ErrBodyNotAllowed)
		}
	})
	continued := false
	asked := request(t, "POST", place+"/continue", strings.NewReader("abc"))
	asked.Header.Set("Expect", "100-continue")
	asked = asked.WithContext(httptrace.WithClientTrace(asked.Context(), &httptrace.ClientTrace{Got1xxResponse: func(status int, _ textproto.MIMEHeader) error {
		continued = status == 100
		return nil
	}}))
	response, body := got(t, client, asked)
	is(t, []any{response.StatusCode, response.ContentLength, body, continued}, []any{200, int64(0), "", true})
	response, body = got(t, client, request(t, "HEAD", place+"/head", nil))
	is(t, []any{response.StatusCode, response.ContentLength, body}, []any{200, int64(5), ""})
	response, body = got(t, client, request(t, "GET", place+"/none", nil))
	is(t, []any{response.StatusCode, body}, []any{204, ""})
}

func TestAnAnswerBeforeTheBody(t *testing.T) {
	client, place := serving(t, 0, func(writer http.ResponseWriter, asked *http.Request) {
		http.Error(writer, "no", http.StatusForbidden)
	})
	response, body := got(t, client, request(t, "POST", place, bytes.NewReader(make([]byte, 10000000))))
	is(t, []any{response.StatusCode, body}, []any{403, "no\n"})
	// the connection goes on
	response, _ = got(t, client, request(t, "GET", place, nil))
	is(t, response.StatusCode, 403)
}

func TestAbortsAndCancellations(t *testing.T) {
	canceled := make(chan bool, 1)
	client, place := serving(t, 0, func(writer http.ResponseWriter, asked *http.Request) {
		switch asked.URL.Path {
		case "/abort":
			io.WriteString(writer, "begun")
			panic(http.ErrAbortHandler)
		case "/wait":
			writer.(http.Flusher).Flush()
			<-asked.Context().Done()
			canceled <- true
		}
	})
	response, err := client.Get(place + "/abort")
	if err == nil {
		_, err = io.ReadAll(response.Body)
	}
	if err == nil {
		t.Fatal("a response that was aborted is whole")
	}
	ctx, cancel := context.WithCancel(context.Background())
	response, err = client.Do(request(t, "GET", place+"/wait", nil).WithContext(ctx))
	is(t, err, nil)
	cancel()
	_, err = io.ReadAll(response.Body)
	is(t, errors.Is(err, context.Canceled), true)
	is(t, <-canceled, true)
	response, err = client.Get(place + "/wait")
	is(t, err, nil)
	is(t, response.Body.Close(), nil)
	is(t, <-canceled, true)
	// a context that is over before there is an answer
	ctx, cancel = context.WithTimeout(context.Background(), 50*time.Millisecond)
	defer cancel()
	_, err = client.Do(request(t, "POST", place+"/wait2", neverRead{}).WithContext(ctx))
	if err != nil {
		is(t, errors.Is(err, context.DeadlineExceeded), true)
	}
}

// neverRead is a body that does not come.
type neverRead struct{}

func (neverRead) Read([]byte) (int, error) {
	time.Sleep(200 * time.Millisecond)
	return 0, errors.New("never")
}

// TestGoaway: a server that takes five requests on a connection. The client opens another connection for the rest.
func TestGoaway(t *testing.T) {
	client, place := serving(t, 5, func(writer http.ResponseWriter, asked *http.Request) { io.WriteString(writer, asked.RemoteAddr) })
	peers := map[string]bool{}
	for i := 0; i < 12; i++ {
		response, body := got(t, client, request(t, "GET", place, nil))
		is(t, response.StatusCode, 200)
		peers[body] = true
		time.Sleep(20 * time.Millisecond)
	}
	if len(peers) < 3 {
		t.Fatalf("12 requests on %d connections", len(peers))
	}
}
