// violate breaks rules of RFC 9114 and RFC 9204 over quic-go, for `make interop`, and sees with which code the other side answers:
//
//	violate client TRUSTED ADDRESS          a connection to a server for each case; a line 'ok CASE' or 'failed CASE: WHAT'
//	violate serve ADDRESS CERTIFICATE KEY   its n-th connection gets the n-th case of a server
//	violate cases                           the cases of a server: a line 'CODE CASE', where the code is that of the connection, or 0
package main

import (
	"context"
	"crypto/tls"
	"crypto/x509"
	"errors"
	"fmt"
	"io"
	"os"
	"time"

	"github.com/lucas-clemente/quic-go"
)

const patience = 5 * time.Second

// a case: what goes out on the control stream, on further unidirectional streams and on the request's stream, and the code that the
// rule asks for, of the connection (or, where stream is set, of the request's stream). Code 0: no fault.
type violation struct {
	name    string
	control string
	others  []string
	request string
	end     bool // the request's stream ends there
	code    uint64
	stream  bool
	cut     bool // the control stream ends
}

const (
	settings = "\x00\x04\x00"
	// GET https://localhost/, and the same with more fields behind it
	get       = "\x01\x10\x00\x00\xd1\xd7\x50\x09localhost\xc1"
	upperName = "\x01\x14\x00\x00\xd1\xd7\x50\x09localhost\xc1\x21X\x011"
	status200 = "\x01\x03\x00\x00\xd9"
	// lines of a field section (RFC 9204, sections 4.5.2 and 4.5.4): the request line of `get` but for its path, a path, status 200
	getLine = "\xd1\xd7\x50\x09localhost"
	path    = "\xc1"
	ok      = "\xd9"
	// 262,145, one above what is kept until it is whole: a frame's length (RFC 9000, section 16), and an insertion with a name of so many bytes (RFC 9204,
	// section 4.3.3)
	longFrame     = "\x80\x04\x00\x01"
	longInsertion = "\x5f\xe2\xff\x0f"
	// the control stream with another frame before SETTINGS; the encoder stream with the capacity 4,096 and the insertions a: b and c: d; a request
	// whose required insert count is 1, and whose last line is c: d by the index behind the base (RFC 9204, section 4.5.3)
	otherFirst    = "\x00\x21\x00\x04\x00"
	twoInsertions = "\x02\x3f\xe1\x1f\x41\x61\x01\x62\x41\x63\x01\x64"
	aboveCount    = "\x01\x09\x02\x00\xd1\xd7\x50\x81\x1f\xc1\x10"
)

// line is a field line with a literal name (RFC 9204, section 4.5.6); names have 7 to 134 bytes, values at most 126
func line(name, value string) string {
	return "\x27" + string(rune(len(name)-7)) + name + string(rune(len(value))) + value
}

// head is a HEADERS frame of these lines, fewer than 62 bytes
func head(lines string) string { return "\x01" + string(rune(len(lines)+2)) + "\x00\x00" + lines }

var fromClient = []violation{
	{name: "what is unknown is passed over (RFC 9114, section 9)", control: settings + "\x21\x01a", others: []string{"\x21abc"}, request: "\x21\x02ab" + get, end: true},
	{name: "frames and a stream of WebTransport, which is not announced (9)", control: settings + "\x40\x41\x01a", others: []string{"\x40\x54\x00abc"}, request: "\x40\x41\x02ab" + get, end: true},
	{name: "DATA before HEADERS (4.1)", control: settings, request: "\x00\x01a", code: 0x105},
	{name: "no head (4.1.2)", control: settings, end: true, code: 0x10d, stream: true},
	{name: "a name in upper case (4.2)", control: settings, request: upperName, end: true, code: 0x10e, stream: true},
	{name: "the head of a response (4.3.1)", control: settings, request: status200, end: true, code: 0x10e, stream: true},
	{name: "a field of a connection (4.2)", control: settings, request: head(getLine + path + line("connection", "close")), end: true, code: 0x10e, stream: true},
	{name: "white space behind a value (4.2)", control: settings, request: head(getLine + path + line("x-white", "a ")), end: true, code: 0x10e, stream: true},
	{name: "no :path (4.3.1)", control: settings, request: head(getLine), end: true, code: 0x10e, stream: true},
	{name: "two :path (4.3)", control: settings, request: head(getLine + path + path), end: true, code: 0x10e, stream: true},
	{name: ":path behind a regular field (4.3)", control: settings, request: head(getLine + line("x-front", "1") + path), end: true, code: 0x10e, stream: true},
	{name: "a pseudo-header field that is not known (4.3)", control: settings, request: head(getLine + path + line(":unknown", "1")), end: true, code: 0x10e, stream: true},
	{name: "two content-length (4.1.2)", control: settings, request: head(getLine + path + line("content-length", "0") + line("content-length", "1")), end: true, code: 0x10e, stream: true},
	{name: "a second control stream (6.2.1)", control: settings, others: []string{settings}, code: 0x103},
	{name: "the control stream without SETTINGS (6.2.1)", control: "\x00\x07\x01\x00", code: 0x10a},
	{name: "a frame of unknown type before SETTINGS (6.2.1)", control: otherFirst, code: 0x10a},
	{name: "the control stream ends (6.2.1)", control: settings, cut: true, code: 0x104},
	{name: "a push stream of a client (6.2.2)", control: settings, others: []string{"\x01\x00"}, code: 0x103},
	{name: "a frame that the end cuts (7.1)", control: settings, request: "\x01\x05\x00", end: true, code: 0x106},
	{name: "a setting that is cut (7.1)", control: "\x00\x04\x01\x06", code: 0x106},
	{name: "DATA on the control stream (7.2.1)", control: settings + "\x00\x00", code: 0x105},
	{name: "HEADERS on the control stream (7.2.2)", control: settings + "\x01\x00", code: 0x105},
	{name: "CANCEL_PUSH of a push that was not promised (7.2.3)", control: settings + "\x03\x01\x00", code: 0x108},
	{name: "a second SETTINGS (7.2.4)", control: settings + "\x04\x00", code: 0x105},
	{name: "SETTINGS on a request stream (7.2.4)", control: settings, request: "\x04\x00", code: 0x105},
	{name: "a setting of HTTP/2 (7.2.4.1)", control: "\x00\x04\x02\x02\x00", code: 0x109},
	{name: "SETTINGS_H3_DATAGRAM of 2 (RFC 9297, section 2.1.1)", control: "\x00\x04\x02\x33\x02", code: 0x109},
	{name: "SETTINGS_ENABLE_CONNECT_PROTOCOL of 2, which says nothing to a server (RFC 8441, section 3)", control: "\x00\x04\x02\x08\x02", request: get, end: true},
	{name: "PUSH_PROMISE of a client (7.2.5)", control: settings, request: "\x05\x02\x00\x00", code: 0x105},
	{name: "a smaller MAX_PUSH_ID (7.2.7)", control: settings + "\x0d\x01\x05\x0d\x01\x04", code: 0x108},
	{name: "a frame of HTTP/2 (7.2.8)", control: settings + "\x06\x00", code: 0x105},
	{name: "a static entry that is not there (RFC 9204, section 3.1)", control: settings, request: "\x01\x04\x00\x00\xff\x24", code: 0x200},
	{name: "a dynamic entry that is not there (RFC 9204, section 2.2.3)", control: settings, request: "\x01\x03\x00\x00\x80", code: 0x200},
	{name: "a dynamic entry from the required insert count on (RFC 9204, section 2.2.3)", control: settings, others: []string{twoInsertions}, request: aboveCount, code: 0x200},
	{name: "a capacity above the announced one (RFC 9204, section 3.2.3)", control: settings, others: []string{"\x02\x3f\xe1\x3f"}, code: 0x201},
	{name: "a second encoder stream (RFC 9204, section 4.2)", control: settings, others: []string{"\x02", "\x02"}, code: 0x103},
	{name: "HEADERS above the limit, which are answered (10.5)", control: settings, request: "\x01" + longFrame},
	{name: "SETTINGS above the limit (10.5)", control: "\x00\x04" + longFrame, code: 0x107},
	{name: "an insertion above the limit (RFC 9204, section 7.4)", control: settings, others: []string{"\x02" + longInsertion}, code: 0x201},
	{name: "an acknowledgment of nothing (RFC 9204, section 4.4.1)", control: settings, others: []string{"\x03\x80"}, code: 0x202},
}

var fromServer = []violation{
	{name: "a frame of unknown type before SETTINGS (6.2.1)", control: otherFirst, code: 0x10a},
	{name: "SETTINGS_ENABLE_CONNECT_PROTOCOL of 2 (RFC 8441, section 3)", control: "\x00\x04\x02\x08\x02", code: 0x109},
	{name: "DATA before HEADERS (RFC 9114, section 4.1)", control: settings, request: "\x00\x01a", code: 0x105},
	{name: "GOAWAY that is raised (5.2)", control: settings + "\x07\x01\x04\x07\x01\x08", code: 0x108},
	{name: "GOAWAY of no request (5.2)", control: settings + "\x07\x01\x03", code: 0x108},
	{name: "a push stream that was not allowed (6.2.2)", control: settings, others: []string{"\x01\x00"}, code: 0x108},
	{name: "PUSH_PROMISE that was not allowed (7.2.5)", control: settings, request: "\x05\x02\x00\x00", code: 0x108},
	{name: "MAX_PUSH_ID of a server (7.2.7)", control: settings + "\x0d\x01\x00", code: 0x105},
	{name: "a dynamic entry that is not there (RFC 9204, section 2.2.3)", control: settings, request: "\x01\x03\x00\x00\x80", code: 0x200},
	{name: "the head of a request (4.3.2)", control: settings, request: get, end: true},
	{name: "no head (4.1)", control: settings, end: true},
	{name: "a field of a connection (4.2)", control: settings, request: head(ok + line("connection", "close")), end: true},
	{name: "two content-length (4.1.2)", control: settings, request: head(ok + line("content-length", "0") + line("content-length", "1")), end: true},
	{name: ":status behind a regular field (4.3)", control: settings, request: head(line("x-front", "1") + ok), end: true},
	{name: "a trailer with a pseudo-header field (4.3)", control: settings, request: status200 + status200, end: true},
	{name: "HEADERS above the limit (10.5)", control: settings, request: "\x01" + longFrame},
	{name: "SETTINGS above the limit (10.5)", control: "\x00\x04" + longFrame, code: 0x107},
	{name: "an insertion above the limit (RFC 9204, section 7.4)", control: settings, others: []string{"\x02" + longInsertion}, code: 0x201},
}

func must(err error) {
	if err != nil {
		fmt.Fprintln(os.Stderr, "violate:", err)
		os.Exit(1)
	}
}

// the unidirectional streams of a case
func openOthers(connection quic.Connection, c violation) error {
	for i, text := range append([]string{c.control}, c.others...) {
		stream, err := connection.OpenUniStream()
		if err != nil {
			return err
		}
		if _, err := stream.Write([]byte(text)); err != nil {
			return err
		}
		if i == 0 && c.cut {
			stream.Close()
		}
	}
	return nil
}

// the code with which the other side closed the connection
func closedWith(connection quic.Connection) (uint64, error) {
	context, stop := context.WithTimeout(context.Background(), patience)
	defer stop()
	_, err := connection.AcceptStream(context)
	var closed *quic.ApplicationError
	if errors.As(err, &closed) && closed.Remote {
		return uint64(closed.ErrorCode), nil
	}
	return 0, err
}

// the code with which the other side reset the stream; 0 where it ended with bytes on it
func endedWith(stream quic.Stream) (uint64, error) {
	stream.SetReadDeadline(time.Now().Add(patience))
	text, err := io.ReadAll(stream)
	var reset *quic.StreamError
	if errors.As(err, &reset) {
		return uint64(reset.ErrorCode), nil
	}
	if err == nil && len(text) == 0 {
		err = errors.New("the stream ended with nothing on it")
	}
	return 0, err
}

func try(address string, config *tls.Config, c violation) (uint64, error) {
	connection, err := quic.DialAddr(address, config, nil)
	if err != nil {
		return 0, err
	}
	defer connection.CloseWithError(0x100, "")
	if err := openOthers(connection, c); err != nil {
		return 0, err
	}
	stream, err := connection.OpenStream()
	if err == nil && c.request != "" {
		_, err = stream.Write([]byte(c.request))
	}
	if err == nil && c.end {
		err = stream.Close()
	}
	if err == nil && (c.stream || c.code == 0) {
		return endedWith(stream)
	}
	// a write may fail since the connection is closed already
	return closedWith(connection)
}

func client(trusted, address string) bool {
	text, err := os.ReadFile(trusted)
	must(err)
	pool := x509.NewCertPool()
	pool.AppendCertsFromPEM(text)
	good := true
	for _, c := range fromClient {
		code, err := try(address, &tls.Config{RootCAs: pool, ServerName: "localhost", NextProtos: []string{"h3"}}, c)
		if err == nil && code == c.code {
			fmt.Println("ok", c.name)
			continue
		}
		good = false
		fmt.Printf("failed %s: code 0x%x in place of 0x%x, %v\n", c.name, code, c.code, err)
	}
	return good
}

// a connection of `violate serve`: the case goes out once the request's stream is there, and lasts until the client leaves
func answer(connection quic.Connection, c violation) {
	context, stop := context.WithTimeout(context.Background(), patience)
	defer stop()
	stream, err := connection.AcceptStream(context)
	if err == nil {
		err = openOthers(connection, c)
	}
	if err == nil {
		_, err = stream.Write([]byte(c.request))
	}
	if err == nil && c.end {
		stream.Close()
	}
	connection.AcceptStream(context)
	connection.CloseWithError(0x100, "")
}

func serve(address, certificate, key string) {
	pair, err := tls.LoadX509KeyPair(certificate, key)
	must(err)
	listener, err := quic.ListenAddr(address, &tls.Config{Certificates: []tls.Certificate{pair}, NextProtos: []string{"h3"}}, nil)
	must(err)
	for _, c := range fromServer {
		connection, err := listener.Accept(context.Background())
		must(err)
		answer(connection, c)
	}
	must(listener.Close())
}

func main() {
	words := append(os.Args, "")[1:]
	switch {
	case words[0] == "client" && len(words) == 4:
		if !client(words[1], words[2]) {
			os.Exit(1)
		}
	case words[0] == "serve" && len(words) == 5:
		serve(words[1], words[2], words[3])
	case words[0] == "cases":
		for _, c := range fromServer {
			fmt.Println(c.code, c.name)
		}
	default:
		must(errors.New("client, serve or cases, and their words"))
	}
}
