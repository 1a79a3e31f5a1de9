// flood begins frames and instructions that never end over quic-go, for `make interop`, and sends of each as much as the server gives credit for:
//
//	flood TRUSTED ADDRESS COUNT   a connection for each case; a line 'BYTES CASE' of how many bytes went out, COUNT at most
package main

import (
	"bytes"
	"context"
	"crypto/tls"
	"crypto/x509"
	"fmt"
	"os"
	"strconv"
	"time"

	"github.com/lucas-clemente/quic-go"
)

const (
	settings = "\x00\x04\x00"
	far      = "\xbf\xff\xff\xff"     // 2^30 - 1 (RFC 9000, section 16)
	farName  = "\xe1\xff\xff\xff\x03" // 2^30 behind a prefix of five bits (RFC 7541, section 5.1)

	patience = 2 * time.Second // without credit
	whole    = 20 * time.Second
)

// a case: what the stream begins with whose frame never ends, and the byte that then comes again and again
type flood struct {
	name      string
	front     string
	again     byte
	isRequest bool
}

var floods = []flood{
	{name: "HEADERS on a request stream", front: "\x01" + far, isRequest: true},
	{name: "an unknown frame on a request stream", front: "\x21" + far, isRequest: true},
	{name: "SETTINGS on the control stream", front: "\x00\x04" + far},
	{name: "an unknown frame on the control stream", front: settings + "\x21" + far},
	{name: "GOAWAY on the control stream", front: settings + "\x07" + far},
	{name: "an insertion on the encoder stream", front: "\x02\x5f" + farName},
	{name: "an integer on the decoder stream", front: "\x03\xff", again: 0x80},
}

func must(err error) {
	if err != nil {
		fmt.Fprintln(os.Stderr, "flood:", err)
		os.Exit(1)
	}
}

func open(connection quic.Connection, f flood) (quic.SendStream, error) {
	if !f.isRequest {
		return connection.OpenUniStream()
	}
	control, err := connection.OpenUniStream()
	if err != nil {
		return nil, err
	}
	if _, err := control.Write([]byte(settings)); err != nil {
		return nil, err
	}
	return connection.OpenStream()
}

// how many bytes go out before no credit comes any more, or the server ends the stream
func try(address string, config *tls.Config, f flood, most int) (int, error) {
	connection, err := quic.DialAddrContext(context.Background(), address, config, nil)
	if err != nil {
		return 0, err
	}
	defer connection.CloseWithError(0x100, "")
	stream, err := open(connection, f)
	if err != nil {
		return 0, err
	}
	sent, err := stream.Write([]byte(f.front))
	piece := bytes.Repeat([]byte{f.again}, 4096)
	for began := time.Now(); err == nil && sent < most && time.Since(began) < whole; {
		var count int
		stream.SetWriteDeadline(time.Now().Add(patience))
		count, err = stream.Write(piece)
		sent += count
	}
	return sent, nil
}

func main() {
	if len(os.Args) != 4 {
		must(fmt.Errorf("TRUSTED ADDRESS COUNT"))
	}
	text, err := os.ReadFile(os.Args[1])
	must(err)
	most, err := strconv.Atoi(os.Args[3])
	must(err)
	pool := x509.NewCertPool()
	pool.AppendCertsFromPEM(text)
	for _, f := range floods {
		sent, err := try(os.Args[2], &tls.Config{RootCAs: pool, ServerName: "localhost", NextProtos: []string{"h3"}}, f, most)
		must(err)
		fmt.Println(sent, f.name)
	}
}
