// peer is quic-go's own HTTP/3 (Debian's golang-github-lucas-clemente-quic-go-dev), for `make interop` to talk to:
//
//	peer serve ADDRESS CERTIFICATE KEY FOLDER      files below a folder; POST is answered with the count and SHA-256 of its body
//	peer fetch TRUSTED URL                         the body to standard output
//	peer post TRUSTED FILE URL                     POSTs a file, the answer's body to standard output
//	peer tunnel TRUSTED FILE URL                   extended CONNECT for a WebSocket, on which the file goes; what comes back to standard output
//	peer many TRUSTED COUNT PARALLEL URL           COUNT requests on one connection; "COUNT bodies of N bytes, one SHA-256"
//	peer cancel TRUSTED URL COUNT                  COUNT times: takes a piece of the body, gives the request up; then one whole
//	peer slow TRUSTED RATE URL                     the body to standard output, read at so many bytes a second
//	peer head TRUSTED BYTES URL                    a request with a field of so many bytes: the status to standard output
//	peer put TRUSTED FILE URL                      PUTs a file: the status, and whether all of the file was read
//	peer beside TRUSTED FILE URL OTHER             on one connection, while URL is read, which gives FILE, requests of OTHER with long fields: lines 'ok CASE', 'failed CASE: WHAT'
//	peer resets TRUSTED COUNT ADDRESS              COUNT requests on one connection, each reset behind its head; then one whole
package main

import (
	"bytes"
	"context"
	"crypto/sha256"
	"crypto/tls"
	"crypto/x509"
	"fmt"
	"io"
	"net/http"
	"os"
	"strconv"
	"strings"
	"sync"
	"time"

	"github.com/lucas-clemente/quic-go"
	"github.com/lucas-clemente/quic-go/http3"
)

// on a busy machine a handshake may take longer than the five seconds that are the default
var patient = &quic.Config{HandshakeIdleTimeout: 30 * time.Second, KeepAlivePeriod: 10 * time.Second, MaxIncomingStreams: -1}

// limit is how long a request may take: a minute, or PEER_SECONDS
func limit() time.Duration {
	seconds, err := strconv.Atoi(os.Getenv("PEER_SECONDS"))
	if err != nil {
		return time.Minute
	}
	return time.Duration(seconds) * time.Second
}

func fail(err error) {
	if err != nil {
		fmt.Fprintln(os.Stderr, "peer:", err)
		os.Exit(1)
	}
}

func serve(address, certificate, key, folder string) {
	files := http.FileServer(http.Dir(folder))
	handler := http.HandlerFunc(func(w http.ResponseWriter, r *http.Request) {
		if r.Method != http.MethodPost {
			files.ServeHTTP(w, r)
			return
		}
		if r.URL.Path == "/early" { // the body is not read: STOP_SENDING goes out behind the answer
			fmt.Fprintln(w, "early")
			return
		}
		hash := sha256.New()
		count, err := io.Copy(hash, r.Body)
		if err != nil {
			fmt.Fprintln(os.Stderr, "peer: a body ended with", err)
			return
		}
		fmt.Fprintf(w, "%d %x\n", count, hash.Sum(nil))
	})
	pair, err := tls.LoadX509KeyPair(certificate, key)
	fail(err)
	server := http3.Server{Addr: address, Handler: handler, TLSConfig: &tls.Config{Certificates: []tls.Certificate{pair}}}
	fmt.Println("serving", folder, "at", address)
	fail(server.ListenAndServe())
}

// a client on one connection, which trusts the certificate in a file
func newClient(trusted string) (*http.Client, func() error) {
	text, err := os.ReadFile(trusted)
	fail(err)
	pool := x509.NewCertPool()
	if !pool.AppendCertsFromPEM(text) {
		fail(fmt.Errorf("no certificate in %s", trusted))
	}
	tripper := &http3.RoundTripper{TLSClientConfig: &tls.Config{RootCAs: pool}, DisableCompression: true, QuicConfig: patient}
	return &http.Client{Transport: tripper, Timeout: limit()}, tripper.Close
}

// the whole body of an answer with status 200
func body(answer *http.Response, err error) ([]byte, error) {
	if err != nil {
		return nil, err
	}
	defer answer.Body.Close()
	text, err := io.ReadAll(answer.Body)
	if err == nil && answer.StatusCode != 200 {
		err = fmt.Errorf("status %d", answer.StatusCode)
	}
	return text, err
}

// extended CONNECT (RFC 9220), with a body from a file
func tunnel(client *http.Client, name, url string) ([]byte, error) {
	file, err := os.Open(name)
	if err != nil {
		return nil, err
	}
	request, err := http.NewRequest(http.MethodConnect, url, file)
	if err != nil {
		return nil, err
	}
	request.Proto = "websocket"
	return body(client.Do(request))
}

func many(client *http.Client, count, parallel int, url string) error {
	first, err := body(client.Get(url))
	if err != nil {
		return err
	}
	var done sync.WaitGroup
	places := make(chan bool, parallel)
	errors := make(chan error, count)
	for i := 1; i < count; i++ {
		done.Add(1)
		places <- true
		go func() {
			defer func() { <-places; done.Done() }()
			text, err := body(client.Get(url))
			if err == nil && !bytes.Equal(text, first) {
				err = fmt.Errorf("a body of %d bytes differs from the first", len(text))
			}
			if err != nil {
				errors <- err
			}
		}()
	}
	done.Wait()
	if len(errors) > 0 {
		return <-errors
	}
	fmt.Printf("%d bodies of %d bytes, %x\n", count, len(first), sha256.Sum256(first))
	return nil
}

func cancel(client *http.Client, url string, count int) error {
	for i := 0; i < count; i++ {
		context, giveUp := context.WithCancel(context.Background())
		request, err := http.NewRequestWithContext(context, http.MethodGet, url, nil)
		if err != nil {
			giveUp()
			return err
		}
		answer, err := client.Do(request)
		if err == nil {
			_, err = io.ReadFull(answer.Body, make([]byte, 10000))
			giveUp()
			answer.Body.Close()
		}
		giveUp()
		if err != nil {
			return err
		}
	}
	text, err := body(client.Get(url))
	if err == nil {
		fmt.Printf("%d given up, then %d bytes, %x\n", count, len(text), sha256.Sum256(text))
	}
	return err
}

func slow(client *http.Client, rate int, url string) error {
	answer, err := client.Get(url)
	if err != nil {
		return err
	}
	defer answer.Body.Close()
	for piece := int64(rate / 20); err == nil; {
		_, err = io.CopyN(os.Stdout, answer.Body, piece)
		time.Sleep(time.Second / 20)
	}
	if err == io.EOF {
		err = nil
	}
	return err
}

func head(client *http.Client, size int, url string) error {
	request, err := http.NewRequest(http.MethodGet, url, nil)
	if err != nil {
		return err
	}
	request.Header.Set("x-long", strings.Repeat("a", size))
	answer, err := client.Do(request)
	if err == nil {
		answer.Body.Close()
		fmt.Println(answer.StatusCode)
	}
	return err
}

// A field that a request has, and the status of the answer.
type besideCase struct {
	name   string
	text   string
	repeat int
	status int
}

// What a request has beside a download, where the server takes sections of 65,536 bytes (as a list of fields) in frames of at most 262,144. quic-go writes
// every string in the Huffman code (RFC 7541, appendix B), in which these two characters have 130 bits.
var besideCases = []besideCase{
	{"a field of 100,000 bytes in a frame of some 62,600 gives 431", "a", 100000, 431},
	{"a field of 19,998 bytes in a frame of some 54,200", "漢字", 3333, 200},
	{"a field of 61,998 bytes in a frame of some 168,000", "漢字", 10333, 200},
	{"a field of 99,996 bytes in a frame of some 270,900 gives 431", "漢字", 16666, 431},
	{"a field of 149,994 bytes in a frame of some 406,300 gives 431", "漢字", 24999, 431},
	{"a field of one byte", "a", 1, 200},
}

// ask sends a request that has the field.
func (c besideCase) ask(client *http.Client, url string) error {
	request, err := http.NewRequest(http.MethodGet, url, nil)
	if err != nil {
		return err
	}
	request.Header.Set("x-long", strings.Repeat(c.text, c.repeat))
	answer, err := client.Do(request)
	if err != nil {
		return err
	}
	defer answer.Body.Close()
	if answer.StatusCode != c.status {
		return fmt.Errorf("status %d", answer.StatusCode)
	}
	_, err = io.Copy(io.Discard, answer.Body)
	return err
}

func say(name string, err error) {
	if err == nil {
		fmt.Println("ok", name)
	} else {
		fmt.Printf("failed %s: %v\n", name, err)
	}
}

// beside begins to read a file that is larger than what the client gives credit for, asks with long fields, and then reads the rest.
func beside(trusted, name, url, other string) error {
	file, err := os.ReadFile(name)
	if err != nil {
		return err
	}
	client, leave := newClient(trusted)
	defer leave()
	dials := 0
	client.Transport.(*http3.RoundTripper).Dial = func(ctx context.Context, address string, config *tls.Config, options *quic.Config) (quic.EarlyConnection, error) {
		dials++
		return quic.DialAddrEarlyContext(ctx, address, config, options)
	}
	answer, err := client.Get(url)
	if err != nil {
		return err
	}
	defer answer.Body.Close()
	first := make([]byte, 100000)
	if _, err := io.ReadFull(answer.Body, first); err != nil {
		return err
	}
	for _, c := range besideCases {
		say(c.name, c.ask(client, other))
	}
	rest, err := io.ReadAll(answer.Body)
	if err == nil && !bytes.Equal(append(first, rest...), file) {
		err = fmt.Errorf("%d bytes, which differ", len(first)+len(rest))
	}
	say("the download is whole", err)
	if dials != 1 {
		err = fmt.Errorf("%d", dials)
	}
	say("one connection for all", err)
	return nil
}

type counted struct {
	io.Reader
	count int64
}

func (c *counted) Read(bytes []byte) (int, error) {
	count, err := c.Reader.Read(bytes)
	c.count += int64(count)
	return count, err
}

func put(client *http.Client, name, url string) error {
	file, err := os.Open(name)
	if err != nil {
		return err
	}
	status, err := file.Stat()
	if err != nil {
		return err
	}
	body := &counted{Reader: file}
	request, err := http.NewRequest(http.MethodPut, url, io.NopCloser(body))
	if err != nil {
		return err
	}
	answer, err := client.Do(request)
	if err != nil {
		return err
	}
	text, err := io.ReadAll(answer.Body)
	time.Sleep(2 * time.Second) // the rest of the file would go out meanwhile
	fmt.Printf("%d, a text of %d bytes, all of the file: %v\n", answer.StatusCode, len(text), body.count == status.Size())
	return err
}

// a connection of QUIC, without HTTP/3, which trusts the certificate in a file
func connect(trusted, address string) (quic.Connection, error) {
	text, err := os.ReadFile(trusted)
	fail(err)
	pool := x509.NewCertPool()
	pool.AppendCertsFromPEM(text)
	return quic.DialAddr(address, &tls.Config{RootCAs: pool, ServerName: "localhost", NextProtos: []string{"h3"}}, patient)
}

func resets(connection quic.Connection, count int) error {
	// GET https://localhost/hello.txt
	const get = "\x01\x1b\x00\x00\xd1\xd7\x50\x09localhost\x51\x0a/hello.txt"
	control, err := connection.OpenUniStream()
	if err == nil {
		_, err = control.Write([]byte("\x00\x04\x00"))
	}
	for i := 0; i <= count && err == nil; i++ {
		var stream quic.Stream
		if stream, err = connection.OpenStreamSync(context.Background()); err != nil {
			break
		}
		_, err = stream.Write([]byte(get))
		if i < count {
			stream.CancelWrite(0x10c)
			stream.CancelRead(0x10c)
			continue
		}
		stream.Close()
		stream.SetReadDeadline(time.Now().Add(limit()))
		var text []byte
		if text, err = io.ReadAll(stream); err == nil {
			fmt.Printf("%d reset, then %d bytes\n", count, len(text))
		}
	}
	connection.CloseWithError(0x100, "")
	return err
}

func number(text string) int {
	value, err := strconv.Atoi(text)
	fail(err)
	return value
}

func main() {
	words := os.Args[1:]
	if len(words) == 5 && words[0] == "serve" {
		serve(words[1], words[2], words[3], words[4])
		return
	}
	if len(words) < 3 {
		fail(fmt.Errorf("serve, fetch, post, tunnel, many, cancel, slow, put, head, beside or resets, and their words"))
	}
	if words[0] == "resets" && len(words) == 4 {
		connection, err := connect(words[1], words[3])
		fail(err)
		fail(resets(connection, number(words[2])))
		return
	}
	if words[0] == "beside" && len(words) == 5 {
		fail(beside(words[1], words[2], words[3], words[4]))
		return
	}
	client, leave := newClient(words[1])
	var err error
	var text []byte
	switch {
	case words[0] == "fetch" && len(words) == 3:
		text, err = body(client.Get(words[2]))
	case words[0] == "post" && len(words) == 4:
		var file *os.File
		file, err = os.Open(words[2])
		fail(err)
		text, err = body(client.Post(words[3], "application/octet-stream", file))
	case words[0] == "tunnel" && len(words) == 4:
		text, err = tunnel(client, words[2], words[3])
	case words[0] == "many" && len(words) == 5:
		err = many(client, number(words[2]), number(words[3]), words[4])
	case words[0] == "cancel" && len(words) == 4:
		err = cancel(client, words[2], number(words[3]))
	case words[0] == "slow" && len(words) == 4:
		err = slow(client, number(words[2]), words[3])
	case words[0] == "put" && len(words) == 4:
		err = put(client, words[2], words[3])
	case words[0] == "head" && len(words) == 4:
		err = head(client, number(words[2]), words[3])
	default:
		err = fmt.Errorf("no such words")
	}
	os.Stdout.Write(text)
	leave()
	fail(err)
}
