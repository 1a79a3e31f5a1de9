// hostile is a client over quic-go that costs a server more than others, or that stays where it should go:
//
//	hostile TRUSTED ADDRESS streams COUNT     COUNT unidirectional streams of an unknown type, each ended: how many it could open
//	hostile TRUSTED ADDRESS window SECONDS    100 requests of /big.bin, with credit for 1,024 bytes of each and 65,536 in all, of which none is read
//	hostile TRUSTED ADDRESS tiny BYTES        /big.bin, read in a stream window of so many bytes: how many came
//	hostile TRUSTED ADDRESS idle COUNT        COUNT connections, until the input ends
//	hostile TRUSTED ADDRESS pings SECONDS     a connection with one request, and then only PING: when it ended, and how
//	hostile TRUSTED ADDRESS late SECONDS      a request each 5 ms for so long, whatever GOAWAY says: how many below its last id were answered, and how
//	                                          many others rejected. It fails where one below was not, where another one was, and where there are none
//	hostile TRUSTED ADDRESS first             a connection: 'taken', or why it is refused
//	hostile TRUSTED ADDRESS token OTHER       the same with a token (NEW_TOKEN) that the server at the address OTHER gave
package main

import (
	"bufio"
	"context"
	"crypto/tls"
	"crypto/x509"
	"errors"
	"fmt"
	"io"
	"os"
	"strconv"
	"sync"
	"time"

	"github.com/lucas-clemente/quic-go"
	"github.com/lucas-clemente/quic-go/quicvarint"
)

const settings = "\x00\x04\x00"

func must(err error) {
	if err != nil {
		fmt.Fprintln(os.Stderr, "hostile:", err)
		os.Exit(1)
	}
}

// GET of a path: fields of the static table (RFC 9204, appendix A), and literals with their names
func get(path string) []byte {
	section := "\x00\x00\xd1\xd7\x50\x09localhost\x51" + string(rune(len(path))) + path
	return []byte("\x01" + string(rune(len(section))) + section)
}

type client struct {
	address string
	tls     *tls.Config
}

func (c client) dial(config *quic.Config) quic.Connection {
	connection, err := quic.DialAddrContext(context.Background(), c.address, c.tls, config)
	must(err)
	control, err := connection.OpenUniStream()
	must(err)
	_, err = control.Write([]byte(settings))
	must(err)
	return connection
}

func ask(connection quic.Connection, path string) quic.Stream {
	stream, err := connection.OpenStream()
	must(err)
	_, err = stream.Write(get(path))
	must(err)
	must(stream.Close())
	return stream
}

func (c client) streams(count int) {
	connection := c.dial(nil)
	opened := 0
	for opened < count {
		within, cancel := context.WithTimeout(context.Background(), 3*time.Second)
		stream, err := connection.OpenUniStreamSync(within)
		cancel()
		if err != nil {
			break
		}
		_, err = stream.Write([]byte("\x21nothing"))
		must(err)
		must(stream.Close())
		opened++
	}
	fmt.Println(opened)
}

func windows(stream, all uint64) *quic.Config {
	return &quic.Config{InitialStreamReceiveWindow: stream, MaxStreamReceiveWindow: stream, InitialConnectionReceiveWindow: all,
		MaxConnectionReceiveWindow: all, KeepAlivePeriod: time.Second}
}

func (c client) window(seconds int) {
	connection := c.dial(windows(1024, 65536))
	for i := 0; i < 100; i++ {
		ask(connection, "/big.bin")
	}
	fmt.Println("asked")
	time.Sleep(time.Duration(seconds) * time.Second)
}

func (c client) tiny(bytes int) {
	stream := ask(c.dial(windows(uint64(bytes), uint64(bytes))), "/big.bin")
	count, err := io.Copy(io.Discard, stream)
	must(err)
	fmt.Println(count)
}

func (c client) idle(count int) {
	for i := 0; i < count; i++ {
		c.dial(&quic.Config{KeepAlivePeriod: 10 * time.Second})
	}
	fmt.Println("there")
	io.Copy(io.Discard, os.Stdin)
}

func (c client) pings(seconds int) {
	connection := c.dial(&quic.Config{KeepAlivePeriod: time.Second})
	_, err := io.Copy(io.Discard, ask(connection, "/hello.txt"))
	must(err)
	fmt.Println("there")
	began := time.Now()
	select {
	case <-connection.Context().Done():
		_, err := connection.OpenStream()
		fmt.Printf("after %d s: %v\n", int(time.Since(began).Seconds()), err)
	case <-time.After(time.Duration(seconds) * time.Second):
		fmt.Println("not ended")
	}
}

// goaways reads the server's control stream to its end: the ids of its GOAWAY frames
func goaways(connection quic.Connection, said func(id uint64)) {
	for {
		stream, err := connection.AcceptUniStream(context.Background())
		if err != nil {
			return
		}
		reader := quicvarint.NewReader(bufio.NewReader(stream))
		if kind, err := quicvarint.Read(reader); err != nil || kind != 0 {
			go io.Copy(io.Discard, stream)
			continue
		}
		for err == nil {
			var kind, length uint64
			if kind, err = quicvarint.Read(reader); err != nil {
				break
			}
			if length, err = quicvarint.Read(reader); err != nil {
				break
			}
			if kind == 7 {
				var id uint64
				id, err = quicvarint.Read(reader)
				said(id)
				continue
			}
			_, err = io.CopyN(io.Discard, reader, int64(length))
		}
		return
	}
}

func (c client) late(seconds int) {
	const answered, rejected, other = 0, 1, 2
	var lock sync.Mutex
	var requests sync.WaitGroup
	last, counts := uint64(1<<62), map[bool]*[3]int{true: {}, false: {}} // by whether the id is below that of the last GOAWAY
	became := map[uint64]int{}
	connection := c.dial(nil)
	go goaways(connection, func(id uint64) {
		lock.Lock()
		defer lock.Unlock()
		last = id
	})
	end := time.Now().Add(time.Duration(seconds) * time.Second)
	for time.Now().Before(end) {
		stream, err := connection.OpenStreamSync(context.Background())
		must(err)
		requests.Add(1)
		go func() {
			defer requests.Done()
			_, err := stream.Write(get("/hello.txt")) // it may have been stopped
			if err == nil {
				stream.Close()
			}
			body, err := io.ReadAll(stream)
			var reset *quic.StreamError
			what := other
			if err == nil && len(body) > 0 {
				what = answered
			} else if errors.As(err, &reset) && reset.ErrorCode == 0x10b {
				what = rejected
			}
			lock.Lock()
			defer lock.Unlock()
			became[uint64(stream.StreamID())] = what
			if len(became) == 10 {
				fmt.Println("there")
			}
		}()
		time.Sleep(5 * time.Millisecond)
	}
	requests.Wait()
	for id, what := range became {
		counts[id < last][what]++
	}
	below, above := counts[true], counts[false]
	fmt.Printf("below %d: %d answered, %d rejected, %d others; from there on: %d answered, %d rejected, %d others\n", last, below[answered], below[rejected],
		below[other], above[answered], above[rejected], above[other])
	if below[answered] == 0 || below[rejected]+below[other] > 0 || above[rejected] == 0 || above[answered]+above[other] > 0 {
		os.Exit(1)
	}
}

func (c client) first(tokens quic.TokenStore) {
	config := &quic.Config{HandshakeIdleTimeout: 3 * time.Second, TokenStore: tokens}
	connection, err := quic.DialAddrContext(context.Background(), c.address, c.tls, config)
	if err != nil {
		fmt.Println("refused:", err)
		return
	}
	connection.CloseWithError(0x100, "")
	fmt.Println("taken")
}

// the last token of any server
type lastToken struct{ token chan *quic.ClientToken }

func (l lastToken) Put(_ string, token *quic.ClientToken) { l.token <- token }

func (l lastToken) Pop(string) *quic.ClientToken {
	select {
	case token := <-l.token:
		return token
	default:
		return nil
	}
}

func (c client) token(other string) {
	tokens := lastToken{make(chan *quic.ClientToken, 10)}
	connection, err := quic.DialAddrContext(context.Background(), other, c.tls, &quic.Config{TokenStore: tokens})
	must(err)
	for began := time.Now(); len(tokens.token) == 0 && time.Since(began) < 5*time.Second; {
		time.Sleep(10 * time.Millisecond)
	}
	fmt.Println("tokens:", len(tokens.token))
	connection.CloseWithError(0x100, "")
	c.first(tokens)
}

func main() {
	text, err := os.ReadFile(os.Args[1])
	must(err)
	pool := x509.NewCertPool()
	pool.AppendCertsFromPEM(text)
	c := client{os.Args[2], &tls.Config{RootCAs: pool, ServerName: "localhost", NextProtos: []string{"h3"}}}
	if os.Args[3] == "token" {
		c.token(os.Args[4])
		return
	}
	count := 0
	if len(os.Args) > 4 {
		count, err = strconv.Atoi(os.Args[4])
		must(err)
	}
	map[string]func(int){"streams": c.streams, "window": c.window, "tiny": c.tiny, "idle": c.idle, "pings": c.pings, "late": c.late,
		"first": func(int) { c.first(nil) }}[os.Args[3]](count)
}
