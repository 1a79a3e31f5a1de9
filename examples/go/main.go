// h3go holds HTTP/3 connections with the library behind include/h3.h, over quic-go (Debian's golang-github-lucas-clemente-quic-go-dev).
//
//	h3go serve [-requests N] [-drain DURATION] [-handler] ADDRESS CERTIFICATE KEY FOLDER
//	    files below a folder; POST is answered with the count and SHA-256 of its body. -handler: by an http.Handler. -requests: at most so many on a connection, GOAWAY
//	    goes out when 100 are left (100,000; 0: no limit). SIGTERM and SIGINT: GOAWAY, and what was begun ends, whatever its reader's speed; the second one cuts it off
//	h3go fetch [-post FILE] [-head] [-count N] [-parallel N] [-cancel BYTES] [-verbose] TRUSTED URL
//	    the bodies to standard output; -verbose: what status each head has, and how many fields each trailer, to standard error
//	h3go client [-post FILE] [-count N] TRUSTED URL
//	    the same by an http.Client, over an http.RoundTripper: all requests at once
package main

import (
	"context"
	"crypto/tls"
	"crypto/x509"
	"errors"
	"flag"
	"fmt"
	"io"
	"net/url"
	"os"
	"time"

	"beanwhile/h3"
)

var settings = &quicConfig{MaxIncomingStreams: streams, MaxIncomingUniStreams: 16, MaxIdleTimeout: 30 * time.Second}

func fail(err error) {
	if err != nil {
		fmt.Fprintln(os.Stderr, "h3go:", err)
		os.Exit(1)
	}
}

// wish is what each request asks for.
type wish struct {
	place  *url.URL
	method string
	file   string // its body; empty: none
}

var verbose bool

// ask sends a request, with a file as its body where there is one. It gives it up behind so many bytes of the file (0: never).
func ask(request *Request, wish wish, cancel int) error {
	place := wish.place
	fields := []h3.Field{{Name: ":method", Value: wish.method}, {Name: ":scheme", Value: "https"}, {Name: ":authority", Value: place.Host}, {Name: ":path", Value: place.RequestURI()}}
	if wish.file == "" {
		return request.Send(fields, nil)
	}
	body, err := os.Open(wish.file)
	if err != nil {
		return err
	}
	defer body.Close()
	if err := request.SendHead(fields); err != nil {
		return err
	}
	if cancel > 0 {
		if _, err := io.CopyN(request, body, int64(cancel)); err != nil {
			return err
		}
		return errGivenUp
	}
	if _, err := io.Copy(request, body); err != nil {
		return err
	}
	return request.Finish()
}

// tryToAsk gives a request up that cannot be sent. Where the server wanted no more of it, there may be a response all the same.
func tryToAsk(request *Request, wish wish, cancel int) error {
	err := ask(request, wish, cancel)
	if err == nil || request.IsStopped() {
		return nil
	}
	request.GiveUp(h3.RequestCancelled)
	return err
}

var errGivenUp = errors.New("given up")

// say says what came in front of a body, or behind it.
func say(item h3.Item) {
	switch item.Kind {
	case h3.Head, h3.Interim:
		fmt.Fprintln(os.Stderr, map[bool]string{true: "status", false: "interim"}[item.Kind == h3.Head], item.Status)
	case h3.Trailer:
		fmt.Fprintf(os.Stderr, "trailer of %d fields\n", len(item.Fields))
	}
}

// answer gives the body of the response, or gives it up behind so many bytes (0: never).
func answer(request *Request, cancel int) ([]byte, error) {
	var body []byte
	for {
		item, err := request.Next()
		var fault h3.Fault
		if errors.As(err, &fault) || err == errTooLarge {
			request.GiveUp(codeOf(err, false))
		}
		if err != nil {
			return nil, err
		}
		if verbose {
			say(item)
		}
		switch item.Kind {
		case h3.Head:
			if item.Status/100 != 2 {
				request.GiveUp(h3.RequestCancelled)
				return nil, fmt.Errorf("status %d", item.Status)
			}
		case h3.Body:
			body = append(body, item.Bytes...)
			if cancel > 0 && len(body) >= cancel {
				request.GiveUp(h3.RequestCancelled)
				return nil, errGivenUp
			}
		case h3.End:
			return body, nil
		}
	}
}

// exchange gives the body of the response as soon as it is whole, whatever became of the request's body (RFC 9114, section 4.1).
func exchange(connection *Connection, wish wish, cancel int) ([]byte, error) {
	request, err := connection.Open(context.Background())
	if err != nil {
		return nil, err
	}
	sent := make(chan error, 1)
	go func() { sent <- tryToAsk(request, wish, cancel) }()
	body, err := answer(request, cancel)
	var fault h3.Fault
	if errors.As(err, &fault) && fault.Kind == h3.FaultCanceled {
		err = <-sent // why it was given up
	}
	return body, err
}

type answered struct {
	body []byte
	err  error
}

// several makes so many requests, of which so many at once, and hands each answer to the channel of its number.
func several(connection *Connection, wish wish, parallel, cancel int, answers []chan answered) {
	places := make(chan bool, parallel)
	for i := range answers {
		places <- true
		go func(i int) {
			limit := 0
			if i == 0 {
				limit = cancel
			}
			body, err := exchange(connection, wish, limit)
			answers[i] <- answered{body, err}
			<-places
		}(i)
	}
}

// trusting is a client's TLS, which takes the certificates that one of a file's vouches for.
func trusting(file string) (*tls.Config, error) {
	text, err := os.ReadFile(file)
	if err != nil {
		return nil, err
	}
	pool := x509.NewCertPool()
	pool.AppendCertsFromPEM(text)
	return &tls.Config{RootCAs: pool, NextProtos: []string{"h3"}}, nil
}

// connect opens a connection to a server.
func connect(trusted string, place *url.URL) (*Connection, error) {
	config, err := trusting(trusted)
	if err != nil {
		return nil, err
	}
	session, err := dial(context.Background(), place.Host, config, settings)
	if err != nil {
		return nil, fmt.Errorf("no connection: %w", err)
	}
	return NewConnection(session, nil, 0)
}

func fetch(words []string) error {
	options := flag.NewFlagSet("fetch", flag.ExitOnError)
	post := options.String("post", "", "a file that is posted")
	count := options.Int("count", 1, "how many requests on the connection")
	parallel := options.Int("parallel", 1, "how many at once")
	cancel := options.Int("cancel", 0, "give the first request up behind so many bytes of its response, or of its file")
	head := options.Bool("head", false, "HEAD: the head alone")
	options.BoolVar(&verbose, "verbose", false, "say what status each head has, and how many fields each trailer")
	options.Parse(words)
	if options.NArg() != 2 || (*head && *post != "") {
		return errors.New("fetch [OPTION..] TRUSTED URL")
	}
	place, err := url.Parse(options.Arg(1))
	if err != nil {
		return err
	}
	asked := wish{place: place, method: "GET", file: *post}
	if *head {
		asked.method = "HEAD"
	} else if *post != "" {
		asked.method = "POST"
	}
	connection, err := connect(options.Arg(0), place)
	if err != nil {
		return err
	}
	defer connection.Close()
	answers := make([]chan answered, *count)
	for i := range answers {
		answers[i] = make(chan answered, 1)
	}
	go several(connection, asked, *parallel, *cancel, answers)
	var failed error
	for i := range answers {
		got := <-answers[i]
		if got.err != nil {
			if failed == nil && got.err != errGivenUp {
				failed = got.err // the other responses are written all the same
			}
			continue
		}
		if _, err := os.Stdout.Write(got.body); err != nil {
			return err
		}
	}
	return failed
}

func main() {
	if len(os.Args) > 2 && os.Args[1] == "serve" {
		fail(serveCommand(os.Args[2:]))
	} else if len(os.Args) > 2 && os.Args[1] == "fetch" {
		fail(fetch(os.Args[2:]))
	} else if len(os.Args) > 2 && os.Args[1] == "client" {
		fail(clientCommand(os.Args[2:]))
	} else {
		fail(errors.New("serve [OPTION..] ADDRESS CERTIFICATE KEY FOLDER, fetch [OPTION..] TRUSTED URL, or client [OPTION..] TRUSTED URL"))
	}
}
