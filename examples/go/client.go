package main

import (
	"errors"
	"flag"
	"fmt"
	"io"
	"net/http"
	"os"
)

// exchangeByClient sends a request by a client of net/http, and gives the body of the response.
func exchangeByClient(client *http.Client, place, file string) ([]byte, error) {
	var response *http.Response
	var err error
	if file == "" {
		response, err = client.Get(place)
	} else {
		var body *os.File
		if body, err = os.Open(file); err != nil {
			return nil, err
		}
		response, err = client.Post(place, "application/octet-stream", body)
	}
	if err != nil {
		return nil, err
	}
	defer response.Body.Close()
	if response.StatusCode/100 != 2 {
		return nil, fmt.Errorf("status %s", response.Status)
	}
	return io.ReadAll(response.Body)
}

func clientCommand(words []string) error {
	options := flag.NewFlagSet("client", flag.ExitOnError)
	post := options.String("post", "", "a file that is posted")
	count := options.Int("count", 1, "how many requests, all at once")
	options.Parse(words)
	if options.NArg() != 2 {
		return errors.New("client [-post FILE] [-count N] TRUSTED URL")
	}
	config, err := trusting(options.Arg(0))
	if err != nil {
		return err
	}
	transport := &Transport{TLS: config}
	defer transport.Close()
	client := &http.Client{Transport: transport}
	answers := make([]chan answered, *count)
	for i := range answers {
		answers[i] = make(chan answered, 1)
		go func(to chan<- answered) {
			body, err := exchangeByClient(client, options.Arg(1), *post)
			to <- answered{body, err}
		}(answers[i])
	}
	for _, answer := range answers {
		got := <-answer
		if got.err == nil {
			_, got.err = os.Stdout.Write(got.body)
		}
		if got.err != nil {
			return got.err
		}
	}
	return nil
}
