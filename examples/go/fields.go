package main

// Lists of fields beside the headers of net/http.

import (
	"net/http"
	"sort"
	"strconv"
	"strings"

	"beanwhile/h3"
)

// connectionFields are the fields that HTTP/3 has not (RFC 9114, section 4.2). Programs for HTTP/1.1 set them, and they are left out.
var connectionFields = map[string]bool{"connection": true, "keep-alive": true, "proxy-connection": true, "transfer-encoding": true, "upgrade": true}

// appendHeader adds the fields of a header but for those that HTTP/3 has not and those that are left out, sorted by their names.
func appendHeader(fields []h3.Field, header http.Header, isLeftOut func(name string) bool) []h3.Field {
	names := make([]string, 0, len(header))
	for name := range header {
		if !connectionFields[strings.ToLower(name)] && !isLeftOut(name) {
			names = append(names, name)
		}
	}
	sort.Strings(names)
	for _, name := range names {
		for _, value := range header[name] {
			fields = append(fields, h3.Field{Name: strings.ToLower(name), Value: value})
		}
	}
	return fields
}

// headerOf is the header of a list, without pseudo-header fields. Several cookie fields are one (RFC 9114, section 4.2.1).
func headerOf(fields []h3.Field) http.Header {
	header := http.Header{}
	for _, field := range fields {
		if !strings.HasPrefix(field.Name, ":") {
			header.Add(field.Name, field.Value)
		}
	}
	if cookies := header["Cookie"]; len(cookies) > 1 {
		header["Cookie"] = []string{strings.Join(cookies, "; ")}
	}
	return header
}

// trailerOf is the header of a trailer section; nil if there is none.
func trailerOf(fields []h3.Field) http.Header {
	if fields == nil {
		return nil
	}
	return headerOf(fields)
}

// lengthOf is what content-length says; -1: nothing.
func lengthOf(header http.Header) int64 {
	length, err := strconv.ParseInt(header.Get("Content-Length"), 10, 64)
	if err != nil {
		return -1
	}
	return length
}
