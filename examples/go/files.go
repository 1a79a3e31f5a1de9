package main

// The files below a folder, as they are answered. A small one is kept for a second.

import (
	"errors"
	"io"
	"mime"
	"net/http"
	"net/url"
	"path"
	"sync"
	"time"

	"beanwhile/h3"
)

const (
	places = 64          // files that are kept
	keeps  = time.Second // from when they were read
)

var errNoPath = errors.New("no path")

// file is one that several requests may share where it is small.
type file struct {
	fields []h3.Field // the head of its answer
	length int64
	small  []byte    // all of it, where `rest` is nil
	rest   http.File // one that is not small
	read   time.Time
}

func (f *file) close() {
	if f.rest != nil {
		f.rest.Close()
	}
}

// folder has the small files that were read, by the paths of requests.
type folder struct {
	http.Dir
	lock sync.Mutex
	kept map[string]*file
}

func newFolder(name string) *folder { return &folder{Dir: http.Dir(name), kept: map[string]*file{}} }

// open opens the file that the path of a request names. It is to be closed.
func (f *folder) open(name string) (*file, error) {
	f.lock.Lock()
	found := f.kept[name]
	f.lock.Unlock()
	if found != nil && time.Since(found.read) < keeps {
		return found, nil
	}
	clean, err := cleanPath(name)
	if err != nil {
		return nil, err
	}
	opened, err := f.read(clean)
	if err == nil && opened.rest == nil {
		f.keep(name, opened)
	}
	return opened, err
}

func (f *folder) keep(name string, kept *file) {
	f.lock.Lock()
	defer f.lock.Unlock()
	if len(f.kept) >= places {
		f.kept = map[string]*file{}
	}
	f.kept[name] = kept
}

// cleanPath is the path of a file, or of the index of a folder. path.Clean takes every `..` away.
func cleanPath(name string) (string, error) {
	place, err := url.ParseRequestURI(name)
	if err != nil {
		return "", errNoPath
	}
	clean := path.Clean("/" + place.Path)
	if place.Path != "" && place.Path[len(place.Path)-1] == '/' {
		clean = path.Join(clean, "index.html")
	}
	return clean, nil
}

// read opens a regular file, and reads it where it is small. Links are followed.
func (f *folder) read(clean string) (*file, error) {
	opened, err := f.Open(clean)
	if err != nil {
		return nil, err
	}
	status, err := opened.Stat()
	if err == nil && !status.Mode().IsRegular() {
		err = errors.New("no file")
	}
	if err != nil {
		opened.Close()
		return nil, err
	}
	kind := mime.TypeByExtension(path.Ext(clean))
	if kind == "" {
		kind = "application/octet-stream"
	}
	made := &file{fields: head("200", kind, status.Size()), length: status.Size(), rest: opened, read: time.Now()}
	if made.length > piece {
		return made, nil
	}
	defer opened.Close()
	made.small, made.rest = make([]byte, made.length), nil
	_, err = io.ReadFull(opened, made.small)
	return made, err
}
