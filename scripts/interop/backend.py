"""backend.py PORT FOLDER: an HTTP/1.1 server behind the proxies of `make interop` (nginx, haproxy, Caddy), of 127.0.0.1.

Files below a folder; POST is answered with the count and SHA-256 of its body; /204, /304; /103 with an interim answer in front; /trailers with a trailer;
/cut, whose body ends before its length; /early, which answers a POST whose body it does not read."""
import hashlib
import http.server
import os
import sys


class Handler(http.server.BaseHTTPRequestHandler):
    protocol_version = "HTTP/1.1"
    folder = ""

    def log_message(self, *words):
        pass

    def answer(self, status, body=b"", length=None, fields=()):
        self.send_response(status)
        for name, value in fields:
            self.send_header(name, value)
        if status not in (204, 304):
            self.send_header("content-length", str(len(body) if length is None else length))
        self.end_headers()
        if self.command != "HEAD":
            self.wfile.write(body)

    def do_GET(self):
        file = self.folder + self.path
        if self.path in ("/204", "/304"):
            self.answer(int(self.path[1:]), fields=[("etag", '"1"')])
        elif self.path == "/103":
            self.wfile.write(b"HTTP/1.1 103 Early Hints\r\nlink: </style.css>; rel=preload; as=style\r\n\r\n")
            self.answer(200, b"hints\n")
        elif self.path == "/trailers":
            self.send_response(200)
            self.send_header("transfer-encoding", "chunked")
            self.send_header("trailer", "x-count, x-sum")
            self.end_headers()
            self.wfile.write(b"9\r\ntrailers\n\r\n0\r\nx-count: 9\r\nx-sum: 0\r\n\r\n")
        elif self.path == "/cut":
            self.answer(200, bytes(100_000), length=10_000_000)
            self.close_connection = True
        elif os.path.isfile(file):
            with open(file, "rb") as it:
                self.answer(200, it.read())
        else:
            self.answer(404)

    do_HEAD = do_GET

    def pieces(self):
        """the body of a request, of a length or in chunks"""
        if "chunked" in self.headers.get("transfer-encoding", ""):
            while size := int(self.rfile.readline().split(b";")[0], 16):
                yield self.rfile.read(size)
                self.rfile.readline()
            while self.rfile.readline().strip():
                continue
            return
        left = int(self.headers.get("content-length", 0))
        while left > 0 and (piece := self.rfile.read(min(left, 65536))):
            left -= len(piece)
            yield piece

    def do_POST(self):
        if self.path == "/early":
            self.close_connection = True
            return self.answer(200, b"early\n", fields=[("connection", "close")])
        hash_, count = hashlib.sha256(), 0
        for piece in self.pieces():
            hash_.update(piece)
            count += len(piece)
        self.answer(200, f"{count} {hash_.hexdigest()}\n".encode())


def main():
    Handler.folder = sys.argv[2]
    http.server.ThreadingHTTPServer.daemon_threads = True
    http.server.ThreadingHTTPServer.request_queue_size = 128  # connections that come at once: above 5, by default, some are reset
    http.server.ThreadingHTTPServer(("127.0.0.1", int(sys.argv[1])), Handler).serve_forever()


main()
