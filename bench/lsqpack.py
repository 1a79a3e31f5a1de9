"""ls-qpack's encoder and decoder (Debian 13's python3-pylsqpack) at the end of a pipe, for bench/out/sizes (heads_lsqpack.c).
Questions and answers stand behind their lengths, and numbers have four bytes. What ls-qpack refuses ends the program."""
import sys

import pylsqpack


def number_of(count):
    return count.to_bytes(4, "little")


def string(text):
    return number_of(len(text)) + text


class Question:
    def __init__(self, text):
        self.text = text

    def take(self, count):
        taken, self.text = self.text[:count], self.text[count:]
        return taken

    def number(self):
        return int.from_bytes(self.take(4), "little")

    def string(self):
        return self.take(self.number())

    def fields(self):
        return [(self.string(), self.string()) for _ in range(self.number())]


class Ends:
    """one encoder and one decoder, each made again when that is asked"""

    def __init__(self):
        self.encoder = self.decoder = None
        self.begun = b""  # instructions of an encoder before its first section

    def E(self, ask):
        self.encoder = pylsqpack.Encoder()
        self.begun = self.encoder.apply_settings(ask.number(), ask.number())
        return b""

    def D(self, ask):
        self.decoder = pylsqpack.Decoder(ask.number(), ask.number())
        return b""

    def w(self, ask):
        instructions, section = self.encoder.encode(ask.number(), ask.fields())
        begun, self.begun = self.begun, b""
        return string(begun + instructions) + string(section)

    def h(self, ask):
        self.encoder.feed_decoder(ask.string())
        return b""

    def r(self, ask):
        stream = ask.number()
        self.decoder.feed_encoder(ask.string())
        replies, fields = self.decoder.feed_header(stream, ask.string())
        return string(replies) + number_of(len(fields)) + b"".join(string(it) for field in fields for it in field)


ends = Ends()
while head := sys.stdin.buffer.read(4):
    question = Question(sys.stdin.buffer.read(int.from_bytes(head, "little")))
    sys.stdout.buffer.write(string(getattr(ends, question.take(1).decode())(question)))
    sys.stdout.buffer.flush()
