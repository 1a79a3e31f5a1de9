#!/usr/bin/env python3
"""The program where its input comes in pieces or fails, and where its output fails.

    python3 scripts/gate/failing_streams.py PROGRAM

runs it on a script of 59 bytes, which comes in pieces of 30 bytes. So three reads give the script and its end. Where one of them fails, the
status is 2 and nothing is written. Its output takes 0, 10, 20 or more bytes, and fails then: with less than the 24 bytes of the answers the
status is 2, and what was written is a front of them. It prints a line 'ok NAME' or 'failed NAME' for each of the two.
"""
import array
import fcntl
import os
import resource
import signal
import socket
import subprocess
import sys
import tempfile
import termios
import time

SCRIPT = b"config 1000 0 0 1000 0 0\nopen c\ndeliver c 0 0\nhead s 0 200\n"
ANSWERS = b"stream 0\ndelivered 0\nok\n"
REFUSED, LINE = b"config 0 0 0 0 0", b"line 1\n"
PIECE, LIMIT = 30, 10


def wait_until_read(end):
    """waits until the other end of the pair has read what was sent"""
    unread = array.array("i", [1])
    for _ in range(10000):
        fcntl.ioctl(end, termios.TIOCOUTQ, unread)
        if unread[0] == 0:
            return
        time.sleep(0.001)
    raise SystemExit("failed streams: the program does not read")


def with_reads(program, script, reads):
    """the status and the output where so many reads succeed: the next one fails, unless that many give the script and its end"""
    pieces = [script[at:at + PIECE] for at in range(0, len(script), PIECE)]
    ours, theirs = socket.socketpair()
    # bytes that this side never reads: so the program's reads fail once this side is closed
    theirs.send(b"unread")
    started = subprocess.Popen([program], stdin=theirs, stdout=subprocess.PIPE)
    theirs.close()
    for piece in pieces[:reads]:
        ours.send(piece)
        wait_until_read(ours)
    if reads > len(pieces):
        ours.shutdown(socket.SHUT_WR)
        wrote = started.communicate(timeout=60)[0]
        ours.close()
    else:
        ours.close()
        wrote = started.communicate(timeout=60)[0]
    return started.returncode, wrote


def with_writes(program, script, writes):
    """the status and the output where the output takes so many times ten bytes, and then fails"""

    def limit():
        signal.signal(signal.SIGXFSZ, signal.SIG_IGN)
        resource.setrlimit(resource.RLIMIT_FSIZE, (writes * LIMIT, writes * LIMIT))

    with tempfile.TemporaryFile() as out:
        ran = subprocess.run([program], input=script, stdout=out, preexec_fn=limit, timeout=60)
        out.seek(0)
        return ran.returncode, out.read()


def held(name, rows):
    """prints whether each row has what is wanted, and answers how many have not"""
    bad = [f"{what}: {found}, and not {wanted}" for what, found, wanted in rows if found != wanted]
    print(f"failed {name}: {bad[0]}" if bad else f"ok {name}: {len(rows)} runs")
    return len(bad)


def main():
    program = os.path.abspath(sys.argv[1])
    reads = [(f"{n} reads", with_reads(program, SCRIPT, n), (0, ANSWERS) if n > 2 else (2, b"")) for n in range(5)]
    reads.append(("a refused line", with_reads(program, REFUSED, 2), (1, LINE)))
    writes = [(f"{n} writes", with_writes(program, SCRIPT, n), (0, ANSWERS) if n > 2 else (2, ANSWERS[:n * LIMIT])) for n in range(5)]
    writes.append(("a refused line, and no write", with_writes(program, REFUSED, 0), (2, b"")))
    writes.append(("no script, and no write", with_writes(program, b"", 0), (2, b"")))
    return 1 if held("an input that fails", reads) + held("an output that fails", writes) else 0


if __name__ == "__main__":
    sys.exit(main())
