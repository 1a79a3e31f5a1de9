"""first.py SECONDS COMMAND..: a client's first packet. Runs the command ten times against a socket that answers nothing, whose port stands for
{port} in its words, and says how long the quickest first packet took from the start. Ends with an error above so many seconds."""
import socket
import subprocess
import sys
import time


def first_packet(words):
    with socket.socket(socket.AF_INET, socket.SOCK_DGRAM) as sock:
        sock.bind(("127.0.0.1", 0))
        sock.settimeout(5)
        begun = time.monotonic()
        client = subprocess.Popen([word.replace("{port}", str(sock.getsockname()[1])) for word in words], stderr=subprocess.DEVNULL)
        try:
            sock.recv(65536)
            return time.monotonic() - begun
        finally:
            client.kill()
            client.wait()


def main():
    limit, words = float(sys.argv[1]), sys.argv[2:]
    quickest = min(first_packet(words) for _ in range(10))
    print(f"{1000 * quickest:.1f} ms")
    return 0 if quickest <= limit else 1


sys.exit(main())
