"""ports.py COUNT: so many ports of 127.0.0.1 that are free for UDP and TCP, a line each. They lie below those that Linux gives to clients, so that no client takes
one before its server does: from the number in PORTS on, or by chance."""
import itertools
import os
import random
import socket
import sys

LOWEST, HIGHEST = 20000, 32767


def is_free(port):
    with socket.socket(socket.AF_INET, socket.SOCK_DGRAM) as udp, socket.socket(socket.AF_INET, socket.SOCK_STREAM) as tcp:
        try:
            udp.bind(("127.0.0.1", port))
            tcp.bind(("127.0.0.1", port))
        except OSError:
            return False
    return True


def main():
    count = int(sys.argv[1])
    first = int(os.environ.get("PORTS") or random.randrange(LOWEST, HIGHEST - 20 * count))
    for port in itertools.islice(filter(is_free, range(first, HIGHEST)), count):
        print(port)


main()
