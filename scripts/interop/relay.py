"""relay.py PORT TO: passes UDP packets between 127.0.0.1:PORT and 127.0.0.1:TO, of 100 packets 3 not at all and 10 some milliseconds late."""
import heapq
import random
import select
import socket
import sys
import time

LOST, LATE, DELAY = 0.03, 0.10, 0.005  # of all packets, of all packets, seconds


def bound(port):
    sock = socket.socket(socket.AF_INET, socket.SOCK_DGRAM)
    sock.setsockopt(socket.SOL_SOCKET, socket.SO_RCVBUF, 1 << 22)
    sock.bind(("127.0.0.1", port))
    sock.setblocking(False)
    return sock


def main():
    front, to, chance = bound(int(sys.argv[1])), ("127.0.0.1", int(sys.argv[2])), random.Random(9000)
    backs, clients = {}, {}  # the socket for a client's address, and the address for a socket
    late, count = [], 0
    while True:
        wait = max(0, late[0][0] - time.monotonic()) if late else None
        for sock in select.select([front, *clients], [], [], wait)[0]:
            try:
                packet, sender = sock.recvfrom(65536)
            except OSError:
                continue
            if sock is front and sender not in backs:
                backs[sender] = bound(0)
                clients[backs[sender]] = sender
            way = (backs[sender], to) if sock is front else (front, clients[sock])
            throw, count = chance.random(), count + 1
            if throw >= LOST:
                heapq.heappush(late, (time.monotonic() + (DELAY if throw < LOST + LATE else 0), count, packet, way))
        while late and late[0][0] <= time.monotonic():
            _, _, packet, (out, address) = heapq.heappop(late)
            try:
                out.sendto(packet, address)
            except OSError:
                pass  # lost, as in a network


main()
