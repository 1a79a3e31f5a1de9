"""narrow.py PORT TO RATE: passes UDP packets between a client of 127.0.0.1:PORT and 127.0.0.1:TO, to the client so many bytes a second."""
import collections
import select
import socket
import sys
import time

QUEUE = 100_000  # bytes that wait; what comes beyond is lost


def main():
    front = socket.socket(socket.AF_INET, socket.SOCK_DGRAM)
    front.bind(("127.0.0.1", int(sys.argv[1])))
    back = socket.socket(socket.AF_INET, socket.SOCK_DGRAM)
    back.connect(("127.0.0.1", int(sys.argv[2])))
    rate, waiting, size = float(sys.argv[3]), collections.deque(), 0
    client, free = None, time.monotonic()
    while True:
        wait = max(0, free - time.monotonic()) if waiting else None
        for sock in select.select([front, back], [], [], wait)[0]:
            if sock is front:
                packet, client = front.recvfrom(65536)
                back.send(packet)
            else:
                packet = back.recv(65536)
                if size < QUEUE:
                    waiting.append(packet)
                    size += len(packet)
        now = time.monotonic()
        if waiting and now >= free:
            packet = waiting.popleft()
            size -= len(packet)
            front.sendto(packet, client)
            free = max(free, now - 0.01) + len(packet) / rate


main()
