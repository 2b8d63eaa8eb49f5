#!/usr/bin/env python3
"""Asks a server over UDP and TCP, over each one query after another, and prints how many were lost and how long the slowest took.

    python3 probe.py HOST PORT COUNT STREAMS GAP NAME...

For `peers.Prober`. COUNT queries go over UDP, with a pause of GAP seconds behind each, and meanwhile STREAMS over TCP, each on a connection
of its own. What hasn't been asked within 30 seconds in all counts as lost.
"""

import concurrent.futures
import socket
import sys
import time

import wire

MOST, MOST_IN_ALL = 5.0, 30.0


def over_udp(sock, server, number, name):
    sock.sendto(wire.query(number, name), server)
    begun = time.monotonic()
    while True:
        left = begun + MOST - time.monotonic()
        if left <= 0:
            return None
        sock.settimeout(left)
        try:
            reply = sock.recv(4096)
        except (TimeoutError, OSError):
            return None
        if reply[:2] == number.to_bytes(2, "big"):
            return time.monotonic() - begun


def over_tcp(server, number, name):
    begun = time.monotonic()
    try:
        with socket.create_connection(server, MOST) as sock:
            sock.settimeout(MOST)
            sock.sendall(wire.frame(wire.query(number, name)))
            reply = wire.read_frame(sock)
    except (TimeoutError, OSError):
        return None
    if reply is None or reply[:2] != number.to_bytes(2, "big"):
        return None
    return time.monotonic() - begun


def ask_all(ask, names, count, gap):
    """The seconds that each reply took, one query after another; None where none came."""
    times, end = [], time.monotonic() + MOST_IN_ALL
    for number in range(count):
        if time.monotonic() > end:
            break
        times.append(ask(number & 0xFFFF, names[number % len(names)]))
        time.sleep(gap)
    return times


def main():
    server = sys.argv[1], int(sys.argv[2])
    count, streams, gap = int(sys.argv[3]), int(sys.argv[4]), float(sys.argv[5])
    names = sys.argv[6:]
    family = socket.AF_INET6 if ":" in server[0] else socket.AF_INET
    with socket.socket(family, socket.SOCK_DGRAM) as sock, concurrent.futures.ThreadPoolExecutor() as pool:
        udp = pool.submit(ask_all, lambda *query: over_udp(sock, server, *query), names, count, gap)
        tcp = pool.submit(ask_all, lambda *query: over_tcp(server, *query), names, streams, gap * count / max(1, streams))
    parts = []
    for times, wanted in ((udp.result(), count), (tcp.result(), streams)):
        answered = [each for each in times if each is not None]
        parts += [str(wanted - len(answered)), f"{max(answered, default=0):.4f}"]
    print(*parts)


if __name__ == "__main__":
    main()
