"""Clients that may not ask, and floods at one of several addresses."""

import collections
import contextlib
import socket
import struct
import time

import wire
from crowd import answered_of
from harness import RULED, case, connect, fail_if, repeated
from more_clients import pipelined, replies
from peers import LOOPBACK, family_of

NXDOMAIN, REFUSED = 3, 5
STRANGER, V6_LOOPBACK = "127.0.0.9", "::1"
INSIDE = ("--allow", f"{LOOPBACK}/32,2001:db8::/32")
BURST, PAUSE = 100, 0.01
MOST_ASKED = 500  # questions for clients inside
PIPELINED, HELD = 200, 90  # queries of a connection, and connections of one client, which may have 100
LABEL = 9  # the first octet of an ID that is the length of a label, behind which the header has the root
INTO_HEADER = b"\xc0\x00" + struct.pack("!HH", wire.A, 1)  # a question whose name is a pointer to the ID


class Flood:
    """Queries of one client over UDP, in bursts, and what comes back. `makes`: what makes a query of its ID."""

    def __init__(self, port, source, server, makes):
        self.sock = socket.socket(family_of(source), socket.SOCK_DGRAM)
        self.sock.bind((source, 0))
        self.sock.connect((server, port))
        self.sock.setblocking(False)
        self.makes, self.sent, self.rcodes, self.too_long = makes, {}, collections.Counter(), 0
        self.count = 0

    def go_on(self, _):
        for _ in range(BURST):
            self.count += 1
            query = self.makes(self.count & 0xFFFF)
            self.sent[wire.number_of(query)] = len(query)
            with contextlib.suppress(BlockingIOError):
                self.sock.send(query)
        self.receive()

    def receive(self):
        with contextlib.suppress(BlockingIOError):
            while True:
                reply = self.sock.recv(4096)
                self.rcodes[wire.rcode_of(reply)] += 1
                self.too_long += len(reply) > self.sent.get(wire.number_of(reply), 0)

    def said(self):
        time.sleep(0.2)
        self.receive()
        self.sock.close()
        return f"{self.count} queries, replies by rcode: {dict(self.rcodes)}"


def odd_query(number):
    """A query that a rule, the cache or the upstream would answer, a NOTIFY, or one whose question is in the header, and longer there."""
    kind = number % 4
    if kind == 1:
        return struct.pack("!6H", LABEL << 8 | number >> 8, 0x0100, 1, 0, 0, 0) + INTO_HEADER
    if number >> 8 == LABEL:
        number ^= 0x8000
    if kind == 0:
        return wire.notify(number, "rpz.example")
    return wire.query(number, RULED[number % len(RULED)] if kind == 2 else f"fresh{number}.example")


@case(others=True, options=INSIDE)
def strangers_over_udp(it):
    """10,000 queries and NOTIFYs a second of a client that may not ask: what is answered is REFUSED, with no more octets than came."""
    flood, before = Flood(it.port, STRANGER, LOOPBACK, odd_query), it.upstream.questions
    with repeated(flood.go_on, PAUSE):
        yield
    said = flood.said()
    fail_if(set(flood.rcodes) != {REFUSED} or flood.too_long, f"{said}, {flood.too_long} longer than their queries")
    fail_if(sum(flood.rcodes.values()) < flood.count // 4, said)
    fail_if(it.upstream.questions > before + MOST_ASKED, "the upstream was asked for strangers")
    return said


@case(others=True, options=INSIDE)
def strangers_over_tcp(it):
    """1,000 connections at once of clients that may not ask, each with one query, again and again for 4 seconds."""
    names, answered = [f"fresh{n}.example" for n in range(1_000)], []

    def flood():
        end = time.monotonic() + 4
        while time.monotonic() < end:
            answered.append(answered_of(it.port, names, REFUSED, 3))

    yield flood
    said = f"{len(answered)} times 1,000 connections, refused at least {min(answered)}"
    fail_if(min(answered) < 950, said)
    return said


@case(others=True, options=INSIDE)
def strangers_that_pipeline(it):
    """90 connections of a client that may not ask, with 200 pipelined queries each: all are refused."""
    with contextlib.ExitStack() as stack:
        held = [stack.enter_context(connect(it.port, STRANGER)) for _ in range(HELD)]
        for place, sock in enumerate(held):
            sock.sendall(pipelined([f"fresh{place}x{n}.example" for n in range(PIPELINED)]))
        yield
        rcodes = collections.Counter(wire.rcode_of(reply) for sock in held for reply in replies(sock, PIPELINED))
    fail_if(rcodes != {REFUSED: HELD * PIPELINED}, f"replies by rcode: {dict(rcodes)}")
    return f"{HELD * PIPELINED} queries refused"


@case(others=True, more_hosts=(V6_LOOPBACK,))
def floods_at_another_address(it):
    """10,000 queries a second, and connections, to the server's address of version 6; clients of version 4 have theirs beside it."""
    flood = Flood(it.port, V6_LOOPBACK, V6_LOOPBACK, lambda number: wire.query(number, RULED[number % len(RULED)]))
    opened = collections.Counter()

    def connections(_):
        with contextlib.ExitStack() as stack:
            for _ in range(HELD):
                sock = stack.enter_context(connect(it.port, host=V6_LOOPBACK))
                sock.sendall(wire.frame(wire.query(7, RULED[0])))
                opened["connections"] += 1

    with repeated(flood.go_on, PAUSE), repeated(connections, PAUSE):
        yield
    said = flood.said()
    fail_if(set(flood.rcodes) != {NXDOMAIN} or sum(flood.rcodes.values()) < flood.count // 4, said)
    return f"{said}; {opened['connections']} connections"


@case(others=True, host=V6_LOOPBACK, more_hosts=(LOOPBACK,), options=("--allow", f"{V6_LOOPBACK}/128"))
def clients_of_version_6(it):
    """Clients of version 6 alone may ask, and hold connections with pipelined queries. The primary, of version 4, is heard."""
    with contextlib.ExitStack() as stack:
        held = [stack.enter_context(connect(it.port, host=V6_LOOPBACK)) for _ in range(HELD)]
        for place, sock in enumerate(held):
            sock.sendall(pipelined([RULED[(place + n) % len(RULED)] for n in range(PIPELINED)]))
        yield lambda: it.takes_change("changed.example")
        rcodes = collections.Counter(wire.rcode_of(reply) for sock in held for reply in replies(sock, PIPELINED))
    fail_if(rcodes != {NXDOMAIN: HELD * PIPELINED}, f"replies by rcode: {dict(rcodes)}")
    return f"{HELD * PIPELINED} queries answered"


CASES = [
    strangers_over_udp,
    strangers_over_tcp,
    strangers_that_pipeline,
    floods_at_another_address,
    clients_of_version_6,
]
