"""Many connections of an attacker at one time."""

import contextlib
import select
import selectors
import socket
import time

import wire
from harness import connect
from peers import LOOPBACK

SOURCES = [f"127.0.1.{n}" for n in range(1, 101)]
WAIT = 10  # seconds that the server waits for a client that sends nothing, or takes no replies
SOON = WAIT - 2  # a connection that ends within so many hasn't been waited for


class Crowd:
    """Connections from many addresses that stay open. `begin` does the attack on a new one. With `refills` others are opened for those
    that the server closes."""

    def __init__(self, port, begin=None, refills=False, host=LOOPBACK, sources=SOURCES):
        self.port, self.begin, self.refills, self.host, self.sources = port, begin, refills, host, sources
        self.held = {}  # by descriptors: connections, and when they were opened
        self.opened = self.closed = self.closed_soon = 0

    def __enter__(self):
        return self

    def __exit__(self, *_):
        for sock, _ in self.held.values():
            sock.close()
        self.held = {}

    def open(self, count=1):
        for _ in range(count):
            self.opened += 1
            sock = connect(self.port, self.sources[self.opened % len(self.sources)], self.host)
            self.held[sock.fileno()] = sock, time.monotonic()
            with contextlib.suppress(OSError):
                if self.begin:
                    self.begin(sock)

    def look(self):
        """Takes out those that the server has closed. Nothing is received."""
        poller = select.poll()
        for descriptor in self.held:
            poller.register(descriptor, select.POLLRDHUP)
        gone = poller.poll(0)
        for descriptor, _ in gone:
            sock, since = self.held.pop(descriptor)
            sock.close()
            self.closed += 1
            self.closed_soon += time.monotonic() - since < SOON
        if self.refills:
            self.open(len(gone))

    def wait_until_closed(self, seconds):
        end = time.monotonic() + seconds
        while self.held and time.monotonic() < end:
            self.look()
            time.sleep(0.1)


def answered_of(port, names, rcode, seconds=10):
    """How many of so many connections, all opened at once, get a reply of this rcode to one query each."""
    count = 0
    with selectors.DefaultSelector() as selector, contextlib.ExitStack() as stack:
        for number, name in enumerate(names):
            sock = stack.enter_context(socket.socket())
            sock.setblocking(False)
            sock.bind((SOURCES[number % len(SOURCES)], 0))
            sock.connect_ex((LOOPBACK, port))
            selector.register(sock, selectors.EVENT_WRITE, wire.frame(wire.query(number & 0xFFFF, name)))
        end = time.monotonic() + seconds
        while selector.get_map() and time.monotonic() < end:
            for key, _ in selector.select(0.1):
                count += go_on(selector, key) == rcode
    return count


def go_on(selector, key):
    """Sends the query, or takes its reply, whose rcode is the result."""
    reply = b""
    try:
        if key.events == selectors.EVENT_WRITE:
            key.fileobj.send(key.data)
            selector.modify(key.fileobj, selectors.EVENT_READ)
            return None
        reply = key.fileobj.recv(4096)
    except OSError:
        pass
    selector.unregister(key.fileobj)
    key.fileobj.close()
    return wire.rcode_of(reply[2:]) if len(reply) >= 14 else None
