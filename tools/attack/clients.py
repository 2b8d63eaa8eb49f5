"""What clients do: connections that take memory or places, and many of them at once."""

import contextlib
import os
import shutil
import socket
import struct
import subprocess
import sys
import time

import wire
from crowd import WAIT, Crowd, answered_of
from harness import RULED, NotTried, alone, case, connect, fail_if, repeated

HERE = os.path.dirname(os.path.abspath(__file__))
PART = struct.pack("!H", 60_000) + bytes(59_000)
OUTBOXES = 64 << 20  # octets of replies that the server keeps for all clients


@case(others=True, beside=True)
def half_messages(it):
    """300 connections with 59,000 octets of a message of 60,000 each, and others for those that the server closes."""
    with Crowd(it.port, lambda sock: sock.sendall(PART), refills=True) as crowd:
        crowd.open(300)
        with repeated(lambda _: crowd.look(), 0.3):
            yield
        fail_if(it.server.is_ours and not crowd.closed_soon, "the server's memory for parts of messages was not full")
    return f"{crowd.closed_soon} of {crowd.opened} connections were closed within 8 s"


@case(others=True, beside=True)
def silent_connections(it):
    """500 connections that say nothing, until the server closes them."""
    with Crowd(it.port) as crowd:
        crowd.open(500)
        yield
        crowd.wait_until_closed(WAIT + 3)
        fail_if(it.server.is_ours and crowd.closed < 500, f"only {crowd.closed} of 500 were closed")
    return f"closed: {crowd.closed} of 500"


@case(others=True, beside=True, delay=0.05, most=200 << 20)
def readers_that_do_not_read(it):
    """30 new connections a second that ask for answers of 60,000 octets and never read, so that the outboxes are full."""
    asked = b"".join(wire.frame(wire.query(n, f"large{n}.example", wire.TXT)) for n in range(3_000))

    def begin(sock):
        sock.setsockopt(socket.SOL_SOCKET, socket.SO_RCVBUF, 4096)
        sock.setblocking(False)
        sock.send(asked)

    def go_on(_):
        crowd.look()
        crowd.open()

    before = it.server.resident()
    with Crowd(it.port, begin) as crowd:
        with repeated(go_on, 0.033):
            time.sleep(7)
            yield
        grown = it.server.peak() - before
        fail_if(it.server.is_ours and grown < OUTBOXES * 3 // 4, f"the outboxes were not full: {grown >> 20} MiB more")
        fail_if(it.server.is_ours and not crowd.closed_soon, "no connection was closed for the memory of all")
    return f"{grown >> 20} MiB more at most, {crowd.closed_soon} of {crowd.opened} connections were closed within 8 s"


@case(others=True, beside=True)
def pipelined_misses(it):
    """4 connections with 100 pipelined questions each that the upstream never answers."""
    with contextlib.ExitStack() as stack:
        held = [stack.enter_context(connect(it.port, f"127.0.1.{place + 1}")) for place in range(4)]
        for place, sock in enumerate(held):
            sock.sendall(b"".join(wire.frame(wire.query(n, f"hang{place}x{n}.example")) for n in range(100)))
        yield
        rcodes = [first_rcode(sock) for sock in held]
        fail_if(rcodes != [2] * 4, f"the first replies have the rcodes {rcodes}")
    return "each connection got SERVFAIL"


def first_rcode(sock):
    sock.settimeout(8)
    with contextlib.suppress(OSError):
        reply = wire.read_frame(sock)
        return reply and wire.rcode_of(reply)
    return None


@case(others=True, beside=True)
def many_connections(it):
    """2,000 connections at once, each with one query, again and again for 4 seconds."""
    names, answered = [RULED[n % len(RULED)] for n in range(2_000)], []

    def flood():
        end = time.monotonic() + 4
        while time.monotonic() < end:
            answered.append(answered_of(it.port, names, 3))

    yield flood
    said = f"{len(answered)} times 2,000 connections, answered at least {min(answered)}"
    fail_if(min(answered) < 1_900, said)
    return said


# ---- clients that have addresses of their own


def among_neighbours(attack, program, port, workers):
    """Runs neighbours.py, which makes two network namespaces."""
    if os.geteuid() != 0 or shutil.which("ip") is None:
        raise NotTried("it wants root and the command ip, for two network namespaces")
    words = [sys.executable, os.path.join(HERE, "neighbours.py"), attack, program, str(port), str(workers)]
    ran = subprocess.run(words, capture_output=True, text=True, timeout=120, check=False)
    fail_if(ran.returncode != 0, f"{ran.stdout.strip()} {ran.stderr.strip()[-300:]}")
    return ran.stdout.strip()


@alone
def silent_neighbours(program, port, workers):
    """2,000 queries a second from addresses of the server's own subnet that nobody has, in two network namespaces."""
    return among_neighbours("silent", program, port, workers)


@alone
def connections_of_one_client(program, port, workers):
    """100 new connections of one client that may have 20, again and again, in two network namespaces."""
    return among_neighbours("greedy", program, port, workers)


CASES = [
    half_messages,
    silent_connections,
    readers_that_do_not_read,
    pipelined_misses,
    many_connections,
    silent_neighbours,
    connections_of_one_client,
]
