"""What a primary does that hangs or is slow, and NOTIFYs of it and of strangers."""

import socket
import time

import wire
from harness import case, fail_if, repeated
from peers import LOOPBACK, ZONE, ask

STRANGER = "127.0.0.77"


def in_force(times):
    return f"a change was in force {1000 * max(times):.0f} ms behind its NOTIFY"


@case(others=True, stopped=("other.example",))
def stopped_primary(it):
    """A primary that accepts and says nothing, and changes of another zone beside it."""
    times = []

    def change():
        for number in range(3):
            times.append(it.takes_change(f"new{number}.example"))
            time.sleep(0.2)

    yield change
    return in_force(times)


@case(others=True)
def dripping_primary(it):
    """A primary that sends its zone an octet each second."""
    it.primary.drips = True
    before = it.primary.requests, it.primary.transfers
    it.primary.change("late.example")
    fail_if(it.primary.notify(it.port) != 0, "a NOTIFY is refused")
    yield
    fail_if(it.primary.requests == before[0], "the zone wasn't asked for")
    fail_if(it.primary.transfers != before[1] or ask(it.port, "late.example", 1) != 0, "the transfer didn't drip")
    it.primary.drips = False
    it.server.wait_for("late.example", 3, 5)
    return "the transfer was taken once its rest came"


@case(others=True)
def notify_flood(it):
    """Up to 10,000 NOTIFYs a second of a stranger, and a change of the primary beside them."""
    message, sent, times = wire.notify(9, ZONE), [0], []

    def flood(_):
        for _ in range(50):
            sock.sendto(message, (LOOPBACK, it.port))
        sent[0] += 50

    with socket.socket(socket.AF_INET, socket.SOCK_DGRAM) as sock:
        sock.bind((STRANGER, 0))
        with repeated(flood, 0.005):
            yield lambda: times.append(it.takes_change("noted.example"))
    fail_if(sent[0] < 5_000, f"only {sent[0]} NOTIFYs were sent")
    return f"{sent[0]:,} NOTIFYs; {in_force(times)}"


@case(others=True)
def notify_over_tcp(it):
    """Changes whose NOTIFYs come over TCP, as Knot DNS sends them."""
    times = []

    def change():
        for number in range(3):
            times.append(it.takes_change(f"knotted{number}.example", over_tcp=True))

    yield change
    return in_force(times)


CASES = [
    stopped_primary,
    dripping_primary,
    notify_flood,
    notify_over_tcp,
]
