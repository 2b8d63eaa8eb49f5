"""Primaries that do as a script says, and transfers that have a fault."""

import contextlib
import socket
import struct
import time
from typing import Callable, NamedTuple

import wire
from peers import LOOPBACK, serve_each


class ScriptedPrimary:
    """A primary of a zone over TCP that does with each request what `act` says, which gets the connection and the request. It keeps the
    types that were asked for."""

    def __init__(self, port, act):
        self.act, self.requests = act, []
        self.stop = serve_each(port, self.serve).end

    def serve(self, connection):
        request = wire.read_frame(connection)
        if request is not None:
            self.requests.append(wire.question_type(request))
            self.act(connection, request)

    def __enter__(self):
        return self

    def __exit__(self, *_):
        self.stop()


def notify(port, zone):
    """Sends a NOTIFY of the zone, and gives the rcode of its reply; None where none comes within 5 s."""
    with socket.socket(socket.AF_INET, socket.SOCK_DGRAM) as sock:
        sock.settimeout(5)
        sock.sendto(wire.notify(8, zone), (LOOPBACK, port))
        with contextlib.suppress(TimeoutError):
            return wire.rcode_of(sock.recv(512))
    return None


def reset(connection):
    """Ends the connection by a reset (RFC 9293, section 3.5.2)."""
    connection.setsockopt(socket.SOL_SOCKET, socket.SO_LINGER, struct.pack("ii", 1, 0))
    connection.close()


@contextlib.contextmanager
def deaf_port(port):
    """A port that drops each SYN: its backlog is full, and nobody accepts."""
    with contextlib.ExitStack() as stack:
        sock = stack.enter_context(socket.socket())
        sock.setsockopt(socket.SOL_SOCKET, socket.SO_REUSEADDR, 1)
        sock.bind((LOOPBACK, port))
        sock.listen(0)
        for _ in range(4):
            filling = stack.enter_context(socket.socket())
            filling.setblocking(False)
            with contextlib.suppress(BlockingIOError):
                filling.connect((LOOPBACK, port))
        time.sleep(0.05)
        yield


def is_deaf(port):
    with contextlib.suppress(TimeoutError), socket.create_connection((LOOPBACK, port), 0.5):
        return False
    return True


# ---- whole transfers


def soa(zone, serial):
    return wire.record(zone, wire.SOA, wire.soa_data(serial))


def whole(request, zone, serial, rules):
    """The octets of a whole transfer."""
    return b"".join(wire.messages(request, [soa(zone, serial), *(wire.rule(f"{name}.{zone}") for name in rules), soa(zone, serial)]))


def row_message(request, zone, first, count):
    """A message of a transfer with rows of so many names, numbered from `first` on."""
    rows = b"".join(wire.rule(f"r{number}.bulk.test.{zone}") for number in range(first, first + count))
    return wire.frame(request[:2] + struct.pack("!HHHHH", 0x8400, 0, count, 0, 0) + rows)


def soa_message(request, zone, serial):
    """A message of a transfer with the SOA record that begins or closes it."""
    return b"".join(wire.messages(request, [soa(zone, serial)]))


# ---- faults of increments


class Step(NamedTuple):
    """What a fault is made of: the request, the zone, the serial that the server has, and a rule that it has."""

    request: bytes
    zone: str
    serial: int
    rule: str

    def soa(self, more=0):
        return soa(self.zone, self.serial + more)

    def row(self, name):
        return wire.rule(f"{name}.{self.zone}")

    def messages(self, records):
        return b"".join(wire.messages(self.request, records))

    def good(self):
        """An increment that fits: it adds a rule."""
        return self.messages([self.soa(1), self.soa(), self.soa(1), self.row("increment.test"), self.soa(1)])

    def edited(self, edit):
        """The increment that fits, with its message edited."""
        message = bytearray(self.good()[2:])
        edit(message)
        return wire.frame(bytes(message))


class Increment(NamedTuple):
    """A fault, how its octets are made of a step, and the fault in the line of the server, with these words in place of serials."""

    make: Callable
    line: str
    is_reset: bool = False


def edit_flags(clear, put):
    def edit(message):
        flags = int.from_bytes(message[2:4], "big")
        message[2:4] = (flags & ~clear | put).to_bytes(2, "big")

    return edit


def edit_id(message):
    message[0] ^= 0x55


def edit_question(message):
    message[13] ^= 0x01  # the first letter of the zone's name


def chaos(step):
    row = bytearray(step.row("increment.test"))
    at = wire.name_end(row, 0) + 2
    row[at: at + 2] = b"\0\3"
    return step.messages([step.soa(1), step.soa(), step.soa(1), bytes(row), step.soa(1)])


INCREMENTS = {
    "gap": Increment(lambda s: s.messages([s.soa(2), s.soa(1), s.soa(2), s.row("increment.test"), s.soa(2)]), "Gap {0} {1}"),
    "absent row deleted": Increment(
        lambda s: s.messages([s.soa(1), s.soa(), s.row("absent.test"), s.soa(1), s.row("increment.test"), s.soa(1)]), "DeleteAbsent 1 1"
    ),
    "present row added": Increment(lambda s: s.messages([s.soa(1), s.soa(), s.soa(1), s.row(s.rule), s.soa(1)]), "AddPresent 1 1"),
    "SOA of another zone": Increment(lambda s: s.messages([soa("elsewhere.test", s.serial + 1), s.soa()]), "WrongSoaOwner"),
    "row of another zone": Increment(
        lambda s: s.messages([s.soa(1), s.soa(), s.soa(1), wire.rule("increment.elsewhere.test"), s.soa(1)]), "OutOfZone"
    ),
    "row of another class": Increment(chaos, "WrongClass"),
    "no SOA in front": Increment(lambda s: s.messages([s.row("increment.test"), s.soa(1)]), "NoLeadingSoa"),
    "row behind the end": Increment(
        lambda s: s.messages([s.soa(1), s.soa(), s.soa(1), s.row("increment.test"), s.soa(1), s.row("behind.test")]), "TrailingRecord"
    ),
    "two newest serials": Increment(lambda s: s.messages([s.soa(1), s.row("increment.test"), s.soa(2)]), "SoaDiffers {1} {2}"),
    "wrong ID": Increment(lambda s: s.edited(edit_id), "WrongId"),
    "wrong question": Increment(lambda s: s.edited(edit_question), "WrongQuestion"),
    "QR 0": Increment(lambda s: s.edited(edit_flags(0x8000, 0)), "NotResponse"),
    "TC": Increment(lambda s: s.edited(edit_flags(0, 0x0200)), "Truncated"),
    "REFUSED": Increment(lambda s: s.edited(edit_flags(0, 5)), "Rcode 5"),
    "NOTAUTH": Increment(lambda s: s.edited(edit_flags(0, 9)), "Rcode 9"),
    "garbage": Increment(lambda s: wire.frame(bytes(range(100, 200))), "BadMessage"),
    "empty messages": Increment(lambda s: bytes(40), "BadMessage"),
    "half a message": Increment(lambda s: s.good()[:-9], "Cut"),
    "closes": Increment(lambda s: b"", "EndedEarly"),
    "resets": Increment(lambda s: b"", "ReadFault", is_reset=True),
}
