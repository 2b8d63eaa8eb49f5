"""Hostile datagrams, in windows: of each reply it is checked that it fits its query, and that another reader of DNS messages takes it.

That reader is dnspython; where it isn't installed its part is left out, and the line says so.
"""

import collections
import random
import socket
import struct
import time

import wire
from harness import CACHED, RULED, case, fail_if
from peers import LOOPBACK

try:
    import dns.message as dnspython
except ImportError:
    dnspython = None

COUNT = 200_000
WINDOW = 300
WAIT = 6.0  # a query that needs the upstream is answered within 5 seconds
HEADER = 12
OPT = 41
FORMERR, SERVFAIL, NOTIMP = 1, 2, 4
NOTIFY = 4
NO_EDNS, MOST_EDNS = 512, 1232
BROKEN = (IndexError, ValueError, struct.error)


# ---- reading a query


def is_response(message):
    return bool(message[2] & 0x80)


def opcode_of(message):
    return message[2] >> 3 & 15


def gets_reply(message):
    """Whether it must be answered. A NOTIFY may be, but not where others came in the same second."""
    return len(message) >= HEADER and not is_response(message) and opcode_of(message) != NOTIFY


def may_get_reply(message):
    return len(message) >= HEADER and not is_response(message)


def read_name(message, at):
    """The labels of a name, whose pointers are followed, and the place behind it."""
    labels, end = [], None
    for _ in range(256):
        length = message[at]
        if length == 0:
            return labels, at + 1 if end is None else end
        if length >= 0xC0:
            end = at + 2 if end is None else end
            at = (length & 0x3F) << 8 | message[at + 1]
        elif length < 64:
            labels.append(message[at + 1: at + 1 + length])
            at += length + 1
        else:
            raise ValueError("a label of a reserved kind")
    raise ValueError("pointers without an end")


def read_question(message):
    """The labels of its name, its type and class as octets, and the place behind it."""
    labels, at = read_name(message, HEADER)
    return labels, message[at: at + 4], at + 4


def told_size(message):
    """The size that the OPT record of its additional section tells (RFC 6891, section 6.2.3), or None where it has none."""
    questions, *counts = struct.unpack("!4H", message[4:HEADER])
    at = read_question(message)[2] if questions else HEADER
    for place in range(sum(counts)):
        labels, at = read_name(message, at)
        kind, size, _, length = struct.unpack("!HHIH", message[at: at + 10])
        if kind == OPT and not labels and place >= counts[0] + counts[1]:
            return size
        at += 10 + length
    return None


def limit_of(message):
    """How many octets a reply may have."""
    try:
        size = told_size(message)
    except BROKEN:
        size = None
    return NO_EDNS if size is None else min(max(size, NO_EDNS), MOST_EDNS)


# ---- judging a reply


def header_fault(query, reply):
    """QR and RA are 1, AA is 0, opcode and RD are those of the query; another opcode is NOTIMP."""
    if reply[2] & 0xFD != 0x80 | query[2] & 0x79:
        return "QR, opcode, AA or RD"
    if not reply[3] & 0x80:
        return "RA"
    if opcode_of(query) not in (0, NOTIFY) and wire.rcode_of(reply) != NOTIMP:
        return "no NOTIMP"
    return None


def question_fault(query, reply):
    """A reply has the question of its query, or is a header alone that says FORMERR, NOTIMP or, without memory, SERVFAIL."""
    questions = struct.unpack("!H", reply[4:6])[0]
    if questions == 0:
        is_bare = len(reply) == HEADER and wire.rcode_of(reply) in (FORMERR, SERVFAIL, NOTIMP)
        return None if is_bare else "no question"
    try:
        is_same = questions == 1 and read_question(query)[:2] == read_question(reply)[:2]
    except BROKEN:
        is_same = False
    return None if is_same else "another question"


def reader_fault(reply):
    """What dnspython says of it, as a reply to a query, since it refuses opcodes that it doesn't know."""
    if dnspython is None:
        return None
    try:
        dnspython.from_wire(reply[:2] + bytes([reply[2] & 0x87]) + reply[3:])
    except Exception as why:  # dnspython has many
        return f"dnspython: {type(why).__name__}"
    return None


def fault_of(query, reply):
    """What is wrong with a reply, or None."""
    if query is None:
        return "an ID that wasn't asked"
    if not may_get_reply(query):
        return "a reply to a response" if len(query) >= HEADER else "a reply to less than a header"
    if len(reply) < HEADER:
        return "less than a header"
    if len(reply) > limit_of(query):
        return "too long"
    return header_fault(query, reply) or question_fault(query, reply) or reader_fault(reply)


class Exchange:
    """Messages that are sent in windows, each with an ID of its own, and what came of them."""

    def __init__(self, port, made):
        self.made = made
        self.sock = socket.socket(socket.AF_INET, socket.SOCK_DGRAM)
        self.sock.setsockopt(socket.SOL_SOCKET, socket.SO_RCVBUF, 4 << 20)
        self.sock.connect((LOOPBACK, port))
        self.sent, self.unanswered, self.answered = {}, set(), set()
        self.messages = self.replies = self.lost = 0
        self.faults, self.examples = collections.Counter(), {}

    def run(self):
        with self.sock:
            for start in range(0, COUNT, WINDOW):
                self.send(min(WINDOW, COUNT - start))
                self.receive(WAIT)
                self.lost += len(self.unanswered)
                for number in self.unanswered:
                    self.examples.setdefault("no reply", self.sent[number].hex())
                self.unanswered.clear()
                if self.lost > WINDOW:
                    return

    def send(self, count):
        for _ in range(count):
            number = self.messages & 0xFFFF
            octets = next(self.made)
            message = (number.to_bytes(2, "big") + octets[2:]) if len(octets) >= 2 else octets
            self.messages += 1
            self.sent[number] = message
            self.answered.discard(number)
            if gets_reply(message):
                self.unanswered.add(number)
            self.sock.send(message)

    def receive(self, seconds):
        """Takes replies until all that must come are there, or the time is over."""
        end = time.monotonic() + seconds
        while self.unanswered and end > time.monotonic():
            self.sock.settimeout(max(0.001, end - time.monotonic()))
            try:
                self.take(self.sock.recv(65_535))
            except TimeoutError:
                return

    def take(self, reply):
        self.replies += 1
        number = wire.number_of(reply)
        query = self.sent.get(number)
        fault = "a second reply" if number in self.answered else fault_of(query, reply)
        self.answered.add(number)
        self.unanswered.discard(number)
        if fault is not None:
            self.faults[fault] += 1
            self.examples.setdefault(fault, f"{(query or b'').hex()} got {reply.hex()}")

    def result(self):
        said = f"{self.messages} sent, {self.replies} replies"
        fail_if(self.faults, f"{said}, wrong: {dict(self.faults)}; the first of each: {self.examples}")
        fail_if(self.lost, f"{said}, {self.lost} without a reply; the first: {self.examples.get('no reply')}")
        read = "each read by dnspython" if dnspython is not None else "without dnspython: not tried"
        return f"{said}, all right; {read}"


# ---- making messages


def random_messages(seed):
    """Octets of any kind, 0 to 600 of them."""
    chance = random.Random(seed)
    while True:
        yield chance.randbytes(chance.randrange(601))


def with_edns(message, size, version=0):
    """The query with an OPT record (RFC 6891, section 6.1.2)."""
    record = b"\0" + struct.pack("!HHIH", OPT, size, version << 16, 0)
    return message[:10] + struct.pack("!H", 1) + message[HEADER:] + record


def base_queries():
    """Well-formed queries for rules and for what the cache has, with and without EDNS."""
    for name in [*RULED, *CACHED]:
        for qtype in (wire.A, wire.TXT, 255):
            query = wire.query(0, name, qtype)
            yield from (query, with_edns(query, 0), with_edns(query, 1000), with_edns(query, 65_535))
    yield from (wire.notify(0, RULED[0]), with_edns(wire.query(0, RULED[0]), 1232, version=1))


def flip(chance, octets):
    octets[chance.randrange(len(octets))] ^= 1 << chance.randrange(8)


def replace(chance, octets):
    octets[chance.randrange(len(octets))] = chance.randrange(256)


def cut(chance, octets):
    del octets[chance.randrange(1, len(octets) + 1):]


def take_out(chance, octets):
    start = chance.randrange(len(octets))
    del octets[max(1, start): start + chance.randrange(8)]


def put_in(chance, octets):
    start = chance.randrange(len(octets))
    octets[start:start] = chance.randbytes(chance.randrange(1, 8))


def repeat(chance, octets):
    start = chance.randrange(len(octets))
    octets.extend(octets[start: start + chance.randrange(40)])


def point(chance, octets):
    """A pointer of names (RFC 1035, section 4.1.4), mostly to a place in the message."""
    start = chance.randrange(len(octets))
    octets[start: start + 2] = struct.pack("!H", 0xC000 | chance.randrange(len(octets) + 4))


MUTATIONS = [flip, flip, replace, replace, cut, take_out, put_in, repeat, point]


def mutated_queries(seed):
    """Well-formed queries with one to four mutations."""
    chance, bases = random.Random(seed), list(base_queries())
    while True:
        octets = bytearray(chance.choice(bases))
        for _ in range(chance.randrange(1, 5)):
            chance.choice(MUTATIONS)(chance, octets)
        yield bytes(octets)


@case()
def random_datagrams(it):
    """200,000 random datagrams of 0 to 600 octets: no reply is wrong, and none is missing."""
    exchange = Exchange(it.port, random_messages(1))
    yield exchange.run
    return exchange.result()


@case()
def mutated_datagrams(it):
    """200,000 queries with mutations: no reply is wrong, and none is missing."""
    exchange = Exchange(it.port, mutated_queries(2))
    yield exchange.run
    return exchange.result()


CASES = [random_datagrams, mutated_datagrams]
