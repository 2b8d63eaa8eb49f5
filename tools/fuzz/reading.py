"""What docs/PROFILE.md and docs/FORMATS.md say of messages, written from these pages: a reader of messages, what is done with a request,
and the octets of the replies that no rule makes. It knows no rule of policy and shares no code with `rpz`."""

import functools
import itertools
import struct
from dataclasses import dataclass

from dns_text import LAYOUTS, TYPES

HEADER, MOST_NAME = 12, 255
IN, OPT = 1, 41
NO_EDNS, MOST_EDNS, OVER_TCP = 512, 1232, 65_535
NOERROR, FORMERR, SERVFAIL, NXDOMAIN, NOTIMP, REFUSED = range(6)
NOTIFY = 4
OUR_SIZE = 1232  # that of the OPT record of a reply
CHAIN = 16  # names that a chain of CNAMEs may have
FIXED = {(TYPES["A"], IN): 4, (TYPES["AAAA"], IN): 16}
COMPRESSED = {TYPES[name] for name in ("NS", "MD", "MF", "CNAME", "SOA", "MB", "MG", "MR", "PTR", "MINFO", "MX")}  # in replies


class Unreadable(Exception):
    """The octets are no message."""


@dataclass
class Record:
    """`octets`: its data, with names in full; `low`: with these in lower case. `target`: the first name of its data. `place`, `start`,
    `end`: of its type, and of its data, in the message."""
    owner: tuple
    rtype: int
    rclass: int
    ttl: int
    octets: bytes
    low: bytes = None
    target: tuple = None
    place: int = 0
    start: int = 0
    end: int = 0


@dataclass
class Message:
    """`opts`: the OPT records of the additional section, which `additional` doesn't have."""
    number: int
    flags: int
    name: tuple = None
    qtype: int = None
    qclass: int = None
    answer: list = None
    authority: list = None
    additional: list = None
    opts: list = None

    def bit(self, value):
        return bool(self.flags & value)

    def opcode(self):
        return self.flags >> 11 & 15

    def rcode(self):
        return self.flags & 15

    def question(self):
        return written(self.name) + struct.pack("!HH", self.qtype, self.qclass)

    def asks(self, name, qtype, qclass):
        return self.name is not None and (lower(self.name), self.qtype, self.qclass) == (lower(name), qtype, qclass)

    def records(self):
        return [*self.answer, *self.authority, *self.additional, *self.opts]


def lower(name):
    return tuple(label.lower() for label in name)


def written(name):
    return b"".join(bytes([len(label)]) + label for label in name) + b"\0"


class Reader:
    """Reads along a message. `known`: the labels of names to which pointers lead, so that many names behind long chains of pointers are
    read in linear time."""

    def __init__(self, octets):
        self.octets, self.at, self.known = octets, HEADER, {}

    def take(self, count):
        if count > len(self.octets) - self.at:
            raise Unreadable("Short")
        self.at += count
        return self.octets[self.at - count: self.at]

    def numbers(self, form):
        return struct.unpack(form, self.take(struct.calcsize(form)))

    def name(self):
        """The labels of a name. A pointer leads before the place where the labels in front of it began."""
        labels, passed, length, behind = [], [], 1, None
        begun = self.at
        while (head := self.take(1)[0]) > 0:
            if head >= 0xC0:
                target = (head & 0x3F) << 8 | self.take(1)[0]
                behind = self.at if behind is None else behind
                if target >= begun:
                    raise Unreadable("Pointer")
                if target in self.known:
                    labels += self.known[target]
                    break
                passed.append((target, len(labels)))
                self.at = begun = target
            elif head > 63:
                raise Unreadable("LabelType")
            else:
                labels.append(self.take(head))
                length += head + 1
                if length > MOST_NAME:
                    raise Unreadable("TooLong")
        if len(written(labels)) > MOST_NAME:
            raise Unreadable("TooLong")
        self.known.update((target, tuple(labels[count:])) for target, count in passed)
        self.at = self.at if behind is None else behind
        return tuple(labels)

    def record(self):
        owner = self.name()
        place = self.at
        rtype, rclass, ttl, length = self.numbers("!HHIH")
        start = self.at
        end = start + length
        if end > len(self.octets):
            raise Unreadable("Short")
        data, low, target = self.data(rtype, end)
        if self.at != end or len(data) != FIXED.get((rtype, rclass), len(data)):
            raise Unreadable("Data")
        return Record(owner, rtype, rclass, ttl, data, low, target, place, start, end)

    def data(self, rtype, end):
        """The data with names in full, the same with names in lower case, and its first name."""
        if rtype not in LAYOUTS:
            octets = self.take(end - self.at)
            return octets, octets, None
        parts, low, target = [], [], None
        for kind in LAYOUTS[rtype]:
            if kind == "n":
                name = self.name()
                target = name if target is None else target
                parts.append(written(name))
                low.append(written(lower(name)))
            else:
                parts.append(self.take(int(kind)))
                low.append(parts[-1])
        return b"".join(parts), b"".join(low), target


def is_opt(record):
    return record.rtype == OPT and record.owner == ()


def read_message(octets):
    if len(octets) < HEADER:
        raise Unreadable("Short")
    number, flags, *counts = struct.unpack("!6H", octets[:HEADER])
    if counts[0] > 1:
        raise Unreadable("Question")
    reader, message = Reader(octets), Message(number, flags)
    if counts[0]:
        message.name = reader.name()
        message.qtype, message.qclass = reader.numbers("!HH")
    message.answer, message.authority, additional = ([reader.record() for _ in range(count)] for count in counts[1:])
    if reader.at != len(octets):
        raise Unreadable("Trailing")
    message.opts = [record for record in additional if is_opt(record)]
    message.additional = [record for record in additional if not is_opt(record)]
    if len(message.opts) > 1:
        raise Unreadable("TwoOpts")
    return message


@functools.lru_cache(maxsize=256)
def readable(octets):
    """The message, or None where it can't be read."""
    try:
        return read_message(octets)
    except Unreadable:
        return None


# ---- what is done with a request


@functools.lru_cache(maxsize=1024)
def triage(octets, way, is_heard=True):
    """What docs/FORMATS.md says of a request, and the request where it can be read: `silence`, `outside`, `notimp`, `formerr`, `badvers`,
    `refused`, `query` or `notify`. `way`: `serve`, which takes both, or the line of a script, `query` or `notify`. `is_heard`: its client
    may ask, or is the primary of a zone and this is a NOTIFY."""
    if len(octets) < HEADER or octets[2] & 0x80:
        return "silence", None
    if not is_heard:
        return "outside", None
    opcode = octets[2] >> 3 & 15
    is_notify = way == "notify" or way == "serve" and opcode == NOTIFY
    if opcode != (NOTIFY if is_notify else 0):
        return "notimp", None
    request = readable(octets)
    if request is None or request.name is None:
        return "formerr", None
    if request.opts and request.opts[0].ttl >> 16 & 255:
        return "badvers", request
    if is_notify:
        return "notify", request
    if request.qclass != IN or request.qtype in (TYPES["IXFR"], TYPES["AXFR"]) or not request.bit(0x0100):
        return "refused", request
    return "query", request


def limit_of(request, transport):
    """How many octets a reply may have."""
    if transport == "tcp":
        return OVER_TCP
    return min(max(request.opts[0].rclass, NO_EDNS), MOST_EDNS) if request is not None and request.opts else NO_EDNS


# ---- the octets of replies


def header(octets, rcode, counts=(0, 0, 0, 0), more=0):
    """That of a reply to these octets: their ID, opcode and RD, QR and RA 1."""
    flags = 0x8080 | (octets[2] & 0x79) << 8 | rcode | more
    return octets[:2] + struct.pack("!5H", flags, *counts)


def our_opt(request, extended=0):
    return b"\0" + struct.pack("!HHBBHH", OPT, OUR_SIZE, extended, 0, 0, 0) if request.opts else b""


def refusal(octets, request, rcode, extended=0):
    """A reply with the question, and an OPT record where the request has one."""
    opt = our_opt(request, extended)
    return header(octets, rcode, (1, 0, 0, 1 if opt else 0)) + request.question() + opt


def turned_away(octets):
    """What a client outside gets: REFUSED with the question, where there is one that can be read, whatever stands behind it, and the reply
    has no more octets than the request; and no OPT record."""
    question = question_of(octets)
    if HEADER + len(question) > len(octets):
        question = b""
    return header(octets, REFUSED, (1 if question else 0, 0, 0, 0)) + question


def question_of(octets):
    """The only question of a request, with its name in full; nothing where there is none, or it can't be read."""
    reader = Reader(octets)
    if octets[4:6] != b"\0\1":
        return b""
    try:
        return written(reader.name()) + reader.take(4)
    except Unreadable:
        return b""


def compressed(name, at, known):
    """A name, which is given as it is in full, as it stands at a place of a reply: what stands at another place already is a pointer there.
    `known`: the place of each name that a pointer can lead to; those of this one's labels are added."""
    new = {}
    for count in starts_of(name):
        if name[count:] in known:
            known.update(new)
            return name[:count] + struct.pack("!H", 0xC000 | known[name[count:]])
        if at + count < 0x4000:
            new[name[count:]] = at + count
    known.update(new)
    return name


def starts_of(name):
    """Where the labels of a name in full begin."""
    count = 0
    while name[count]:
        yield count
        count += 1 + name[count]


def compressed_data(record, at, known):
    """The data of a record as they stand at a place of a reply."""
    if record.rtype not in COMPRESSED:
        return record.octets
    out, rest = b"", record.octets
    for kind in LAYOUTS[record.rtype]:
        size = int(kind) if kind != "n" else 1 + sum(1 + rest[count] for count in starts_of(rest))
        out += compressed(rest[:size], at + len(out), known) if kind == "n" else rest[:size]
        rest = rest[size:]
    return out


def with_records(head, question, records):
    """A header and a question with records behind them, whose names are compressed."""
    out, known = bytearray(head + question), {}
    compressed(question[:-4], HEADER, known)
    for record in records:
        out += compressed(written(record.owner), len(out), known) + struct.pack("!HHI", record.rtype, record.rclass, record.ttl)
        data = compressed_data(record, len(out) + 2, known)
        out += struct.pack("!H", len(data)) + data
    return bytes(out)


def reply(octets, request, transport, rcode, sections):
    """A reply with these sections of records; the header, the question and the OPT record alone where it would be too long."""
    opt = our_opt(request)
    counts = [1, *map(len, sections)]
    counts[3] += 1 if opt else 0
    whole = with_records(header(octets, rcode, counts), request.question(), itertools.chain(*sections)) + opt
    if len(whole) <= limit_of(request, transport):
        return whole
    return truncated(octets, request, rcode)


def truncated(octets, request, rcode=NOERROR):
    """A reply with TC 1, the question and the OPT record alone."""
    opt = our_opt(request)
    return header(octets, rcode, (1, 0, 0, 1 if opt else 0), 0x0200) + request.question() + opt


def exact(octets, way, is_heard=True):
    """The octets of the reply to a request that is no query; None where it is one, or gets another reply."""
    kind, request = triage(octets, way, is_heard)
    if kind == "outside":
        return turned_away(octets)
    if kind in ("notimp", "formerr"):
        return header(octets, NOTIMP if kind == "notimp" else FORMERR)
    if kind == "badvers":
        return refusal(octets, request, NOERROR, 1)
    return refusal(octets, request, REFUSED) if kind == "refused" else None


# ---- what counts as an answer


def usable(response, number, name, qtype):
    """The response as a message where it counts as an answer to this question, and else None."""
    message = readable(response)
    if message is None or message.number != number or not message.asks(name, qtype, IN):
        return None
    fits = message.bit(0x8000) and not message.bit(0x0200) and message.opcode() == 0 and message.rcode() in (NOERROR, NXDOMAIN)
    return message if fits else None
