"""Messages of legal shapes, drawn by chance: queries, NOTIFYs, and what an upstream answers. Names are tuples of labels."""

import struct
from dataclasses import replace

from dns_text import LAYOUTS, TYPES, Message, Question, Record, encode, opt_of

IN, CH = 1, 3
MOST_NAME = 255
POINTED = 0x4000
TTLS = (0, 1, 2, 3, 60, 60, 300, 86_400, 86_401, 0x7FFFFFFF, 0x80000000, 0xFFFFFFFF)
SIZES = (0, 1, 511, 512, 513, 1231, 1232, 1233, 1400, 4096, 65_535)
NAMED = tuple(LAYOUTS)  # types whose data have names
ASKED = (1, 1, 1, 1, 2, 5, 6, 12, 15, 16, 28, 28, 33, 39, 43, 46, 48, 65, 99, 255, 255, 251, 252, 250, 41, 0, 65_280, 65_535, *NAMED)
ODD_LABELS = (b"\0", b".", b" ", b"\xff\x80", b"\\", b"*", b"_", b"-", b"@", b"\xc0\x0c")


# ---- names


def label(chance):
    """A label, in most cases one of few, so that names meet."""
    kind = chance.random()
    if kind < 0.6:
        return chance.choice((b"a", b"b", b"c", b"www"))
    if kind < 0.85:
        return bytes(chance.choice(b"abcdefghijklmnopqrstuvwxyz0123456789-_") for _ in range(chance.randrange(1, 9)))
    if kind < 0.92:
        return bytes([chance.choice(b"xyZ")]) * chance.choice((62, 63))
    return chance.choice(ODD_LABELS)


def length_of(name):
    return sum(map(len, name)) + len(name) + 1


def below(chance, base, most=4):
    """A name with up to so many labels in front of the base; rarely as long as a name may be."""
    name = tuple(base)
    for _ in range(chance.randrange(most + 1)):
        name = (label(chance), *name)
    if chance.random() < 0.05:
        while (left := MOST_NAME - length_of(name)) > 1:
            name = (b"f" * min(63, left - 1), *name)
    return name if length_of(name) <= MOST_NAME else tuple(base)


def spelled(chance, name):
    """The name with letters of either case."""
    if chance.random() < 0.5:
        return name
    return tuple(bytes(c ^ 0x20 if chr(c).isalpha() and c < 128 and chance.random() < 0.5 else c for c in one) for one in name)


# ---- requests


def options(chance):
    """Options of an OPT record (RFC 6891, section 6.1.2)."""
    out = b""
    for _ in range(chance.choice((0, 0, 0, 1, 2, 5))):
        data = chance.randbytes(chance.choice((0, 1, 8, 24, 400)))
        out += struct.pack("!HH", chance.choice((3, 8, 10, 12, 15, 65_001)), len(data)) + data
    return out


def opt(chance, version=0):
    return opt_of(chance.choice(SIZES), version, chance.choice((0, 0, 0, 1, 255)), chance.random() < 0.3, options(chance))


def query(chance, name, qtype=None, number=0):
    """A query that is served in most cases: of class IN, with RD."""
    qclass = IN if chance.random() < 0.95 else chance.choice((0, 3, 4, 254, 255, 65_535))
    flags = ["rd"] if chance.random() < 0.95 else []
    flags += [flag for flag in ("aa", "tc", "ra", "z", "ad", "cd") if chance.random() < 0.1]
    if chance.random() < 0.01:
        flags.append("qr")
    opcode = chance.choice((1, 2, 3, 4, 5, 6, 15)) if chance.random() < 0.03 else 0
    qtype = chance.choice(ASKED) if qtype is None else qtype
    message = Message(number, tuple(flags), opcode, chance.choice((0, 0, 0, 0, 3, 15)), [Question(spelled(chance, name), qtype, qclass)])
    for section in (message.answer, message.authority, message.additional):
        if chance.random() < 0.03:
            section += [record(chance, name) for _ in range(chance.choice((1, 2, 20)))]
    if chance.random() < 0.6:
        place = chance.randrange(len(message.additional) + 1)
        message.additional.insert(place, opt(chance, 0 if chance.random() < 0.95 else chance.choice((1, 2, 255))))
    octets = encode(message, chance.random() < 0.5)
    return into_header(chance, octets) if chance.random() < 0.03 else octets


def into_header(chance, octets):
    """The name of the question ends in the header, at an octet that is 0: a pointer takes the place of its last zero."""
    at = 12
    while octets[at]:
        at += octets[at] + 1
    zeros = [place for place in range(12) if octets[place] == 0]
    return octets[:at] + struct.pack("!H", 0xC000 | chance.choice(zeros)) + octets[at + 1:] if zeros else octets


def notify(chance, zone, number=0):
    """A NOTIFY (RFC 1996, section 3.7), in most cases for the SOA of the zone."""
    qtype = TYPES["SOA"] if chance.random() < 0.9 else chance.choice(ASKED)
    message = Message(number, ("aa",), 4, 0, [Question(spelled(chance, zone), qtype, IN if chance.random() < 0.95 else CH)])
    if chance.random() < 0.5:
        message.answer.append(Record(zone, 60, IN, TYPES["SOA"], soa(chance, chance.choice((0, 1, 1 << 31)))))
    if chance.random() < 0.3:
        message.additional.append(opt(chance, chance.choice((0, 0, 0, 1))))
    return encode(message, chance.random() < 0.5)


# ---- records


def soa(chance, serial):
    """The parts of its data; the zone isn't due soon again."""
    names = [below(chance, (b"test",), 2) for _ in range(2)]
    return [*names, *(number.to_bytes(4, "big") for number in (serial, 86_400, 86_400, 86_400, chance.choice((0, 60, 0xFFFFFFFF))))]


def data(chance, rtype, name):
    """The parts of the data of a record of this type."""
    if rtype == TYPES["SOA"]:
        return soa(chance, chance.choice((0, 1, 0xFFFFFFFF)))
    if rtype == TYPES["A"]:
        return [bytes((192, 0, chance.choice((2, 2, 2, 3)), chance.choice((1, 1, 7, chance.randrange(256)))))]
    if rtype == TYPES["AAAA"]:
        return [bytes.fromhex("20010db8") + bytes(11) + b"\1" if chance.random() < 0.5 else chance.randbytes(16)]
    if rtype in LAYOUTS:
        return [below(chance, name[-2:]) if kind == "n" else chance.randbytes(int(kind)) for kind in LAYOUTS[rtype]]
    if rtype == TYPES["TXT"] and chance.random() < 0.8:
        return [b"".join(bytes([size]) + b"t" * size for size in chance.choices((0, 1, 20, 255), k=chance.randrange(1, 4)))]
    return [chance.randbytes(chance.choice((0, 1, 2, 4, 16, 37, 300)))]


def record(chance, name, rtype=None):
    rtype = chance.choice(ASKED) if rtype is None else rtype
    owner = spelled(chance, name) if chance.random() < 0.8 else below(chance, name[-2:])
    rclass = IN if chance.random() < 0.95 else chance.choice((CH, 4, 254, 255))
    return Record(owner, chance.choice(TTLS), rclass, rtype, data(chance, rtype, name))


# ---- what an upstream answers: records of the answer section, by kind


def addresses(chance, name, qtype):
    return [record(chance, name, qtype if qtype in (1, 28) else 1) for _ in range(chance.choice((0, 1, 1, 2, 8, 30, 200)))]


def aliases(chance, name, qtype):
    """A chain of CNAMEs, or one that leads back, and what stands at its end; in order or not."""
    out, here = [], name
    for step in range(chance.choice((1, 1, 2, 3, 8, 14, 15, 16, 17, 40))):
        target = below(chance, (b"c%d" % step, *name[-1:]), 2)
        out.append(Record(spelled(chance, here), chance.choice(TTLS), IN, 5, [target]))
        here = target
    if chance.random() < 0.2:
        out.append(Record(here, 60, IN, 5, [spelled(chance, chance.choice((name, here, out[-1].owner)))]))
    out += addresses(chance, here, qtype)
    if chance.random() < 0.2:
        chance.shuffle(out)
    return out


def servers(chance, name, _):
    return [Record(name, 60, IN, 2, [below(chance, chance.choice(((b"ns", b"test"), name[-2:])), 2)])
            for _ in range(chance.choice((1, 2, 2, 13)))]


def of_type(chance, name, qtype):
    return [record(chance, name, qtype) for _ in range(chance.choice((1, 1, 2, 5)))]


def mixed(chance, name, _):
    return [record(chance, name) for _ in range(chance.randrange(6))]


def long_data(chance, name, qtype):
    """Some 400 to 60,000 octets."""
    size = chance.choice((400, 1150, 1200, 60_000))
    return [Record(name, 60, IN, 16, [b"\xff" + b"x" * 255]) for _ in range(max(1, size // 300))]


def many_names(chance, name, _):
    """Records whose owners and data have names, many of which end in one another."""
    return [record(chance, below(chance, name[-2:]), chance.choice(NAMED)) for _ in range(chance.choice((9, 20, 100, 400)))]


def far_names(chance, name, _):
    """Names on both sides of the place 16,384, to which no pointer leads any more."""
    size = POINTED - chance.randrange(40, 160)
    return [Record(name, 60, IN, 65_280, [bytes(size)]), *(record(chance, name, chance.choice(NAMED)) for _ in range(9))]


def nothing(*_):
    return []


KINDS = (addresses, addresses, aliases, aliases, servers, of_type, of_type, mixed, many_names, far_names, long_data, nothing)


def response(chance, number, name, qtype):
    """A response to a question, in most cases one that counts as its answer."""
    if chance.random() < 0.05:
        return behind_pointers(chance, number, name, qtype)
    kind = servers if qtype == TYPES["NS"] and chance.random() < 0.8 else chance.choice(KINDS)
    flags = ["qr"] + [flag for flag in ("aa", "rd", "ra", "z", "ad", "cd") if chance.random() < 0.5]
    message = Message(number, tuple(flags), 0, chance.choice((0, 0, 0, 0, 0, 3)), [Question(spelled(chance, name), qtype)])
    message.answer += kind(chance, name, qtype)
    if chance.random() < 0.4:
        message.authority += [record(chance, name[-1:], chance.choice((6, 6, 2))) for _ in range(chance.choice((1, 1, 2)))]
    if chance.random() < 0.3:
        message.additional += [record(chance, name) for _ in range(chance.choice((1, 3)))]
    if chance.random() < 0.5:
        message.additional.append(opt(chance))
    if chance.random() < 0.6:
        # so that the least of them isn't 0 in most cases
        with_one_ttl(message, chance.choice(TTLS[1:]))
    octets = encode(altered(chance, message) if chance.random() < 0.1 else message, chance.random() < 0.7)
    return octets if len(octets) <= 65_535 else encode(replace(message, answer=[]))


def with_one_ttl(message, ttl):
    """Gives all records but the OPT record this TTL."""
    for section in (message.answer, message.authority, message.additional[:-1]):
        for one in section:
            one.ttl = ttl


def altered(chance, message):
    """The response with one thing wrong, of those that make it no answer."""
    what = chance.randrange(6)
    if what == 0:
        message.id ^= chance.choice((1, 0x8000))
    elif what == 1:
        message.questions = [replace(message.questions[0], name=below(chance, message.questions[0].name, 1))]
    elif what == 2:
        message.questions = []
    elif what == 3:
        message.flags = (*message.flags, "tc")
    elif what == 4:
        message.rcode = chance.choice((1, 2, 4, 5, 9, 15))
    else:
        message.opcode = chance.choice((1, 4, 15))
    return message


def behind_pointers(chance, number, name, qtype):
    """Data that passes as octets holds pointers, each to the one before it; the owners of further records lead behind all of them."""
    question = b"".join(bytes([len(one)]) + one for one in name) + b"\0" + struct.pack("!HH", qtype, IN)
    head = b"\xc0\x0c" + struct.pack("!HHIH", 65_280, IN, 60, 0)
    begun = 12 + len(question) + len(head)
    count = chance.choice((1, 2, 50, 1000, 7000))
    targets = [12, *range(begun, begun + 2 * count - 2, 2)]
    targets = [target for target in targets if target < 0x4000]
    pointers = b"".join(struct.pack("!H", 0xC000 | target) for target in targets)
    head = head[:-2] + struct.pack("!H", len(pointers))
    last = struct.pack("!H", 0xC000 | min(begun + len(pointers) - 2, 0x3FFF))
    rows = chance.choice((1, 10, 500, 2500))
    row = last + struct.pack("!HHIH", 1, IN, 60, 4) + b"\xc0\0\x02\x01"
    octets = struct.pack("!6H", number, 0x8180, 1, 1 + rows, 0, 0) + question + head + pointers + row * rows
    return octets if len(octets) <= 65_535 else octets[:65_535]
