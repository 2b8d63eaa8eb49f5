"""Transfers of a policy zone, whole and in steps (RFC 5936; RFC 1995): legal ones with odd triggers, ones with something wrong in the order
or the values of their records, and mutated octets of either."""

import struct
from dataclasses import replace

import mutations
import reading
import shapes
from dns_text import TYPES, Message, Question, Record, encode, framed

SERIALS = 1 << 32
AXFR, IXFR, SOA, CNAME = TYPES["AXFR"], TYPES["IXFR"], TYPES["SOA"], TYPES["CNAME"]
TOP = (b"test",)  # rules about names are about names below this one
MARKER = (b"marker", *TOP)
ADDRESSES = (  # triggers about addresses, legal and not
    b"32.1.2.0.192", b"24.0.2.0.192", b"1.0.0.0.128", b"8.0.0.0.10", b"032.001.002.000.192", b"128.1.zz.db8.2001", b"48.zz.1.db8.2001",
    b"33.1.2.0.192", b"0.0.0.0.0", b"24.1.2.0.192", b"32.256.2.0.192", b"zz.zz", b"128.zz.1.zz", b"1.2", b"32.1.2.0.192.7", b"129.zz", b"x",
    b"128.00001.zz.1", b"128.1.1.1.1.1.1.1.1", b"64.zz.zz", b"32.1.2.0.1920", b"128.zz", b"1.zz", b"32",
)
WORDS = (b"rpz-client-ip", b"rpz-ip", b"RPZ-ip", b"rpz-nsip", b"rpz-nsdname", b"Rpz-NsDname")
CLIENTS = (b"8.0.0.0.127", b"32.9.0.0.127", b"32.1.2.0.192", b"24.0.2.0.192", b"128.1.zz.db8.2001", b"33.1.2.0.192", b"zz.zz", b"32")
ACTIONS = ((), (b"*",), (b"rpz-passthru",), (b"RPZ-Passthru",), (b"rpz-tcp-only",), (b"rpz-odd",), (b"walled", b"test"),
           (b"*", b"walled", b"test"))
DROPS = ((b"rpz-drop",), (b"RPZ-drop",), (b"rpz-drop", b"test"))
TIMES = (0, 59, 60, 61, 300, 86_400, 0xFFFFFFFF)  # REFRESH and RETRY
MOST_RECORDS = 60  # of one message, so that it has at most 65,535 octets


# ---- rows


def trigger(chance, words):
    """The labels in front of the zone's name. `words`: the labels of the kinds of triggers that there are beside names."""
    kind = chance.random()
    if kind < 0.5 or kind < 0.9 and not words:
        name = shapes.below(chance, TOP, 3)
        return (b"*", *name) if chance.random() < 0.3 else name
    if kind < 0.9:
        word = chance.choice(words)
        if word.lower() == b"rpz-nsdname":
            return (*chance.choice(((), (b"*",))), *shapes.below(chance, chance.choice((TOP, (b"ns", b"test"))), 2), word)
        return (*chance.choice(CLIENTS if word == b"rpz-client-ip" else ADDRESSES).split(b"."), word)
    return chance.choice(((), (b"rpz-odd",), (b"a", b"rpz-"), (b"rpz-ip",), (b"*",), (b"a", b"*", b"test"), (b"rpz-nsdname",), (b"\0",)))


def row(chance, zone, words):
    owner = (*trigger(chance, words), *zone)
    owner = owner if shapes.length_of(owner) <= shapes.MOST_NAME else (b"a", *zone)
    if chance.random() < 0.6:
        action = chance.choice(DROPS if chance.random() < 0.15 else ACTIONS)
        return Record(owner, chance.choice(shapes.TTLS), 1, CNAME, [action])
    rtype = chance.choice((1, 1, 2, 15, 16, 16, 28, 33, 39, 43, 46, 65, 99, 65_280, 41, 250))
    return Record(owner, chance.choice(shapes.TTLS), 1, rtype, shapes.data(chance, rtype, owner))


def key(record):
    """What equal rows have in common: the owner, the type, and the data, names in lower case."""
    data = b"".join(reading.written(reading.lower(part)) if isinstance(part, tuple) else part for part in record.parts)
    return reading.lower(record.owner), record.rtype, data


class Zone:
    """A policy zone as its primary has it: its rows and its serial. One of its rows is that of MARKER, whose address is the serial, so that
    a reply shows of which version it is."""

    def __init__(self, chance, name):
        self.chance, self.name = chance, name
        self.words = [word for word in WORDS if chance.random() < 0.35]
        self.serial, self.rows = chance.choice((0, 1, 0x7FFFFFFF, 0xFFFFFFF0)), {}

    def adopt(self, version):
        """Takes over the version that a server has, where it is another."""
        if version.serial is not None and (version.serial, set(version.rows)) != (self.serial, set(self.rows)):
            self.serial = version.serial
            self.rows = {row: Record(row[0], 60, 1, row[1], [row[2]]) for row in sorted(version.rows)}

    def soa(self, serial):
        numbers = serial, self.chance.choice(TIMES), self.chance.choice(TIMES), 86_400, 60
        names = [shapes.spelled(self.chance, self.chance.choice(((), (b"ns", b"test")))) for _ in range(2)]
        return Record(self.name, self.chance.choice((60, 0)), 1, SOA, [*names, *(number.to_bytes(4, "big") for number in numbers)])

    def next_serial(self, most=SERIALS // 2 - 1):
        return (self.serial + min(most, self.chance.choice((1, 1, 1, 2, 1000, SERIALS // 2 - 1)))) % SERIALS

    def changed(self, serial):
        """Makes a version of this serial; rows that went, and rows that came."""
        owner = (*MARKER, *self.name)
        gone = [one for row, one in self.rows.items() if row[0] == owner or self.chance.random() < 0.2]
        for one in gone:
            del self.rows[key(one)]
        come = [row(self.chance, self.name, self.words) for _ in range(self.chance.choice((0, 1, 3, 10, 40)))]
        come.append(Record(owner, 60, 1, TYPES["A"], [serial.to_bytes(4, "big")]))
        come = {key(one): one for one in come if key(one) not in self.rows}
        self.rows |= come
        self.serial = serial
        return gone, list(come.values())

    def whole(self):
        """The records of a whole transfer of a newer version."""
        self.changed(self.next_serial())
        return [self.soa(self.serial), *self.rows.values(), self.soa(self.serial)]

    def steps(self):
        """The records of one to three steps that lead to newer versions; the last serial is newer than the first, too."""
        records, count = [], self.chance.choice((1, 1, 2, 3))
        for _ in range(count):
            old = self.serial
            gone, come = self.changed(self.next_serial((SERIALS // 2 - 1) // count))
            records += [self.soa(old), *gone, self.soa(self.serial), *come]
        return [self.soa(self.serial), *records, self.soa(self.serial)]


def ruled_name(chance, rows):
    """The name of one of these rows (by owner, type and data) that is about the name asked for, or one below it; else the marker's."""
    names = [row[0][:-2] for row in rows if len(row[0]) > 2 and not row[0][-3].startswith(b"rpz-")]
    name = chance.choice(names) if names else MARKER
    return (shapes.label(chance), *name[1:]) if name[0] == b"*" else name


# ---- what is wrong in the records


def disordered(chance, zone, records):
    """The records with something wrong in their order or values."""
    records = list(records)
    at = chance.randrange(len(records))
    what = chance.randrange(9)
    if what == 0:
        del records[at]
    elif what == 1:
        records.insert(at, records[chance.randrange(len(records))])
    elif what == 2:
        records.insert(at, zone.soa(chance.choice((zone.serial, zone.serial + 1, zone.serial - 1, 0, SERIALS // 2)) % SERIALS))
    elif what == 3:
        records[at] = replace(records[at], rclass=chance.choice((0, 3, 254, 255)))
    elif what == 4:
        records[at] = replace(records[at], owner=chance.choice(((), zone.name[1:], (b"other",), (b"x", *zone.name))))
    elif what == 5:
        other = chance.randrange(len(records))
        records[at], records[other] = records[other], records[at]
    elif what == 6:
        records.append(row(chance, zone.name, zone.words))
    elif what == 7:
        records = records[:at + 1]
    else:
        soas = [place for place, one in enumerate(records) if one.rtype == SOA] or [at]
        serial = chance.choice(mutations.LONGS)
        records[chance.choice(soas)] = zone.soa(serial)
    return records or [zone.soa(zone.serial)]


# ---- octets


def messages_of(chance, zone, number, qtype, records):
    """The messages of a transfer: all but the first may lack the question."""
    ends = set(range(MOST_RECORDS, len(records), MOST_RECORDS))
    ends = sorted(ends | set(chance.sample(range(1, len(records)), min(len(records) - 1, chance.choice((0, 0, 1, 2, 10))))))
    out, compressed = [], chance.random() < 0.5
    for turn, (start, end) in enumerate(zip([0, *ends], [*ends, len(records)], strict=True)):
        question = [Question(zone.name, qtype)] if turn == 0 or chance.random() < 0.5 else []
        flags = ("qr", "aa") if chance.random() < 0.9 else ("qr",)
        out.append(encode(Message(number, flags, 0, 0, question, records[start:end]), compressed))
    return out


def wrong_message(chance, octets):
    """A message with another ID, rcode, opcode, TC or QR, or without its question in the counts."""
    at, mask = chance.choice(((0, 1), (2, 0x80), (2, 0x02), (2, 0x08), (3, 0x01), (3, 0x05), (5, 1)))
    return octets[:at] + bytes([octets[at] ^ mask]) + octets[at + 1:]


def stream(chance, zone, number, qtype, in_steps):
    """The stream of a transfer, and whether it is a legal one of the zone as it is now. Where it isn't, the zone stays as it is."""
    before = zone.serial, dict(zone.rows)
    records = zone.steps() if in_steps else zone.whole()
    if chance.random() < 0.4:
        return b"".join(map(framed, messages_of(chance, zone, number, qtype, records))), True
    wrong = chance.random()
    if wrong < 0.35:
        records = disordered(chance, zone, records)
    parts = messages_of(chance, zone, number, qtype, records)
    if 0.35 <= wrong < 0.8:
        at = chance.randrange(len(parts))
        change = wrong_message if wrong < 0.45 else mutations.mutated
        parts[at] = change(chance, parts[at])
    octets = b"".join(framed(part[:65_535]) for part in parts)
    if wrong >= 0.8:
        octets = mutated_frames(chance, octets)
    zone.serial, zone.rows = before
    return octets, False


def mutated_frames(chance, octets):
    """The stream cut anywhere, with a wrong length in front of its first message, or with mutations anywhere."""
    what = chance.random()
    if what < 0.4:
        return octets[:chance.randrange(len(octets))]
    if what < 0.6:
        size = struct.unpack("!H", octets[:2])[0] + chance.choice((-1, 1, 2, -12))
        return struct.pack("!H", size & 0xFFFF) + octets[2:]
    return mutations.mutated(chance, octets)
