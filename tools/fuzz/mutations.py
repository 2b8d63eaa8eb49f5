"""Mutations of octets: blind ones, and ones that find the names, lengths and counts of a message first."""

import struct

from dns_text import LAYOUTS

OCTETS = (0, 1, 0x3F, 0x40, 0x80, 0xC0, 0xFF)
SHORTS = (0, 1, 2, 0x7F, 0x80, 0xFF, 0x100, 0x1FF, 0x200, 0x3FFF, 0x4000, 0x7FFF, 0x8000, 0xBFFF, 0xC000, 0xC00C, 0xFFFE, 0xFFFF)
LONGS = (0, 1, 0xFFFF, 0x10000, 0x7FFFFFFF, 0x80000000, 0x80000001, 0xFFFFFFFE, 0xFFFFFFFF)
MOST = 70_000  # octets of what is mutated by doubling


class Marks:
    """The places in a message of its names, of lengths (place and width) and of counts, types and classes, as far as it can be walked."""

    def __init__(self, octets):
        self.octets, self.names, self.lengths, self.fields = octets, [], [], [(at, 2) for at in range(0, 12, 2)]
        try:
            self.walk()
        except (IndexError, struct.error):
            pass

    def walk(self):
        questions, *counts = struct.unpack("!4H", self.octets[4:12])
        at = 12
        for _ in range(questions):
            at = self.name(at)
            self.fields += [(at, 2), (at + 2, 2)]
            at += 4
        for _ in range(sum(counts)):
            at = self.record(at)

    def name(self, at):
        self.names.append(at)
        while 0 < self.octets[at] < 0xC0:
            self.lengths.append((at, 1))
            at += self.octets[at] + 1
        return at + (2 if self.octets[at] else 1)

    def record(self, at):
        at = self.name(at)
        rtype, _, _, length = struct.unpack("!HHIH", self.octets[at: at + 10])
        self.fields += [(at, 2), (at + 2, 2), (at + 4, 4)]
        self.lengths.append((at + 8, 2))
        place = at + 10
        for kind in LAYOUTS.get(rtype, ""):
            if kind == "n":
                place = self.name(place)
            else:
                self.fields.append((place, int(kind)))
                place += int(kind)
        if rtype == 41 and length >= 4:
            self.fields.append((place, 2))
            self.lengths.append((place + 2, 2))
        return at + 10 + length


# ---- each takes a source of chance and a bytearray, which it changes


def flip(chance, octets):
    octets[chance.randrange(len(octets))] ^= 1 << chance.randrange(8)


def replace(chance, octets):
    octets[chance.randrange(len(octets))] = chance.choice(OCTETS)


def short(chance, octets):
    at = chance.randrange(len(octets))
    octets[at: at + 2] = struct.pack("!H", chance.choice(SHORTS))


def long(chance, octets):
    at = chance.randrange(len(octets))
    octets[at: at + 4] = struct.pack("!I", chance.choice(LONGS))


def piece(chance, octets):
    at = chance.randrange(len(octets))
    return at, at + chance.choice((1, 1, 2, 4, 10, 30, 200, len(octets)))


def delete(chance, octets):
    at, end = piece(chance, octets)
    del octets[at:end]


def double(chance, octets):
    at, end = piece(chance, octets)
    if len(octets) < MOST:
        octets[end:end] = octets[at:end]


def move(chance, octets):
    at, end = piece(chance, octets)
    part = octets[at:end]
    del octets[at:end]
    place = chance.randrange(len(octets) + 1)
    octets[place:place] = part


def insert(chance, octets):
    at = chance.randrange(len(octets) + 1)
    octets[at:at] = chance.randbytes(chance.choice((1, 1, 2, 4, 11, 64)))


def cut(chance, octets):
    del octets[chance.randrange(len(octets)):]


def append(chance, octets):
    octets += chance.randbytes(chance.choice((1, 2, 11, 12, 100)))


def point(chance, octets):
    """A name becomes a pointer: forward, to itself, into the header, before it, or out of range."""
    names = Marks(octets).names or [chance.randrange(len(octets))]
    at = chance.choice(names)
    target = chance.choice((at, at + 1, at + 2, max(0, at - 1), 12, chance.randrange(12), chance.randrange(len(octets)),
                            len(octets) - 1, len(octets), 0x3FFF))
    octets[at: at + 2] = struct.pack("!H", 0xC000 | target & 0x3FFF)


def length(chance, octets):
    """A length is one less or more, or doubled."""
    change_field(chance, octets, Marks(octets).lengths, lambda value: chance.choice((value - 1, value + 1, value * 2)))


def field(chance, octets):
    """A count, type, class, TTL or number is at its bounds."""
    marks = Marks(octets)
    change_field(chance, octets, marks.fields, lambda value: chance.choice((0, 1, value - 1, value + 1, -1, -2, 1 << 31, 1 << 15, 41, 255)))


def change_field(chance, octets, fields, change):
    if not fields:
        return
    at, width = chance.choice(fields)
    value = change(int.from_bytes(octets[at: at + width], "big"))
    octets[at: at + width] = (value & (1 << 8 * width) - 1).to_bytes(width, "big")


BLIND = (flip, flip, replace, replace, short, long, delete, double, move, insert, cut, append)
AIMED = (point, length, field, field)


def mutated(chance, octets, other=b""):
    """The octets with one to four mutations, or what two messages make where one is spliced to the other."""
    octets = bytearray(octets)
    if other and chance.random() < 0.1:
        at, place = chance.randrange(len(octets) + 1), chance.randrange(len(other) + 1)
        octets = octets[:at] + other[place:]
    for _ in range(chance.choice((0, 1, 1, 2, 4) if other else (1, 1, 1, 2, 4))):
        if octets:
            chance.choice(AIMED if chance.random() < 0.5 else BLIND)(chance, octets)
    return bytes(octets)


def maybe(chance, octets, share=0.5, other=b""):
    """The octets as they are, or mutated."""
    return mutated(chance, octets, other) if chance.random() < share else octets
