"""Transfers of the zone rpz.example, in messages of at most 65,535 bytes, with pointers as a primary sends them."""

import struct

SIZE = 65_535

TTL = 60
ZONE = 12  # where the question's name begins
ORIGIN = b"\x03rpz\x07example\x00"
AXFR, IXFR = 252, 251
SERIALS = 2 ** 32  # which begin again behind the last (RFC 1982)


def pointer(place):
    return struct.pack(">H", 0xC000 | place)


def record(owner, rtype, data, ttl=TTL):
    return owner + struct.pack(">HHIH", rtype, 1, ttl, len(data)) + data


def soa_data(serial):
    return b"\x00\x00" + struct.pack(">IIIII", serial, 3600, 600, 86400, 60)


def label(text):
    return bytes([len(text)]) + text.encode()


class Writer:
    """Writes records into messages, each behind its length, which answer a question of this type."""

    def __init__(self, out, qtype):
        self.out = out
        self.question = ORIGIN + struct.pack(">HH", qtype, 1)
        self.begin()

    def begin(self):
        self.body = bytearray(12) + self.question
        self.answers = 0
        self.places = {}  # where the names that begin with these labels stand in the message

    def end(self):
        struct.pack_into(">HHHHHH", self.body, 0, 0, 0x8400, 1, self.answers, 0, 0)
        self.out.write(struct.pack(">H", len(self.body)) + self.body)
        self.begin()

    def put(self, data):
        self.body += data
        self.answers += 1

    def written(self, data):
        """A record that is written out, without a pointer or with that to the question alone."""
        if len(self.body) + len(data) > SIZE:
            self.end()
        self.put(data)

    def soa(self, serial):
        self.written(record(pointer(ZONE), 6, soa_data(serial)))

    def row(self, row):
        """The row: as it is written, or the labels of its owner in front of the zone's, if it is a CNAME to the root."""
        if isinstance(row, bytes):
            self.written(row)
        else:
            self.rule(row)

    def rule(self, labels):
        """A CNAME to the root, whose owner is these labels in front of the zone's."""
        data, places = self.cname(labels)
        if len(self.body) + len(data) > SIZE:
            self.end()
            data, places = self.cname(labels)
        self.places.update(places)
        self.put(data)

    def cname(self, labels):
        """The row, and where the names that it writes out will stand."""
        owner = label(labels[0])
        new = {}
        for at in range(1, len(labels)):
            text = labels[at:]
            if text in self.places:
                return record(owner + pointer(self.places[text]), 5, b"\x00"), new
            place = len(self.body) + len(owner)
            if place < 0x4000:  # a pointer reaches no further
                new[text] = place
            owner += label(labels[at])
        return record(owner + pointer(ZONE), 5, b"\x00"), new


def write_zone(out, rows, serial=1, qtype=AXFR):
    """The transfer of these rows (`Writer.row`) with this serial, in answer to a question of this type."""
    writer = Writer(out, qtype)
    writer.soa(serial)
    for row in rows:
        writer.row(row)
    writer.soa(serial)
    writer.end()


def write_steps(out, steps, first=1):
    """The transfer of these steps from a serial on, each to the next serial: the rows that it deletes, and those that it adds."""
    writer = Writer(out, IXFR)
    newest = (first + len(steps)) % SERIALS
    writer.soa(newest)
    for number, (deleted, added) in enumerate(steps):
        writer.soa((first + number) % SERIALS)
        for row in deleted:
            writer.row(row)
        writer.soa((first + number + 1) % SERIALS)
        for row in added:
            writer.row(row)
    writer.soa(newest)
    writer.end()
