#!/usr/bin/env python3
"""Random edits of a zone beside a plain list of its rows: what the rules do after each transfer, and which transfers are refused.

    python3 bench/edits.py BENCH [SEED [COUNT]]

BENCH is the built program bench. Its word `edits` applies transfers to a zone and to a plain list, and compares both after each. The
transfers are drawn from the seed (1): first a whole one of some 300 rows, and then COUNT (100,000) edits, 1 to 8 in each incremental
transfer, in 1 to 3 steps. They come from a few hundred rows at about 60 owners, so that rows come and go at the same places: names and
wildcards, addresses of each kind in several spellings, and owners that name no trigger; addresses and text, CNAMEs to each of the words
and to the own name, and types that make no rule. TTLs and the case of letters are drawn each time. One transfer of 20 deletes a row that
isn't there, or adds one that is. Now and then all rows go and come back, or a whole transfer comes in between; and for a tenth of the
edits half of them are at one place of 2,000 rows.

The serial passes the last one, 4,294,967,295. Prints what the program does. The status is 0 where it finds no difference and has taken
and refused as many transfers as were drawn, and has as many rows in the end.
"""

import random
import re
import subprocess
import sys
import tempfile
from typing import NamedTuple

from stream import AXFR, IXFR, SERIALS, ZONE, pointer, record, write_steps, write_zone

ROWS = 300  # of the first transfer
MOST = 8  # edits of a transfer
FIRST = SERIALS - 2_000  # serial
TTLS = (0, 60, 60, 300, 3_600)
FAULTS = 1 / 20
ALL_GONE = WHOLE = 1 / 400
MANY = 2_000  # rows of one place
PIECE = 200  # of them in one transfer

NAMES = [
    "example", "a.example", "b.a.example", "c.b.a.example", "d.c.b.a.example", "ab.example", "a", "b", "a.b", "test", "www.test",
    "x.www.test", "a-much-longer-label-than-all-the-others-have-here.example", "1.2.3.4",
]
WILD = ["*", "*.example", "*.a.example", "*.b.a.example", "*.a", "*.b", "*.www.test", "*.*.test"]
ADDRESSES = [
    ("32.7.2.0.192",), ("24.0.2.0.192", "024.0.02.0.192"), ("16.0.0.0.192",), ("8.0.0.0.192",), ("32.8.2.0.192",),
    ("128.1.zz.db8.2001",), ("48.zz.db8.2001", "48.0.0.0.0.0.0.db8.2001"), ("32.zz.db8.2001",),
]
MARKERS = ["rpz-client-ip", "rpz-ip", "rpz-nsip"]
SERVERS = ["ns.example", "*.ns.example", "*.example", "a.ns.example"]
NO_TRIGGERS = ["a.rpz-other", "rpz-nsdname", "33.1.2.0.192.rpz-ip", "24.1.2.0.192.rpz-ip", "a.rpz-client-ip", ""]

A, NS, CNAME, MX, TXT, AAAA, DNAME, RRSIG = 1, 2, 5, 15, 16, 28, 39, 46
KINDS = [((8, 14), (0, 0)), ((0, 0), (2, 4)), ((1, 3), (1, 2))]  # of owners: how many rows with data, and how many CNAMEs
TARGETS = [".", "*.", "rpz-passthru.", "rpz-drop.", "rpz-tcp-only.", "rpz-other.", "walled.example."]


class Row(NamedTuple):
    """The identity of a row: the labels of its owner in front of the zone's, its type, and its data, which may end in a name."""
    owner: tuple
    rtype: int
    octets: bytes = b""
    name: tuple = None


def labels_of(text):
    return tuple(label.encode() for label in text.split(".") if label)


def name_octets(labels, cases):
    """The labels, the case of each letter as it is drawn."""
    drawn = (bytes(cases.choice((octet, octet ^ 0x20)) if bytes([octet]).isalpha() else octet for octet in label) for label in labels)
    return b"".join(bytes([len(label)]) + label for label in drawn)


def written(row, numbers):
    owner = name_octets(row.owner, numbers) + pointer(ZONE)
    name = b"" if row.name is None else name_octets(row.name, numbers) + b"\0"
    return record(owner, row.rtype, row.octets + name, numbers.choice(TTLS))


def data_rows(owner):
    yield from (Row(owner, A, bytes([192, 0, 2, last])) for last in range(1, 9))
    yield from (Row(owner, AAAA, bytes.fromhex("20010db8") + last.to_bytes(12, "big")) for last in range(1, 7))
    yield from (Row(owner, TXT, bytes([len(text)]) + text) for text in (b"", b"a", b"A"))
    yield from (Row(owner, MX, bytes([0, 10]), labels_of(host)) for host in ("mx.example", "example"))


def cnames(owner, text):
    yield from (Row(owner, CNAME, name=labels_of(target)) for target in [*TARGETS, text])


def other_rows(owner):
    """Rows that make no rule."""
    yield Row(owner, NS, name=labels_of("ns.example"))
    yield Row(owner, DNAME, name=labels_of("example"))
    yield Row(owner, RRSIG, b"ab")


def rows_at(text, numbers, data, aliases):
    """Rows that there could be at an owner: some of those with data, of CNAMEs, and of those that make no rule."""
    owner = labels_of(text)
    return [*numbers.sample([*data_rows(owner)], numbers.randint(*data)), *numbers.sample([*cnames(owner, text)], numbers.randint(*aliases)),
            *numbers.sample([*other_rows(owner)], numbers.choice((0, 0, 1)))]


def universe(numbers):
    """All rows that there could be. The spellings of one trigger have rows of the same kinds."""
    texts = [*NAMES, *WILD, *NO_TRIGGERS, *(f"{name}.rpz-nsdname" for name in SERVERS)]
    groups = [(text,) for text in texts]
    groups += [tuple(f"{address}.{marker}" for address in spellings) for spellings in ADDRESSES for marker in MARKERS]
    kinds = numbers.choices(KINDS, k=len(groups))
    return [row for group, kind in zip(groups, kinds) for text in group for row in rows_at(text, numbers, *kind)]


def crowd():
    """The rows of the one place that has many, and a CNAME, beside which they make no rule."""
    owner = labels_of("many.example")
    addresses = [Row(owner, AAAA, bytes.fromhex("20010db8") + last.to_bytes(12, "big")) for last in range(MANY)]
    return addresses, Row(owner, CNAME, name=())


class Maker:
    """Draws transfers and writes them, and knows which rows are there."""

    def __init__(self, out, seed):
        self.out, self.numbers = out, random.Random(seed)
        self.rows = universe(self.numbers)
        self.there, self.serial = set(), FIRST
        self.transfers = self.refused = self.edits = 0

    def octets(self, rows):
        return [written(row, self.numbers) for row in rows]

    def write_whole(self, rows, qtype):
        """A whole transfer of these rows, of which some come twice."""
        again = self.numbers.sample(rows, min(5, len(rows)))
        write_zone(self.out, self.octets([*rows, *again]), self.serial, qtype)
        self.there = set(rows)
        self.transfers += 1

    def write_taken(self, steps):
        write_steps(self.out, [(self.octets(deleted), self.octets(added)) for deleted, added in steps], self.serial)
        self.serial = (self.serial + len(steps)) % SERIALS
        self.transfers += 1

    def write_refused(self, steps, before):
        serial = self.serial
        self.write_taken(steps)
        self.serial, self.there = serial, before
        self.refused += 1

    def step(self, count, rows, fault):
        """A step of so many edits. With a fault it deletes a row that isn't there, or adds one that is."""
        deleted, added = [], []
        for row in self.numbers.choices(rows, k=count):
            if row in self.there:
                self.there.remove(row)
                deleted.append(row)
            elif row not in added:
                added.append(row)
        absent = self.numbers.choice([row for row in rows if row not in self.there] or [None]) if fault == "delete" else None
        self.there.update(added)
        if absent is not None:
            deleted.insert(self.numbers.randint(0, len(deleted)), absent)
        if fault == "add" and self.there:
            added.insert(self.numbers.randint(0, len(added)), self.numbers.choice(sorted(self.there, key=repr)))
        return deleted, added

    def some_edits(self, rows):
        """A transfer of a few edits."""
        count = self.numbers.randint(1, MOST)
        steps = self.numbers.randint(1, min(3, count)) if self.numbers.random() < 0.3 else 1
        fault = self.numbers.choice(("delete", "add")) if self.numbers.random() < FAULTS else None
        if fault is not None and len(self.there) in (0, len(rows)):
            fault = "add" if self.there else "delete"
        faulty = self.numbers.randrange(steps) if fault else None
        before = set(self.there) if fault else None
        made = [self.step(max(1, count // steps), rows, fault if number == faulty else None) for number in range(steps)]
        if fault:
            self.write_refused(made, before)
        else:
            self.write_taken(made)
        self.edits += count

    def all_go_and_come_back(self):
        """In two transfers, or in two steps of one."""
        rows = sorted(self.there, key=repr)
        going, coming = (self.numbers.sample(rows, len(rows)) for _ in range(2))
        steps = [(going, []), ([], coming)]
        if self.numbers.random() < 0.5:
            self.write_taken(steps)
        else:
            for step in steps:
                self.write_taken([step])

    def whole_again(self):
        self.serial = (self.serial + 1) % SERIALS
        rows = self.rows if self.numbers.random() < 0.2 else self.numbers.sample(self.rows, self.numbers.randint(1, len(self.rows)))
        self.write_whole(rows, IXFR)

    def draw(self, rows, until):
        """Transfers until so many edits have come."""
        while self.edits < until:
            if self.numbers.random() < ALL_GONE:
                self.all_go_and_come_back()
            if self.numbers.random() < WHOLE:
                self.whole_again()
            self.some_edits(rows)

    def draw_crowd(self, until):
        """The same, half of the edits at one place of many rows, which come before and go behind."""
        addresses, alias = crowd()
        for at in range(0, MANY, PIECE):
            self.write_taken([([], addresses[at:at + PIECE])])
            self.there.update(addresses[at:at + PIECE])
        half = max(1, len(self.rows) // 100)
        rows = [*self.rows, *addresses[:len(self.rows) - half], *[alias] * half]
        while self.edits < until:
            self.some_edits(rows)
        here = sorted(self.there & {*addresses, alias}, key=repr)
        for at in range(0, len(here), 3 * PIECE):
            self.write_taken([(here[at:at + 3 * PIECE], [])])
        self.there -= set(here)


def write_all(out, seed, count):
    """The transfers, and what they come to."""
    maker = Maker(out, seed)
    maker.write_whole(maker.numbers.sample(maker.rows, min(ROWS, len(maker.rows))), AXFR)
    maker.draw(maker.rows, count * 2 // 5)
    maker.draw_crowd(count // 2)
    maker.draw(maker.rows, count)
    out.flush()
    return maker.transfers, maker.refused, len(maker.there)


def main():
    if not 2 <= len(sys.argv) <= 4:
        sys.exit("usage: python3 bench/edits.py BENCH [SEED [COUNT]]")
    seed = int(sys.argv[2]) if len(sys.argv) > 2 else 1
    count = int(sys.argv[3]) if len(sys.argv) > 3 else 100_000
    with tempfile.NamedTemporaryFile(suffix=".stream") as stream:
        transfers, refused, rows = write_all(stream, seed, count)
        with open(stream.name, "rb") as given:
            done = subprocess.run([sys.argv[1], "edits"], stdin=given, stdout=subprocess.PIPE, text=True, check=False)
    print(done.stdout, end="")
    wanted = f"transfers {transfers} refused {refused} comparisons \\d+ rows {rows}\n"
    if done.returncode != 0:
        sys.exit(done.returncode)
    if not re.fullmatch(wanted, done.stdout):
        sys.exit(f"wanted: {wanted}")


if __name__ == "__main__":
    main()
