#!/usr/bin/python3
"""Each octet of a transfer and of an answer changed in turn: what `rpz replay` makes of it is what the second writing in tools/fuzz says.

    /usr/bin/python3 tools/flips.py [--all] [--jobs N] PROGRAM

PROGRAM is `rpz`. Changed are a transfer of 20 rows in three messages, one in two steps with five rows that go and five that come in each,
and two answers of five records, of which one has an address that a rule is about. For each octet each of its bits is flipped, and none
and all of them are set; with --all it gets each other value. Each is also cut behind each of its octets, and gets one octet more. Of what
is taken it is seen, too, that the zone has the rows that it should have and no others, by steps that take out each of them.

Prints for each what came of the changes, and how often; where the two differ, what was offered, what was expected and what was written.
The status is 1 where they differed.
"""

import argparse
import collections
import multiprocessing
import os
import pathlib
import struct
import subprocess
import sys

HERE = pathlib.Path(__file__).resolve().parent
sys.path[:0] = [str(HERE), str(HERE / "fuzz")]

import deciding
import reading
import rules
import taking
from dns_text import TYPES, Message, Question, Record, data_of, encode, framed, opt_of

A, CNAME, SOA, AXFR, IXFR = (TYPES[name] for name in ("A", "CNAME", "SOA", "AXFR", "IXFR"))
ZONE = (b"rpz", b"example")
CLIENT, CLIENT_OCTETS = "192.0.2.7", bytes((192, 0, 2, 7))
HIT, OTHER = bytes((198, 51, 100, 9)), bytes((198, 51, 100, 8))
QUERY_ID = 0x1234
# so far apart that no answer is in the cache any more (docs/FORMATS.md)
SECONDS = 90_000
CHUNK = 1_000
SHOWN = 5  # differences of each


# ---- changes


def each_octet(octets, values):
    """By place and value: each bit of each octet flipped, and none or all of its bits set; or each of the values."""
    for place, octet in enumerate(octets):
        for value in sorted(set(values or {octet ^ 1 << bit for bit in range(8)} | {0x00, 0xff}) - {octet}):
            yield place, value


def each_change(octets, values):
    yield from each_octet(octets, values)
    yield from ((size, None) for size in range(len(octets)))
    yield len(octets), 0


def changed(octets, change):
    """The octets with another one at a place, or cut there; at their end one more."""
    place, value = change
    return octets[:place] if value is None else octets[:place] + bytes([value]) + octets[place + 1:]


# ---- what is changed


def name(text):
    return tuple(label.encode() for label in text.split(".") if label)


def row(owner, rtype, *words, ttl=60):
    return Record((*name(owner), *ZONE), ttl, 1, TYPES[rtype], data_of(TYPES[rtype], list(words)))


def soa(serial, owner=ZONE, ttl=60):
    return Record(owner, ttl, 1, SOA, data_of(SOA, [".", ".", str(serial), "3600", "600", "86400", "60"]))


def all_rows():
    """Twenty rows: rules of each trigger, local data, and rows that no rule is made of."""
    return [
        row("bad", "CNAME", "."), row("*.bad", "CNAME", "*."), row("gone", "CNAME", "rpz-drop."), row("a.b.c.deep", "CNAME", "rpz-passthru."),
        row("www", "CNAME", "Garden.Example."), row("24.0.2.0.192.rpz-client-ip", "CNAME", "."), row("32.9.100.51.198.rpz-ip", "CNAME", "*."),
        row("ns.test.rpz-nsdname", "CNAME", "rpz-drop."), row("48.zz.db8.2001.rpz-nsip", "CNAME", "."), row("x.rpz-strange", "CNAME", "."),
        *(row(f"host{number}", "A", f"192.0.2.{number}", ttl=300) for number in range(4)), row("host0", "AAAA", "2001:db8::1"),
        row("host1", "MX", "10", "mail.example."), row("host2", "TXT", '"text"', '""'), row("Full", "NS", "Ns.Example."),
        row("host3", "SRV", "0", "5", "53", "srv.example."), Record((b"host3", *ZONE), 60, 1, 65_280, [b"\xc0\x0c\xff"]),
    ]


def stream(qtype, *parts):
    """Messages with these records, each behind its length."""
    return b"".join(framed(encode(Message(0, ("qr", "aa"), 0, 0, [Question(ZONE, qtype)], records), True)) for records in parts)


def whole(serial):
    rows = all_rows()
    return stream(AXFR, [soa(serial), *rows[:7]], rows[7:15], [*rows[15:], soa(serial)])


def steps(serial):
    """Two steps, each with five rows that go, and five that come, one of them a row of the step before."""
    rows, fresh = all_rows(), [row(f"fresh{number}", "A", f"198.51.100.{number}") for number in range(9)]
    first = [soa(serial + 2), soa(serial), *rows[:5], soa(serial + 1), *fresh[:5]]
    second = [soa(serial + 1), fresh[0], *rows[10:14], soa(serial + 2), rows[0], *fresh[5:9], soa(serial + 2)]
    return stream(IXFR, first, second)


class Transfers:
    """Lines of a script that offer transfers to the one zone, and what must be written."""

    def __init__(self):
        self.version = taking.Version(ZONE)
        self.lines, self.expected, self.inputs = ["zone rpz.example"], [], []

    def serial(self):
        """One that is newer than the zone's, and leaves room for some more."""
        return 1 if self.version.serial is None else (self.version.serial + 1) % (taking.SERIALS - 8)

    def offer(self, octets):
        """What comes of a transfer, but for its numbers."""
        told, self.version = taking.taken(self.version, octets, 0)
        word, rest = told.split(" ", 1)
        self.lines.append(f"xfer 1 {octets.hex() or '-'}")
        self.expected.append(f"{word} 1 {rest}")
        self.inputs.append(octets)
        return f"{word} {rest.split()[0]}" if word == "refused" else word

    def mark(self):
        self.lines.append("full 1")
        self.version.is_marked = True

    def add(self, change):
        self.prepare()
        told = self.offer(self.changed_from(change))
        if told == "taken":
            self.take_out_all()
        return told

    def take_out_all(self):
        """If the zone has other rows than it should have, one is lacking, or some are left."""
        rows = [Record(owner, 60, 1, rtype, [octets]) for owner, rtype, octets in self.version.rows]
        old, new = self.version.serial, (self.version.serial + 1) % taking.SERIALS
        self.offer(stream(IXFR, [soa(new), soa(old), *rows, soa(new), soa(new)]))


class WholeTransfer(Transfers):
    name, octets = "a transfer of 20 rows in three messages", whole(1)

    def prepare(self):
        self.mark()

    def changed_from(self, change):
        return changed(whole(self.serial()), change)


class StepTransfer(Transfers):
    name, octets = "a transfer in two steps", steps(1)

    def prepare(self):
        self.mark()
        self.offer(whole(self.serial()))

    def changed_from(self, change):
        return changed(steps(self.version.serial), change)


def query():
    return encode(Message(QUERY_ID, ("rd",), 0, 0, [Question(name("Www.Example"), A)]))


def response(number, address):
    """Five records: an alias with its address, the SOA of the authority section, an address and an OPT record in the additional one."""
    records = [
        Record(name("www.example"), 300, 1, CNAME, [name("W.example")]), Record(name("w.example"), 200, 1, A, [address]),
    ]
    negative = Record(name("example"), 100, 1, SOA, data_of(SOA, ["ns.example.", "mail.example.", "7", "3600", "600", "86400", "60"]))
    other = Record(name("ns.example"), 60, 1, A, [HIT])
    return encode(Message(number, ("qr", "rd", "ra"), 0, 0, [Question(name("www.example"), A)], records, [negative], [other, opt_of(1232)]), True)


class Answers:
    """Lines that ask for a name, and give what was changed of its answer."""

    name, address = "an answer with an address that a rule is about", HIT
    octets = response(1, HIT)

    def __init__(self):
        octets = stream(AXFR, [soa(1), row("32.9.100.51.198.rpz-ip", "CNAME", "."), soa(1)])
        _, version = taking.taken(taking.Version(ZONE), octets, 0)
        self.rules = rules.rules_of(1, ZONE, version)
        self.lines, self.expected, self.inputs = ["zone rpz.example", f"xfer 1 {octets.hex()}"], ["taken 1 1 1"], [octets]
        self.asked = 0

    def add(self, change):
        self.asked += 1
        given = changed(response(self.asked, self.address), change)
        asked = deciding.Query(query(), "tcp", CLIENT_OCTETS, self.rules)
        question, _ = asked.turn(deciding.Cache(), 0)
        message = reading.usable(given, self.asked, *question)
        asked.facts[question] = None if message is None else deciding.answer_of(message)
        _, reply = asked.turn(deciding.Cache(), 0)
        self.lines += [f"clock {self.asked * SECONDS}", f"query 0 tcp {CLIENT} {query().hex()}", f"give 0 {given.hex() or '-'}"]
        upstream = struct.pack("!6H", self.asked, 0x0100, 1, 0, 0, 0) + reading.written(question[0]) + struct.pack("!2H", question[1], 1)
        self.expected += [f"ask 0 {upstream.hex()}", f"reply 0 {reply.hex()}"]
        self.inputs += [query(), given]
        return f"rcode {reply[3] & 15}, decided by {asked.by}"


class PassingAnswers(Answers):
    name, address = "an answer that passes", OTHER
    octets = response(1, OTHER)


# ---- runs


def try_chunk(work):
    """How often each outcome was seen among these changes, and where the transcript differs."""
    program, subject, chunk = work
    script, seen = subject(), collections.Counter()
    for change in chunk:
        seen[script.add(change)] += 1
    text = "\n".join(script.lines) + "\n"
    done = subprocess.run([program, "replay"], input=text.encode(), capture_output=True, check=False, timeout=600)
    told = done.stdout.decode("ascii", "replace").splitlines()
    lines = [*told, *["nothing"] * max(0, len(script.expected) - len(told))]
    differ = [one for one in zip(map(bytes.hex, script.inputs), script.expected, lines) if one[1] != one[2]]
    if done.returncode != 0 or len(told) != len(script.expected):
        differ.append(("", f"status 0 and {len(script.expected)} lines", f"status {done.returncode} and {len(told)} lines"))
    return seen, differ[:SHOWN]


def try_subject(pool, subject, options):
    """Tries all changes of one, and prints what came of them; whether nothing differed."""
    changes = list(each_change(subject.octets, range(256) if options.all else ()))
    seen, differ = collections.Counter(), []
    work = [(options.program, subject, changes[begin:begin + CHUNK]) for begin in range(0, len(changes), CHUNK)]
    for seen_there, differ_there in pool.imap(try_chunk, work):
        seen, differ = seen + seen_there, differ + differ_there
    outcomes = ", ".join(f"{outcome} {count:,}" for outcome, count in seen.most_common())
    print(f"{subject.name}: {len(subject.octets)} octets, {len(changes):,} changes: {outcomes}", flush=True)
    for offered, expected, told in differ[:SHOWN]:
        print(f"  DIFFERS: offered {offered}\n    expected {expected}\n    written  {told}")
    return not differ


def main():
    parser = argparse.ArgumentParser()
    parser.add_argument("--all", action="store_true")
    parser.add_argument("--jobs", type=int, default=os.cpu_count())
    parser.add_argument("program")
    options = parser.parse_args()
    with multiprocessing.Pool(options.jobs) as pool:
        alike = [try_subject(pool, subject, options) for subject in (WholeTransfer, StepTransfer, Answers, PassingAnswers)]
    sys.exit(0 if all(alike) else 1)


if __name__ == "__main__":
    main()
