#!/usr/bin/env python3
"""How long a query takes whose rules look at name servers, without the time of the upstream.

    python3 bench/name_servers.py RPZ [--before OLD_RPZ]

RPZ is the built program. One zone has one rule, about the address of a name server. Each script asks many times for one
name and answers each question that is asked:

  many names     a name of 127 labels: 126 NS questions, each without an answer, then the query's own
  named servers  the same; each NS question is answered with one server, and as many address questions as 128 facts leave
                 room for, so that the query gets rcode 2
  many rows      a name of two labels, whose NS question is answered with 3,000 servers; then address questions until
                 128 facts are known
  no such rules  the name of 127 labels under a zone with a rule about a name: one question

The answers have TTLs of 0, so that the cache answers none of the questions of later queries.

Prints the processor time of one query, all its turns, with reading the lines of the script and writing those of the
transcript: the least of several rounds, less the time of a script without queries. With an earlier program its times are
measured by turns with the new one's.
"""

import argparse
import os
import resource
import struct
import subprocess
import tempfile

ROUNDS = 5
ORIGIN = (b"rpz", b"example")
LABELS = (b"a",) * 127
FACTS = 128
A, NS, CNAME, SOA, AAAA = 1, 2, 5, 6, 28


def name(labels):
    return b"".join(bytes([len(label)]) + label for label in labels) + b"\x00"


def record(owner, rtype, ttl, data):
    return name(owner) + struct.pack(">HHIH", rtype, 1, ttl, len(data)) + data


def question(labels, qtype):
    return name(labels) + struct.pack(">HH", qtype, 1)


def message(number, flags, asked, answers=()):
    head = struct.pack(">HHHHHH", number & 0xFFFF, flags, 1, len(answers), 0, 0)
    return head + asked + b"".join(answers)


def zone(owner):
    """The lines that open the zone and load one rule, which denies the name."""
    soa = record(ORIGIN, SOA, 60, b"\x00\x00" + struct.pack(">IIIII", 1, 3600, 600, 86400, 60))
    row = record(owner + ORIGIN, CNAME, 60, b"\x00")
    stream = message(0, 0x8400, question(ORIGIN, 252), (soa, row, soa))
    framed = struct.pack(">H", len(stream)) + stream
    return ["zone rpz.example", f"xfer 1 {framed.hex()}"]


SERVER_RULE = zone((b"32", b"7", b"2", b"0", b"192", b"rpz-nsip"))
NAME_RULE = zone((b"bad", b"example"))


class Script:
    """The lines of a script; the IDs of questions count from 1 on."""

    def __init__(self, lines):
        self.lines = list(lines)
        self.number = 0

    def query(self, labels):
        self.lines.append(f"query 0 udp 192.0.2.7 {message(7, 0x0100, question(labels, A)).hex()}")

    def fail(self):
        self.number += 1
        self.lines.append("fail 0")

    def give(self, asked, answers):
        self.number += 1
        self.lines.append(f"give 0 {message(self.number, 0x8180, asked, answers).hex()}")

    def octets(self):
        return ("\n".join(self.lines) + "\n").encode()


def many_names(count):
    script = Script(SERVER_RULE)
    for _ in range(count):
        script.query(LABELS)
        for _ in range(len(LABELS)):
            script.fail()
    return script.octets()


def named_servers(count):
    script = Script(SERVER_RULE)
    for _ in range(count):
        script.query(LABELS)
        for size in range(2, 128):
            owner = LABELS[127 - size:]
            script.give(question(owner, NS), [record(owner, NS, 0, name((b"ns", b"s%d" % size)))])
        for _ in range(FACTS - 126):
            script.fail()
    return script.octets()


def row(label):
    """An NS record of the name that is asked for, with a server below example, by pointers."""
    data = bytes([len(label)]) + label + b"\xc0\x10"
    return b"\xc0\x0c" + struct.pack(">HHIH", NS, 1, 0, len(data)) + data


def many_rows(count):
    owner = (b"big", b"example")
    servers = [row(b"s%d" % number) for number in range(3_000)]
    script = Script(SERVER_RULE)
    for _ in range(count):
        script.query(owner)
        script.give(question(owner, NS), servers)
        for _ in range(FACTS - 1):
            script.fail()
    return script.octets()


def no_such_rules(count):
    script = Script(NAME_RULE)
    for _ in range(count):
        script.query(LABELS)
        script.fail()
    return script.octets()


CASES = (
    ("many names", many_names, 40),
    ("named servers", named_servers, 40),
    ("many rows", many_rows, 4),
    ("no such rules", no_such_rules, 2_000),
)


def used(program, path):
    """The processor time of a run."""
    before = resource.getrusage(resource.RUSAGE_CHILDREN)
    with open(path, "rb") as script:
        subprocess.run([program, "replay"], stdin=script, stdout=subprocess.DEVNULL, check=True)
    after = resource.getrusage(resource.RUSAGE_CHILDREN)
    return (after.ru_utime + after.ru_stime) - (before.ru_utime + before.ru_stime)


def main():
    parser = argparse.ArgumentParser()
    parser.add_argument("rpz")
    parser.add_argument("--before")
    args = parser.parse_args()
    programs = [args.rpz] + ([args.before] if args.before else [])
    with tempfile.TemporaryDirectory() as folder:
        for title, make, count in CASES:
            paths = []
            for times in (0, count):
                paths.append(os.path.join(folder, f"{len(paths)}"))
                with open(paths[-1], "wb") as out:
                    out.write(make(times))
            least = {}
            for _ in range(ROUNDS):
                for program in programs:
                    spent = used(program, paths[1]) - used(program, paths[0])
                    least[program] = min(spent, least.get(program, spent))
            for program in programs:
                print(f"{title:14}  {least[program] / count * 1000:8.3f} ms a query  {program}")


if __name__ == "__main__":
    main()
