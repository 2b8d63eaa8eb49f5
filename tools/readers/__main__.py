#!/usr/bin/python3
"""Has other people's readers of DNS messages read replies of `rpz serve`, and compares what they read with what has to stand there.

    /usr/bin/python3 tools/readers [--questions N] [--seed N] [--port P] PROGRAM

PROGRAM is `rpz`. It is started on the loopback at port P (24,900), with an upstream and the primary of a policy zone of this script's own
at the next two. N questions (10,000) and what the upstream and the zone have for them are drawn by chance (world.py): A, AAAA, TXT and the
thirteen types with names in their data; names that end in one another, in letters of either case, with any octets, and with up to 127
labels; up to 250 records in a reply; chains of CNAMEs; denials; local data, aliases and other actions of rules. What has to come is told by
the second writing of the documents that stands in tools/fuzz, which shares no code with `rpz`, as records with their names in full.

- **dnspython, dig and kdig** read the replies to N questions, over UDP, with and without an OPT record, and over TCP. Compared are the
  rcode, TC, the question, and of each section record by record the owner, the type, the class, the TTL, which may be less by the seconds
  that have passed, and the data; letters of names with their case. Of dig and kdig it is read what they print (printed.py). dnspython
  knows of MD, MF, MB, MG, MR and MINFO the names alone, and would leave pointers in their data as octets: it gets its classes of NS and RP
  for them.
- **Unbound**, which forwards to the server, is asked over TCP, and its replies are read by dnspython. Compared are the rcode, and of the
  answer section the owners, types and data as sets, names without case: a resolver may order records and spell names anew, gives all
  records of a name and type one TTL, and leaves out other sections. It isn't asked where answers have records at other names than those of
  the chain (`w` in world.py), which it drops, but so many other questions that N remain besides those that it refuses. It refuses this: of
  a reply with CNAMEs it takes the first alone and asks for its target, and so on, 11 times at most. SERVFAIL where a chain has more is
  counted as refused for a reason of its own, and nothing else is. `Truncated` are replies of the server to the first of these questions.

Printed: each difference with the query, and the reply as it comes when it is asked for once more, as hexadecimal digits (five for each
reader); and a table. The status is 0 where nothing differs, and else 1. Where this script is held up, so that its upstream takes 5 seconds,
the server answers SERVFAIL, which differs, too. The same seed draws the same. Wanted of Debian: python3-dnspython (for /usr/bin/python3),
bind9-dnsutils, knot-dnsutils and unbound.
"""

import argparse
import collections
import contextlib
import pathlib
import random
import shutil
import sys
import time

HERE = pathlib.Path(__file__).resolve().parent
sys.path[:0] = [str(HERE.parent), str(HERE.parent / "attack"), str(HERE.parent / "fuzz")]

import asking
import dns_text
import peers
import reading
import world

BATCH = 200  # questions that a reader gets at a time
SHOWN = 5  # differences of a reader that are printed
SECTIONS = ("answer", "authority", "additional")
READERS = {"dnspython": asking.by_dnspython, "dig": asking.by_dig, "kdig": asking.by_kdig}
UNBOUND = "Unbound", "UDP and TCP"
REPLIES, ALIKE, TRUNCATED, RECORDS, REFUSED, DIFFERENT = COLUMNS = (
    "Replies", "Alike", "Truncated of these", "Records in these", "Refused for a reason of its own", "Different")


# ---- what differs


def text_of_row(row):
    owner, rtype, rclass, ttl, octets = row
    return f"{dns_text.text_of_name(owner)} {ttl} {dns_text.text_of_class(rclass)} {dns_text.text_of_type(rtype)} {octets.hex()}"


def is_aged(found, wanted, seconds):
    """Whether a record is this one, with what may be left of its TTL behind so many seconds."""
    return (*found[:3], found[4]) == (*wanted[:3], wanted[4]) and max(0, wanted[3] - seconds) <= found[3] <= wanted[3]


def fault_of(found, wanted, seconds):
    """What is wrong with what a reader tells of a reply, or None."""
    if isinstance(found, str):
        return found
    if found[:4] != wanted[:4]:
        return f"rcode, TC, name and type {found[:4]} in place of {wanted[:4]}"
    for word, theirs, ours in zip(SECTIONS, found.sections, wanted.sections, strict=True):
        if len(theirs) != len(ours):
            return f"{len(theirs)} records in the {word} section in place of {len(ours)}"
        for one, other in zip(theirs, ours, strict=True):
            if not is_aged(one, other, seconds):
                return f"in the {word} section {text_of_row(one)} in place of {text_of_row(other)}"
    return None


def lowered(rows):
    """Records without TTLs, with names in lower case."""
    readers = [reading.Reader(bytes(reading.HEADER) + octets) for *_, octets in rows]
    low = [reader.data(row[1], len(reader.octets))[1] for row, reader in zip(rows, readers, strict=True)]
    return {(reading.lower(row[0]), row[1], row[2], octets) for row, octets in zip(rows, low, strict=True)}


def fault_behind_unbound(found, wanted):
    """The same of what Unbound makes of a reply."""
    if isinstance(found, str):
        return found
    if found.rcode != wanted.rcode:
        return f"rcode {found.rcode} in place of {wanted.rcode}"
    theirs, ours = lowered(found.sections[0]), lowered(wanted.sections[0])
    rest = [("more", row) for row in theirs - ours] + [("missing", row) for row in ours - theirs]
    return "; ".join(f"{word}: {text_of_row((*row[:3], 0, row[3]))}" for word, row in rest[:2]) if rest else None


def is_refused_by_unbound(found, question, wanted):
    aliases = sum(row[1] == world.CNAME for row in wanted.sections[0])
    return not isinstance(found, str) and found.rcode == reading.SERVFAIL and aliases > world.RESTARTS and question.qtype != world.CNAME


# ---- the run


class Run:
    """`rows`: what is counted, by reader and transport."""

    def __init__(self, options, ends):
        self.port, self.chance = options.port, random.Random(options.seed)
        self.world = world.World(str(options.seed), options.questions, options.port + 1)
        ends.callback(self.world.end)
        primaries = [(dns_text.text_of_name(world.ZONE), options.port + 2)]
        self.begun = time.monotonic()
        self.server = peers.Server(options.program, options.port, options.port + 1, primaries, 2)
        ends.callback(self.server.remove_files)
        ends.callback(self.server.end)
        self.server.wait_for(dns_text.text_of_name(world.PROBE), seconds=60)
        self.unbound = asking.Forwarder(options.port + 3, options.port)
        ends.callback(self.unbound.end)
        self.unbound.wait_for(dns_text.text_of_name(world.PROBE), seconds=60)
        self.rows = {(reader, transport): collections.Counter() for reader in READERS for transport in ("udp", "tcp")}
        self.rows[UNBOUND] = collections.Counter()

    def fits(self, row, wanted, truncated):
        self.rows[row].update({REPLIES: 1, ALIKE: 1, TRUNCATED: truncated, RECORDS: sum(map(len, wanted.sections))})

    def differs(self, row, question, fault):
        self.rows[row].update({REPLIES: 1, DIFFERENT: 1})
        if self.rows[row][DIFFERENT] > SHOWN:
            return
        octets = asking.received(self.port, question, row[1] if row != UNBOUND else "tcp", 0)
        print(f"DIFFERS {' '.join(row)}: {dns_text.text_of_name(question.name)} {dns_text.text_of_type(question.qtype)}: {fault}")
        print(f"  query {question.octets(0).hex()}\n  reply {octets.hex() if octets else '-'}", flush=True)

    def ask(self, questions):
        """Has dnspython, dig and kdig read the replies to these questions."""
        wanted = [self.world.replies(question) for question in questions]
        for reader, transport in self.chance.sample(sorted(self.rows.keys() - {UNBOUND}), len(self.rows) - 1):
            found = READERS[reader](self.port, questions, transport)
            seconds = int(time.monotonic() - self.begun) + 1
            for question, one, both in zip(questions, found, wanted, strict=True):
                fault = fault_of(one, both[transport], seconds)
                if fault is not None:
                    self.differs((reader, transport), question, fault)
                else:
                    self.fits((reader, transport), both[transport], both[transport].is_truncated)

    def ask_unbound(self, question):
        question = question._replace(size=reading.MOST_EDNS)
        wanted = self.world.replies(question)
        found = asking.behind_unbound(self.unbound.port, question)
        fault = fault_behind_unbound(found, wanted["tcp"])
        if fault is None:
            self.fits(UNBOUND, wanted["tcp"], wanted["udp"].is_truncated)
        elif is_refused_by_unbound(found, question, wanted["tcp"]):
            self.rows[UNBOUND].update({REPLIES: 1, REFUSED: 1})
        else:
            self.differs(UNBOUND, question, fault)

    def all(self):
        """Has all questions asked, as long as the server runs."""
        for start in range(0, len(self.world.passed), BATCH):
            if questions := self.world.questions[start:start + BATCH]:
                self.ask(questions)
            for question in self.world.passed[start:start + BATCH]:
                if self.server.process.poll() is not None:
                    return
                self.ask_unbound(question)

    def show(self):
        print(f"| Reader | Over | {' | '.join(COLUMNS)} |\n|{'---|' * (2 + len(COLUMNS))}")
        for (reader, transport), row in self.rows.items():
            print(f"| {reader} | {transport} | {' | '.join(f'{row[column]:,}' for column in COLUMNS)} |")


def main():
    parser = argparse.ArgumentParser()
    parser.add_argument("program")
    parser.add_argument("--questions", type=int, default=10_000)
    parser.add_argument("--seed", type=int, default=1)
    parser.add_argument("--port", type=int, default=24_900)
    options = parser.parse_args()
    missing = [program for program in asking.PROGRAMS if shutil.which(program) is None]
    if missing:
        parser.error(f"missing: {' '.join(missing)}")
    asking.know_forms()
    with contextlib.ExitStack() as ends:
        run = Run(options, ends)
        run.all()
        run.show()
        status = run.server.process.poll()
    if status is not None:
        print(f"the server has ended with status {status}")
    sys.exit(1 if status is not None or any(row[DIFFERENT] for row in run.rows.values()) else 0)


if __name__ == "__main__":
    main()
