"""Whether a transcript is the one of its script, line by line, by what is written beside this from docs/FORMATS.md and docs/PROFILE.md."""

import re
import struct
from dataclasses import replace

import deciding
import judging
import networks
import reading
import rules
import script_lines
import taking
from dns_text import TYPES

FAULTS = (
    "BadMessage", "WrongId", "NotResponse", "Truncated", r"Rcode ([1-9]|1[0-5])", "WrongQuestion", "TrailingRecord", "NoLeadingSoa",
    "WrongClass", "OutOfZone", "WrongSoaOwner", r"SerialNotNewer \d+ \d+", r"SoaDiffers \d+ \d+", r"Gap \d+ \d+", "Cut", "EndedEarly",
    r"DeleteAbsent \d+ \d+", r"AddPresent \d+ \d+", r"TooManyRecords 33554432", r"TooManyRows 16777216",
)
POLL = re.compile(rf"(taken (\d+) (\d+) (\d+)|current (\d+) (\d+)|refused (\d+) ({'|'.join(FAULTS)}))")
NOTIFIED = re.compile(r"notified ([0-9a-f]+)|hush")
LEAST_PAUSE, LONE_RETRY = 60, 300
RCODES = ("NOERROR", "FORMERR", "SERVFAIL", "NXDOMAIN", "NOTIMP", "REFUSED")


class Unfit(Exception):
    """The transcript isn't one of the script."""


def unfit_if(is_wrong, said):
    if is_wrong:
        raise Unfit(said)


def rcode_name(reply):
    rcode = reply[3] & 15
    said = RCODES[rcode] if rcode < len(RCODES) else f"RCODE{rcode}"
    return f"{said}, truncated" if reply[2] & 2 else said


class Follow:
    """Follows a script and its transcript. `legal`: for the number of a line the serial and the rows of a transfer that must be taken."""

    def __init__(self, figures, legal=None):
        self.figures, self.legal = figures, legal or {}
        self.state, self.cache, self.now = script_lines.State(), deciding.Cache(), 0
        self.versions, self.rules, self.due_at = {}, {}, {}  # of zones by their numbers, where they aren't as they were at the start
        self.number = self.asked = 0

    def run(self, lines, outputs, status, errors):
        """Judges further lines, with their outputs, and the end of the run; how many lines were taken."""
        outputs = iter(outputs)
        for line in lines:
            self.number += 1
            try:
                read = self.state.read(line)
            except script_lines.Refused as why:
                unfit_if((status, errors) != (3, f"rpz: line {self.number}: {why}\n"), f"the line {self.number} isn't refused for {why}")
                unfit_if(next(outputs, None) is not None, "more outputs than lines")
                self.figures.count("lines that are refused", str(why))
                return False
            if read is not None and read[0] in (b"full", b"clock"):
                getattr(self, read[0].decode())(*read[1])
            if read is not None and read[0] in script_lines.ANSWERED:
                output = next(outputs, None)
                unfit_if(output is None, f"no output of the line {self.number}")
                getattr(self, read[0].decode())(output, *read[1])
        unfit_if((status, errors) != (0, ""), f"status {status}, {errors[:100]!r} behind lines that are right")
        unfit_if(next(outputs, None) is not None, "more outputs than lines")
        return True

    # -- lines without an output

    def clock(self, second):
        self.now = second

    def full(self, zone):
        """Marks the zone."""
        self.versions[zone] = replace(self.version(zone), is_marked=True)

    def version(self, zone):
        return self.versions.get(zone, taking.Version(self.state.zones[zone - 1]))

    # -- lines, each with its output

    def xfer(self, output, zone, octets):
        found = POLL.fullmatch(output)
        unfit_if(not found, "no output of a transfer")
        serial, rows = self.legal.get(self.number, (None, None))
        unfit_if(serial is not None and output != f"taken {zone} {serial} {rows}", "a legal transfer isn't taken")
        wanted, self.versions[zone] = taking.taken(self.version(zone), octets, 0)
        word, rest = wanted.split(" ", 1)
        unfit_if(output != f"{word} {zone} {rest}", f"a transfer that comes to {word} {rest.split()[0] if word == 'refused' else ''}")
        self.figures.count("transfers of scripts", outcome_of(found))
        self.due_at[zone] = self.now + pause(self.versions[zone], word != "refused")
        if word == "taken":
            state = self.state
            self.rules[zone] = rules.rules_of(zone, state.spelled[zone - 1], self.versions[zone], state.overrides[zone - 1])

    def due(self, output):
        zones = [zone for zone in range(1, len(self.state.zones) + 1) if self.due_at.get(zone, 0) <= self.now]
        unfit_if(output != f"due {zones[0] if zones else 0}", "not the zone that is due")
        self.figures.count("due zones of scripts", "one" if zones else "none")

    def notify(self, output, address, octets):
        is_heard = networks.may_ask(self.state.allowed, address) or address in self.state.primaries.values()
        kind, request = reading.triage(octets, "notify", is_heard)
        unfit_if(not NOTIFIED.fullmatch(output) or (output == "hush") != (kind == "silence"), "no output of a NOTIFY, or hush")
        if output == "hush":
            self.figures.count("NOTIFYs of scripts", "silence")
            return
        reply = bytes.fromhex(output.split()[1])
        self.judge(octets, reply, "udp", "notify", is_heard)
        self.figures.count("NOTIFYs of scripts", "of a stranger outside" if kind == "outside" else rcode_name(reply))
        if kind == "notify":
            zones = [number for number, name in enumerate(self.state.zones, 1) if request.asks(name, TYPES["SOA"], reading.IN)]
            accepts = bool(zones) and self.state.primaries.get(zones[0]) == address
            wanted = reading.refusal(octets, request, reading.NOERROR if accepts else reading.REFUSED)
            unfit_if(reply != wanted, "another reply to a NOTIFY")
            if accepts:
                self.due_at[zones[0]] = self.now

    def query(self, output, worker, transport, client, octets):
        is_heard = networks.may_ask(self.state.allowed, client)
        kind, _ = reading.triage(octets, "query", is_heard)
        if kind == "query":
            policy = [rule for zone in sorted(self.rules) for rule in self.rules[zone]]
            self.turn(output, worker, deciding.Query(octets, transport, client, policy))
        elif kind == "silence":
            self.said(output, worker, octets, transport, None)
        else:
            self.said(output, worker, octets, transport, reading.exact(octets, "query", is_heard), is_heard)

    def fail(self, output, worker):
        self.answered(output, worker, None)

    def give(self, output, worker, octets):
        self.answered(output, worker, octets)

    # -- what comes of them

    def answered(self, output, worker, octets):
        """What comes of an answer, or of none."""
        query, question = self.state.pending.pop(worker)
        message = None if octets is None else reading.usable(octets, query.asked, *question)
        self.figures.count("answers of scripts", "none" if octets is None else "no answer" if message is None else "an answer")
        answer = None if message is None else deciding.answer_of(message)
        query.facts[question] = answer
        self.cache.put(question, self.now, answer)
        self.turn(output, worker, query)

    def turn(self, output, worker, query):
        """What comes next for a query: a question, with the ID after that of the one before, or its reply, or silence."""
        question, reply = query.turn(self.cache, self.now)
        if question is None:
            self.figures.count("queries of scripts are decided by", query.by)
            self.figures.count("facts from the cache of scripts", "facts", query.cached)
            self.said(output, worker, query.octets, query.transport, reply)
            return
        self.asked = query.asked = (self.asked + 1) % 0x10000
        name, qtype = question
        head = struct.pack("!6H", self.asked, 0x0100, 1, 0, 0, 0)
        wanted = head + reading.written(name) + struct.pack("!HH", qtype, reading.IN)
        unfit_if(output != f"ask {worker} {wanted.hex()}", "not the question upstream that is needed")
        self.figures.count("questions of scripts", "upstream")
        self.state.pending[worker] = query, question

    def said(self, output, worker, octets, transport, reply, is_heard=True):
        """The output is this reply, or silence."""
        if reply is None:
            unfit_if(output != f"silent {worker}", "no silence")
            self.figures.count("queries of scripts", "silence")
            return
        found = re.fullmatch(r"reply (\d+) ([0-9a-f]+)", output)
        unfit_if(not found or int(found[1]) != worker, "no reply")
        self.judge(octets, bytes.fromhex(found[2]), transport, "query", is_heard)
        unfit_if(bytes.fromhex(found[2]) != reply, "another reply than the policy's")
        self.figures.count("queries of scripts", rcode_name(reply) if is_heard else "of a client outside")

    def judge(self, octets, reply, transport, way, is_heard):
        fault = judging.fault_of(octets, reply, transport, way, self.figures, is_heard)
        unfit_if(fault is not None, fault)


def pause(version, is_well):
    """The seconds until a zone is polled again: by the REFRESH of its SOA, or by its RETRY, 60 at the least; 300 where it never had one."""
    if version.soa is None:
        return LONE_RETRY
    refresh, retry = struct.unpack("!II", version.soa.octets[-16:-8])
    return max(LEAST_PAUSE, refresh if is_well else retry)


def outcome_of(found):
    """What came of a transfer, without its numbers."""
    return found[8].split()[0] if found[8] else found[0].split()[0]


def is_aged(fresh, reply):
    """Whether a reply is this one octet for octet, but for TTLs, which may be less."""
    records = reading.read_message(fresh).records()
    if without_ttls(fresh, records) != without_ttls(reply, records):
        return False
    return all(other.ttl <= one.ttl for one, other in zip(records, reading.read_message(reply).records(), strict=True))


def without_ttls(octets, records):
    """The octets, with zeros where these records have their TTLs."""
    copy = bytearray(octets)
    for record in records:
        copy[record.place + 4: record.place + 8] = bytes(4)
    return copy
