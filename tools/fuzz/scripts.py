"""Scripts for `rpz replay`: they grow in rounds, in which what workers have asked is answered, and then lines of them are mutated."""

import re
import subprocess

import mutations
import networks
import overrides
import policy
import shapes
import taking
import transfers
from dns_text import TYPES, Refused
from figures import Figures
from following import Follow, Unfit

SECONDS = 20  # that a run may take
MOST_MEMORY = 400 << 20  # octets of addresses that a run may have; it says so where it gets no more
ROUNDS, VARIANTS = 40, 40
TRIES = 300  # to make a script shorter that has failed
ANY_LINE = re.compile(r"the line \d+")
ADDRESSES = ("192.0.2.7", "127.0.0.1", "0.0.0.0", "255.255.255.255", "20010db8000000000000000000000001", "0" * 32)
IN_OCTETS = [bytes.fromhex(text) if len(text) == 32 else bytes(map(int, text.split("."))) for text in ADDRESSES]
PRIMARY = "192.0.2.53"
OVERRIDES = (b"given", b"disabled", b"nxdomain", b"nodata", b"passthru", b"drop", b"tcp-only", b"cname", b"off", b"NXDOMAIN", b"cname:a")
ODD_NUMBERS = (b"0", b"1", b"2", b"3", b"00000000001", b"0000000001", b"15", b"16", b"4294967295", b"4294967296", b"-1", b"+1", b"", b"1.")


def digits(octets):
    return octets.hex() or "-"


class Ended(Exception):
    """A run failed; it is written down."""


class Run:
    """Runs of `rpz replay`, and what is judged of them."""

    def __init__(self, program, chance, figures, findings):
        self.program, self.chance, self.figures, self.findings = program, chance, figures, findings

    def transcript(self, script):
        """What a run writes, its status and its errors."""
        try:
            words = ["sh", "-c", f'ulimit -v {MOST_MEMORY >> 10}; exec "$0" replay', self.program]
            done = subprocess.run(words, input=script, capture_output=True, timeout=SECONDS, check=False)
        except subprocess.TimeoutExpired:
            self.fail(f"replay: no end within {SECONDS} seconds", script)
        text = done.stdout.decode("latin-1")
        if text and not text.endswith("\n"):
            self.fail("replay: the last line isn't whole", script)
        return text.split("\n")[:-1], done.returncode, done.stderr.decode("latin-1")

    def fail(self, said, script):
        self.findings.add(said, script)
        raise Ended

    def judged(self, follow, lines, outputs, status, errors, script):
        try:
            return follow.run(lines, outputs, status, errors)
        except Unfit as why:
            said = ANY_LINE.sub("the line N", str(why))
            return self.fail(f"replay: {said}", self.shrunk(script, said))

    def shrunk(self, script, said):
        """The script without lines that the failure doesn't need, as far as some tries tell."""
        lines, size, tries = lines_of(script), max(1, script.count(b"\n") // 2), TRIES
        if self.fault(lines) != said:
            return script
        while size and tries:
            start = 0
            while start < len(lines) and tries:
                left, tries = lines[:start] + lines[start + size:], tries - 1
                if self.fault(left) == said:
                    lines = left
                else:
                    start += size
            size //= 2
        return b"\n".join(lines) + b"\n"

    def fault(self, lines):
        """What is wrong with the run of a script, or None."""
        script = b"\n".join(lines) + b"\n"
        try:
            Follow(Figures()).run(lines, *self.transcript(script))
        except Unfit as why:
            return ANY_LINE.sub("the line N", str(why))
        return None


class Growing:
    """A script that grows. `zones`: how many zones that transfers change, behind the one that stays; without it there is no zone at all,
    so that replies pass."""

    def __init__(self, run, zones):
        self.run, self.chance = run, run.chance
        self.zones = [transfers.Zone(self.chance, (b"odd%d" % number, b"rpz")) for number in range(zones)] if zones else []
        self.marked = set()  # zones that a line of this round has marked
        self.lines, self.outputs, self.legal = [], [], {}
        self.follow = Follow(run.figures, self.legal)
        self.names = [shapes.below(self.chance, transfers.TOP, 3) for _ in range(8)]
        self.types = self.chance.sample((1, 1, 2, 5, 16, 28, 255), 3)
        self.sent = [policy.probe(0)]  # messages, of which parts are spliced to others
        self.second = 0

    def add(self, line):
        self.lines.append(line.encode())

    def all_rounds(self):
        self.open()
        if self.zones:
            self.add(f"xfer 1 {digits(policy.transfer(0, TYPES['AXFR']))}")
            self.legal[len(self.lines)] = 1, len(policy.rows_of_zone())
        for _ in range(ROUNDS):
            before = len(self.lines)
            self.round()
            self.take(before)

    def open(self):
        """Lines of zones and of their primaries, and among them, in some scripts, those that say who may ask."""
        if self.zones:
            for name in (policy.ZONE, *(zone.name for zone in self.zones)):
                override = overrides.in_script(self.chance, overrides.drawn(self.chance))
                self.add(f"zone {b'.'.join(name).decode()}{override}")
            for number in range(1, len(self.zones) + 2):
                self.add(f"primary {number} {PRIMARY}")
        for text in networks.drawn(self.chance, IN_OCTETS) if self.chance.random() < 0.4 else ():
            self.lines.insert(self.chance.randrange(len(self.lines) + 1), f"allow {text}".encode())

    def take(self, before):
        """Runs the whole script; what was written before comes again, and what is new is judged."""
        script = b"\n".join(self.lines) + b"\n"
        outputs, status, errors = self.run.transcript(script)
        if outputs[:len(self.outputs)] != self.outputs:
            self.run.fail("replay: another transcript of the same lines", script)
        begun = self.follow.number
        self.run.judged(self.follow, self.lines[begun:], outputs[len(self.outputs):], status, errors, script)
        self.outputs = outputs

    def round(self):
        """Lines for what workers wait for, and new ones, in any order; one of each worker and zone, since the next depends on it."""
        self.marked.clear()
        makes = [lambda worker=worker: self.answer(worker) for worker in list(self.follow.state.pending)]
        free = [worker for worker in range(16) if worker not in self.follow.state.pending]
        makes += [lambda worker=worker: self.query(worker) for worker in self.chance.sample(free, self.chance.randrange(len(free) + 1))]
        makes += [lambda at=at: self.transfer(at) for at in range(len(self.zones)) if self.chance.random() < 0.7]
        others = (self.notify, self.due, self.clock, self.clock, self.clock, self.full, self.comment)
        makes += [self.chance.choice(others) for _ in range(self.chance.randrange(5))]
        self.chance.shuffle(makes)
        for make in makes:
            make()

    # -- lines

    def name(self):
        """A name to ask for: one of few, one of a rule, or any."""
        kind = self.chance.random()
        if kind < 0.4:
            return self.chance.choice(self.names)
        if kind < 0.5:
            return self.chance.choice(policy.NAMES)
        if kind < 0.85 and self.zones:
            return transfers.ruled_name(self.chance, self.chance.choice(self.zones).rows)
        return shapes.below(self.chance, self.chance.choice((transfers.TOP, policy.BASE, (), transfers.MARKER)), 5)

    def mixed(self, octets):
        """The message as it is, or mutated; kept for splicing."""
        self.sent.append(octets)
        return mutations.maybe(self.chance, octets, 0.3, self.chance.choice(self.sent))[:65_535]

    def query(self, worker):
        qtype = self.chance.choice(self.types) if self.chance.random() < 0.8 else None
        octets = self.mixed(shapes.query(self.chance, self.name(), qtype, self.chance.randrange(0x10000)))
        self.add(f"query {worker} {self.chance.choice(('udp', 'tcp'))} {self.chance.choice(ADDRESSES)} {digits(octets)}")

    def answer(self, worker):
        if self.chance.random() < 0.05:
            self.add(f"fail {worker}")
            return
        query, question = self.follow.state.pending[worker]
        self.add(f"give {worker} {digits(self.mixed(shapes.response(self.chance, query.asked, *question)))}")

    def transfer(self, at):
        """A transfer of a zone, whose primary has what was taken last."""
        zone, version = self.zones[at], self.follow.versions.get(at + 2, taking.Version(()))
        zone.adopt(version)
        in_steps = version.asks_for_steps() and at not in self.marked and self.chance.random() < 0.7
        octets, is_legal = transfers.stream(self.chance, zone, 0, transfers.IXFR if in_steps else transfers.AXFR, in_steps)
        self.add(f"xfer {at + 2} {digits(octets)}")
        if is_legal:
            self.legal[len(self.lines)] = zone.serial, len(zone.rows)

    def notify(self):
        zone = self.chance.choice([policy.ZONE, *(zone.name for zone in self.zones), (b"other",)])
        octets = mutations.maybe(self.chance, shapes.notify(self.chance, zone, self.chance.randrange(0x10000)), 0.4)
        self.add(f"notify {self.chance.choice((PRIMARY, PRIMARY, *ADDRESSES))} {digits(octets)}")

    def due(self):
        self.add("due")

    def clock(self):
        self.second = max(0, self.second + self.chance.choice((0, 1, 1, 1, 2, 3, 59, 60, 300, 86_400, -1, -1000)))
        self.add(f"clock {self.second}")

    def full(self):
        if self.zones:
            at = self.chance.randrange(len(self.zones))
            self.marked.add(at)
            self.add(f"full {at + 2}")

    def comment(self):
        self.add(self.chance.choice(("", "#", "# a comment")))


# ---- mutated scripts


def change_field(chance, line):
    """The line with another value in one of its fields; one of `zone` in some cases with a field more or less."""
    fields = line.split(b" ")
    at = chance.randrange(len(fields))
    if fields[0] == b"allow" and chance.random() < 0.7:
        fields[1:] = [networks.odd(chance, fields[-1].decode("latin-1")).encode("latin-1")]
    elif fields[0] == b"zone" and chance.random() < 0.5:
        others = (*OVERRIDES, b"garden.test", b"*.garden.test", b".", b"")
        fields = fields[:chance.randrange(2, 4)] + chance.sample(others, chance.randrange(3))
    elif at == 0:
        fields[0] = chance.choice((b"query", b"give", b"fail", b"xfer", b"zone", b"Zone", b"due", b"clock", b"notify", b"primary", b"full",
                                   b"allow"))
    elif len(fields[at]) > 40:
        fields[at] = changed_digits(chance, fields[at])
    else:
        fields[at] = chance.choice((*ODD_NUMBERS, b"udp", b"tcp", b"UDP", b"1.2.3.256", b"1.2.3", b"0" * 33, b"-", b"a..b", b"*" * 64, b"0",
                                    fields[at].upper(), fields[at] + b".", fields[at] + b"0", b"x.y", b"a" * 63 + b".y", *OVERRIDES))
    return b" ".join(fields)


def changed_digits(chance, text):
    """Digits of a message that is mutated, or that are none."""
    what = chance.random()
    if what < 0.6 and len(text) % 2 == 0:
        try:
            return digits(mutations.mutated(chance, bytes.fromhex(text.decode()))).encode()
        except ValueError:
            return text
    return chance.choice((text.upper(), text[:-1], text + b"g", text + b"0", text + b"00" * 66_000, text * 2))


def mutated_script(chance, lines):
    lines = list(lines)
    for _ in range(chance.choice((1, 1, 2, 4))):
        at, what = chance.randrange(len(lines)), chance.randrange(8)
        if what == 0 and len(lines) > 1:
            del lines[at]
        elif what == 1:
            lines.insert(at, lines[chance.randrange(len(lines))])
        elif what == 2:
            other = chance.randrange(len(lines))
            lines[at], lines[other] = lines[other], lines[at]
        elif what == 3 and lines[at]:
            lines[at] = mutations.mutated(chance, lines[at])
        elif what == 4:
            network = f"allow {networks.odd(chance, '192.0.2.0/24')}".encode()
            lines.insert(at, chance.choice((b"", b"#\t", b"#", b" ", b"\r", b"due ", b"# " + b"x" * 199_998, b"# " + b"x" * 199_999, network)))
        elif lines[at]:
            lines[at] = change_field(chance, lines[at])
    script = b"\n".join(lines) + chance.choice((b"\n", b"\n", b""))
    return mutations.mutated(chance, script) if chance.random() < 0.1 else script


def lines_of(script):
    lines = script.split(b"\n")
    return lines[:-1] if lines[-1] == b"" else lines


def one(run):
    """A script that grows, and its mutations."""
    try:
        growing = Growing(run, run.chance.choice((0, 1, 1, 2, 5)))
        growing.all_rounds()
        run.figures.count("scripts", "right in all rounds")
    except (Ended, Refused):
        run.figures.count("scripts", "given up")
        return
    for _ in range(VARIANTS):
        script = mutated_script(run.chance, growing.lines)
        try:
            is_whole = run.judged(Follow(run.figures), lines_of(script), *run.transcript(script), script)
            run.figures.count("mutated scripts", "read to their end" if is_whole else "refused at a line")
        except Ended:
            run.figures.count("mutated scripts", "given up")
