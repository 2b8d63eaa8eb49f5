"""What is asked, what the upstream answers, a policy zone, and the replies that these come to, drawn by chance of a seed.

The last label of a name that is asked for says of which kind it is. The six in front of it are a letter and the digits of a number, that of
the question or of the rule:
- `p`: as many CNAMEs as the letter says, and at their end records of the type that is asked for, or none, as a resolver passes them;
- `w`: any records, whose owners end in one another, as only a client takes them;
- `r`: the name of a rule, or one below it. What passes there is as with `p`.

A resolver that keeps answers finds no two of them that don't fit together: it is asked for each name once, and a name to which rules lead
has a CNAME for all types or for none.
"""

import itertools
import random
import socket
from typing import NamedTuple

import deciding
import peers
import reading
import rules
import shapes
import stations
import taking
import wire
from dns_text import LAYOUTS, TYPES, Message, Question, Record, encode, framed, opt_of

IN, UNKNOWN = 1, 65_280
A, AAAA, CNAME, SOA, TXT, ANY = (TYPES[name] for name in ("A", "AAAA", "CNAME", "SOA", "TXT", "ANY"))
STORED = (A, AAAA, TXT, *LAYOUTS)
ALONE = {TYPES[name] for name in ("CNAME", "SOA", "DNAME")}  # a name has one record of such a type
LIVE = [rtype for rtype in STORED if rtype not in rules.NEVER_LIVE | {CNAME}]
TTLS = (0, 1, 60, 300, 86_400, 0x7FFFFFFF)  # up to the greatest that RFC 2181, section 8, allows
SIZES = (None, None, 512, 1232, 4096)  # in the OPT records of queries
HOPS = (0, 0, 0, 0, 0, 0, 1, 1, 2, 3, 5, 11, 12, 15)
RESTARTS = 11  # CNAMEs of a chain that Unbound follows
COUNTS = (1, 1, 1, 2, 3, 8, 30, 100, 250)
DENIED = 0.08  # the share of answers without records, for each of two reasons
DIGITS = 5
BASE = DIGITS + 2  # labels
PLAIN, WILD, RULED = b"p", b"w", b"r"
TARGETS = 90_000  # from this number on names are those to which rules lead
MOST_OCTETS, MOST_PLAIN = 65_535, 50_000
ZONE = (b"z",)
RULES, PART = 200, 30  # of the zone; rows in a message of its transfer
PROBE = (b"probe", RULED)  # the name of a rule that denies
LOOPBACK = socket.inet_aton(peers.LOOPBACK)
NO_CACHE = deciding.Cache()  # stays empty


# ---- names and records


def base(kind, number, hops=0):
    return bytes([97 + hops]), *(b"%c" % digit for digit in b"%0*d" % (DIGITS, number)), kind


def hops_of(name):
    """Over how many CNAMEs a name in lower case leads."""
    return name[-BASE][0] - 97


def below(chance, name):
    """This name, or one below it, which in some cases has as many labels as a name can have."""
    made = shapes.below(chance, name, 3)
    if chance.random() < 0.1:
        while shapes.length_of(made) + 2 <= shapes.MOST_NAME:
            made = (chance.choice((b"a", b"b", b"B")), *made)
    return shapes.spelled(chance, made)


def family(chance, name):
    """Names many of which end in one another."""
    names = [name, ()]
    for _ in range(chance.choice((2, 5, 12, 30))):
        names.append(below(chance, chance.choice(names)))
    return names


def data(chance, rtype, names):
    """The parts of the data of a record of this type, with these names."""
    if rtype in LAYOUTS:
        return [chance.choice(names) if kind == "n" else chance.randbytes(int(kind)) for kind in LAYOUTS[rtype]]
    if rtype == TXT:
        return [b"".join(bytes([size]) + chance.randbytes(size) for size in chance.choices((0, 1, 20, 255), k=chance.randrange(1, 4)))]
    return shapes.data(chance, rtype, ())


def record(chance, owner, rtype, names):
    return Record(shapes.spelled(chance, owner), chance.choice(TTLS), IN, rtype, data(chance, rtype, names))


# ---- the upstream


class Upstream(stations.Upstream):
    """Answers what the seed and the question draw; a name of no kind, as that of the probe, which a rule denies, has no records."""

    def draw(self, name, qtype):
        if len(name) < BASE:
            return encode(Message(0, ("qr", "rd", "ra"), 0, reading.NOERROR, [Question(name, qtype)]))
        chance = random.Random(f"{self.seed} {name} {qtype}")
        rcode, answer, authority = self.wild(chance, name) if name[-1] == WILD else self.plain(chance, name, qtype)
        message = Message(0, ("qr", "rd", "ra"), 0, rcode, [Question(name, qtype)], answer, authority)
        message.additional = [record(chance, name, A, ())] if chance.random() < 0.2 else []
        while len(octets := encode(message, compressed=True)) > MOST_OCTETS:
            message.answer = message.answer[:len(message.answer) // 2]
        return octets

    def target(self, name):
        """To which name the CNAME of one leads."""
        chance = random.Random(f"{self.seed} target {name}")
        return below(chance, (bytes([name[-BASE][0] - 1]), *name[1 - BASE:]))

    def plain(self, chance, name, qtype):
        """The CNAMEs from a name on, and what stands at their end, which is the same from whichever of them it is asked."""
        answer = []
        while hops_of(name):
            answer.append(Record(shapes.spelled(chance, name), chance.choice(TTLS), IN, CNAME, [self.target(name)]))
            if qtype in (CNAME, ANY):
                return reading.NOERROR, answer, []
            name = reading.lower(answer[-1].parts[0])
        rcode, rows, authority = self.end(random.Random(f"{self.seed} end {name} {qtype}"), name, qtype)
        return rcode, answer + rows, authority

    @staticmethod
    def end(chance, name, qtype):
        names, kind = family(chance, chance.choice((name, name[-BASE:]))), chance.random()
        authority = [record(chance, name[-1:], SOA, names)]
        if kind < 2 * DENIED:
            return reading.NXDOMAIN if kind < DENIED else reading.NOERROR, [], authority
        types = chance.sample(LIVE, 3) if qtype == ANY else [qtype]
        rows = [record(chance, name, rtype, names) for rtype in types for _ in range(1 if rtype in ALONE else chance.choice(COUNTS))]
        while len(encode(Message(answer=rows))) > MOST_PLAIN:
            rows = rows[:len(rows) // 2]
        return reading.NOERROR, rows, authority if chance.random() < 0.3 else []

    @staticmethod
    def wild(chance, name):
        """Records of all types at names below this one and above, some of them behind the last place to which a pointer can lead."""
        names = family(chance, chance.choice((name, name[-BASE:])))
        answer = [record(chance, chance.choice((name, *names)), chance.choice(STORED), names) for _ in range(chance.choice(COUNTS))]
        if chance.random() < 0.1:
            size = shapes.POINTED - chance.randrange(40, 3000)
            answer.insert(chance.randrange(len(answer) + 1), Record(name, 60, IN, UNKNOWN, [bytes(size)]))
        authority = [record(chance, chance.choice(names), chance.choice((SOA, *STORED)), names) for _ in range(chance.randrange(3))]
        return chance.choice((0, 0, 0, 0, reading.NXDOMAIN)), answer, authority


# ---- the policy


def rule_rows(chance, trigger, number):
    """The rows of a rule."""
    owner, kind = (*trigger, *ZONE), chance.random()
    if kind < 0.5:
        names = family(chance, chance.choice((tuple(label for label in trigger if label != b"*"), ZONE)))
        return [record(chance, owner, chance.choice(LIVE), names) for _ in range(chance.choice(COUNTS[:-2]))]
    if kind < 0.7:
        target = below(chance, base(PLAIN, TARGETS + number, chance.choice((0, 0, 1, 3))))
        return [Record(owner, 60, IN, CNAME, [(b"*", *target[-BASE:]) if chance.random() < 0.3 else target])]
    return [Record(owner, 60, IN, CNAME, [chance.choice(((), (b"*",), (b"rpz-passthru",), (b"rpz-tcp-only",)))])]


def fits_zone(name):
    """Whether there is room for the zone behind a name, and for an asterisk in front, or a number in the place of it."""
    return shapes.length_of(name) + 1 + DIGITS <= shapes.MOST_NAME


def triggers(chance):
    """Names that rules are about, each with a number of its own."""
    for number in range(RULES):
        made = below(chance, base(RULED, number))
        while not fits_zone(made):
            made = made[1:]
        yield reading.lower((b"*", *made) if chance.random() < 0.6 else made)


class Policy:
    """The zone with rules about these names, as its primary sends it, and its rules as the model has them."""

    def __init__(self, chance, names):
        soa = Record(ZONE, 60, IN, SOA, [(b"ns", *ZONE), (b"Admin", *ZONE), *(number.to_bytes(4, "big") for number in (1, *[86_400] * 4))])
        rows = [Record((*PROBE, *ZONE), 60, IN, CNAME, [()])]
        rows += itertools.chain(*(rule_rows(chance, name, number) for number, name in enumerate(names)))
        self.records = [soa, *rows, soa]
        version = taking.taken(taking.Version(ZONE), self.transfer(0, TYPES["AXFR"]), 0)[1]
        self.rules = rules.rules_of(1, ZONE, version)

    def transfer(self, number, qtype):
        parts = [self.records[start:start + PART] for start in range(0, len(self.records), PART)]
        return b"".join(framed(encode(Message(number, ("qr", "aa"), 0, 0, [Question(ZONE, qtype)], part))) for part in parts)

    def serve(self, connection):
        request = wire.read_frame(connection)
        if request is not None:
            connection.sendall(self.transfer(wire.number_of(request), wire.question_type(request)))


# ---- queries and replies


class Asked(NamedTuple):
    """A question as a client spells it, and the size in its OPT record, if it has one."""
    name: tuple
    qtype: int
    size: int

    def octets(self, number):
        return encode(Message(number, ("rd",), 0, 0, [Question(self.name, self.qtype)], [], [], [opt_of(self.size)] if self.size else []))


def asked(chance, number, ruled):
    kind = chance.random()
    if kind < 0.3:
        trigger = chance.choice(ruled)
        name = shapes.spelled(chance, (b"%d" % number, *trigger[1:]) if trigger[0] == b"*" else trigger)
    else:
        name = below(chance, base(WILD, number) if kind < 0.6 else base(PLAIN, number, chance.choice(HOPS)))
    return Asked(name, chance.choice((*STORED, ANY)), chance.choice(SIZES))


class Reply(NamedTuple):
    """What a reply says; of each record of its sections the owner, the type, the class, the TTL, and the data with names in full."""
    rcode: int
    is_truncated: bool
    name: tuple
    qtype: int
    sections: list


class Query(deciding.Query):
    """One of which the records are kept that its reply has."""
    rcode, sections = reading.NOERROR, ((), (), ())

    def reply(self, rcode, answers=(), authority=(), additional=()):
        self.rcode, self.sections = rcode, (answers, authority, additional)
        return super().reply(rcode, answers, authority, additional)


class World:
    """The questions, the peers of the server, and what the model says of replies. `questions`: so many. `passed`: of those and of further
    ones such whose answers a resolver passes, each with a name of its own, and as many that Unbound follows to their end."""

    def __init__(self, seed, count, port):
        chance = random.Random(seed)
        self.upstream = Upstream(port, seed, stations.Events())
        ruled, drawn, names, self.passed, followed = list(triggers(chance)), [], set(), [], 0
        while followed < count:
            drawn.append(asked(chance, len(drawn), ruled))
            name = reading.lower(drawn[-1].name)
            if name[-1] != WILD and name not in names:
                names.add(name)
                self.passed.append(drawn[-1])
                followed += hops_of(name) <= RESTARTS
        self.questions = drawn[:count]
        self.policy = Policy(chance, [*ruled, *self.behind_aliases(chance)])
        self.listener = peers.serve_each(port + 1, self.policy.serve)

    def behind_aliases(self, chance):
        """Some names to which CNAMEs lead from names that are asked for."""
        for question in self.passed:
            name = first = reading.lower(question.name)
            hops = hops_of(name) if chance.random() < 0.1 else 0
            for _ in range(chance.randrange(hops + 1)):
                name = reading.lower(self.upstream.target(name))
            if name != first and fits_zone(name):
                yield name

    def replies(self, question):
        """The reply over UDP, and the one over TCP."""
        facts, made = {}, []
        for transport in ("udp", "tcp"):
            query = Query(question.octets(0), transport, LOOPBACK, self.policy.rules)
            query.facts = facts
            fact, octets = query.turn(NO_CACHE, 0)
            while fact is not None:
                facts[fact] = self.upstream.fact(fact)
                fact, octets = query.turn(NO_CACHE, 0)
            is_truncated = bool(octets[2] & 2)
            rows = [[] if is_truncated else list(map(row_of, section)) for section in query.sections]
            made.append(Reply(query.rcode, is_truncated, question.name, question.qtype, rows))
        return dict(zip(("udp", "tcp"), made, strict=True))

    def end(self):
        self.listener.end()
        self.upstream.listener.end()


def row_of(record):
    return record.owner, record.rtype, record.rclass, record.ttl, record.octets
