"""A server with its peers on the loopback, which are hostile: an upstream that answers with legal and with mutated responses, the primary
of the zone that stays, and the primary of a zone whose transfers are mutated."""

import collections
import contextlib
import functools
import random
import struct
import threading
import time

import deciding
import mutations
import networks
import overrides
import peers
import policy
import reading
import shapes
import rules
import taking
import transfers
import wire
from dns_text import TYPES, Message, Question, encode, framed

ODD = (b"odd", b"rpz")
V6_LOOPBACK = "::1"
MOST_EVENTS = 4 << 20  # digits of messages that are kept for the file of a failure
CACHE = 4_096
KEPT = 3_000  # questions of which the responses are kept
ALLOWED = ((), (), ("127.0.0.1/32",), ("127.0.0.0/29", "::/128"), ("127.0.0.1/32", "::1/128"), ("127.0.0.0/8", "2001:db8::/32"), ("0.0.0.0/0",))
ESTABLISHED = "01"  # in the table of connections that the system has


class Events:
    """The last messages, in order, as text."""

    def __init__(self):
        self.lock, self.lines, self.size = threading.Lock(), collections.deque(), 0

    def add(self, word, *octets):
        line = " ".join([word, *(one.hex() or "-" for one in octets)])
        with self.lock:
            self.lines.append(line)
            self.size += len(line)
            while self.size > MOST_EVENTS:
                self.size -= len(self.lines.popleft())

    def text(self):
        with self.lock:
            return list(self.lines)


def is_question(message, octets):
    """Whether it is a question alone as docs/FORMATS.md says of `ask`, but for its ID."""
    if message is None or message.name is None or message.name != reading.lower(message.name) or message.qclass != reading.IN:
        return False
    return octets[2:] == struct.pack("!5H", 0x0100, 1, 0, 0, 0) + message.question()


class Upstream:
    """Answers each question with a response that the seed and the question alone draw. `loses`: the share of questions that get none, one
    of another ID, or the end of their connection. `bad`: what came that is no question."""

    def __init__(self, port, seed, events):
        self.seed, self.events, self.loses = seed, events, 0.0
        self.figures, self.bad = {"given": 0, "lost": 0}, None
        self.drawn = functools.lru_cache(maxsize=KEPT)(self.draw)
        self.listener = peers.serve_each(port, self.serve)

    def draw(self, name, qtype):
        """The response to a question, with the ID 0."""
        chance = random.Random(f"{self.seed} {name} {qtype}")
        response = shapes.response(chance, 0, name, qtype)
        changed = mutations.mutated(chance, response, shapes.query(chance, name, qtype))[:65_535]
        # with a name that goes on in the ID it would depend on that what the response says
        if chance.random() < 0.4 and not any(pointer in changed for pointer in (b"\xc0\0", b"\xc0\1")):
            response = changed
        return bytes(2) + response[2:]

    def fact(self, question):
        """What the response to a question (a name in lower case and a type) comes to; None where it is no answer."""
        message = reading.usable(self.drawn(*question), 0, *question)
        return None if message is None else deciding.answer_of(message)

    def serve(self, connection):
        chance = random.Random(self.seed)
        while True:
            octets = wire.read_frame(connection)
            if octets is None:
                return
            question = reading.readable(octets)
            if not is_question(question, octets):
                self.bad = octets
                return
            if self.loses and chance.random() < self.loses:
                if not self.lose(connection, chance, octets):
                    return
                continue
            response = self.drawn(question.name, question.qtype)
            response = octets[:2] + response[2:]
            self.figures["given"] += 1
            self.events.add("upstream", octets, response)
            self.send(connection, chance, framed(response))

    def lose(self, connection, chance, octets):
        """Whether the connection goes on."""
        self.figures["lost"] += 1
        what = chance.randrange(5)
        self.events.add(f"upstream-loses-{what}", octets)
        if what == 0:
            return True
        if what == 1:
            connection.sendall(framed(bytes([octets[0] ^ 1]) + octets[1:2] + b"\x81\x80" + octets[4:]))
            return True
        if what == 2:
            connection.sendall(b"\xff\xff" + octets)
        elif what == 3:
            connection.sendall(b"\0\0" * 10)
        return False

    @staticmethod
    def send(connection, chance, octets):
        if chance.random() < 0.05:
            at = chance.randrange(len(octets))
            connection.sendall(octets[:at])
            time.sleep(0.001)
            octets = octets[at:]
        connection.sendall(octets)


def fixed_primary(port):
    """The primary of the zone that stays."""

    def serve(connection):
        request = wire.read_frame(connection)
        if request is not None:
            connection.sendall(policy.transfer(wire.number_of(request), wire.question_type(request)))

    return peers.serve_each(port, serve)


class OddPrimary:
    """The primary of the zone whose transfers are mutated. A poll that was ordered gets one; another is told that the zone is current, or
    nothing. `version`: the zone as the server has it. `wanted`: of each poll the line that the server has to write. `given`: of the poll
    that got the order its number, and whether its transfer was legal. `bad`: a request that isn't the one that the version leads to."""

    def __init__(self, port, chance, events):
        self.chance, self.events = chance, events
        self.zone, self.version = transfers.Zone(chance, ODD), taking.Version(ODD)
        self.is_ordered = False
        self.wanted, self.given, self.bad = [], None, None
        self.lock = threading.Lock()
        self.listener = peers.serve_each(port, self.serve)

    def serve(self, connection):
        request = wire.read_frame(connection)
        if request is None:
            return
        with self.lock:
            octets = self.answer(request)
        for start in range(0, len(octets), 20_000):
            connection.sendall(octets[start: start + 20_000])

    def answer(self, request):
        self.check(request)
        before, is_ordered = self.version, self.is_ordered
        octets, is_legal = self.ordered(request) if is_ordered else (self.current(request), False)
        line, self.version = taking.taken(before, octets, wire.number_of(request))
        self.events.add("transfer", request, octets)
        word, rest = line.split(" ", 1)
        self.wanted.append(f"{word} 2 {rest}")
        if is_ordered:
            self.is_ordered, self.given = False, (len(self.wanted), is_legal)
        return octets

    def check(self, request):
        """A request for steps tells the serial of the version; one for the whole zone comes where none is loaded, or it is marked."""
        question, wants = reading.readable(request), self.version.asks_for_steps()
        qtype = transfers.IXFR if wants else transfers.AXFR
        if question is None or not question.asks(ODD, qtype, reading.IN) or wants and wire.ixfr_serial(request) != self.version.serial:
            self.bad = request

    def ordered(self, request):
        """A transfer, and whether it is legal."""
        qtype = wire.question_type(request)
        in_steps = qtype == transfers.IXFR and self.chance.random() < 0.7
        self.zone.adopt(self.version)
        return transfers.stream(self.chance, self.zone, wire.number_of(request), qtype, in_steps)

    @staticmethod
    def current(request):
        """The SOA alone with the serial that the request has; nothing to a request for the whole zone."""
        if wire.question_type(request) != transfers.IXFR:
            return b""
        soa = transfers.Zone(random.Random(0), ODD).soa(wire.ixfr_serial(request))
        return framed(encode(Message(wire.number_of(request), ("qr", "aa"), 0, 0, [Question(ODD, transfers.IXFR)], [soa])))

    def order(self):
        with self.lock:
            self.given, self.is_ordered = None, True


class Station:
    """The server with its peers, which listens on both loopback addresses. `is_plain`: it has the zone that stays alone, so that most
    names pass. `override`: of the zone whose transfers are mutated. `allowed`: the networks of clients that may ask; the primaries are in
    one of them, or there is none."""

    def __init__(self, program, port, seed, is_plain):
        self.port, self.is_plain, self.chance = port, is_plain, random.Random(seed)
        self.events = Events()
        self.lines, self.read_octets = [], 0
        self.ruled, self.odd_rules = None, []
        self.override = overrides.drawn(self.chance)
        texts = self.chance.choice(ALLOWED)
        self.allowed = list(map(networks.read, texts))
        with contextlib.ExitStack() as ends:
            self.upstream = Upstream(port + 1, seed, self.events)
            ends.callback(self.upstream.listener.end)
            ends.callback(fixed_primary(port + 2).end)
            zones = [(".".join(label.decode() for label in policy.ZONE), port + 2)]
            if not is_plain:
                self.primary = OddPrimary(port + 3, self.chance, self.events)
                ends.callback(self.primary.listener.end)
                self.primary.order()
                zones.append((".".join(label.decode() for label in ODD), port + 3, overrides.in_words(self.chance, self.override)))
            options = ["--cache", str(CACHE), *(["--allow", ",".join(texts)] if texts else [])]
            self.server = peers.Server(program, port, port + 1, zones, self.chance.choice((1, 2, 4)), options, more_hosts=[V6_LOOPBACK])
            ends.callback(self.server.remove_files)
            ends.callback(self.server.end)
            self.server.wait_for(".".join(label.decode() for label in policy.name_of(b"nx")))
            time.sleep(0.1)
            self.descriptors = self.own_descriptors()
            self.ends = ends.pop_all()

    def own_descriptors(self):
        """Those of the server but for its connections to the upstream, which stay open until that closes them."""
        with open("/proc/net/tcp", encoding="ascii") as file:
            rows = [line.split() for line in file.readlines()[1:]]
        ends = sum(int(row[2].split(":")[1], 16) == self.port + 1 and row[3] == ESTABLISHED for row in rows)
        return self.server.descriptors() - ends

    def new_lines(self):
        """All lines of the server so far, of which the last may not be whole yet and is left out then."""
        with open(self.server.log, "rb") as file:
            file.seek(self.read_octets)
            octets = file.read()
        octets = octets[:octets.rfind(b"\n") + 1]
        self.read_octets += len(octets)
        self.lines += octets.decode("latin-1").splitlines()
        return self.lines

    def rules(self):
        """Those of all zones as they are, in order of precedence."""
        version = None if self.is_plain else self.primary.version
        if version is not self.ruled:
            self.ruled = version
            is_loaded = version is not None and version.serial is not None
            self.odd_rules = rules.rules_of(2, ODD, version, self.override) if is_loaded else []
        return [*policy.RULES, *self.odd_rules]

    def polls_of(self, zone):
        """The lines of polls of a zone."""
        return [line for line in self.new_lines() if line.split(" ")[1:2] == [str(zone)]]

    def end(self):
        self.ends.close()


def notify_octets(number, zone=ODD):
    return struct.pack("!6H", number, 4 << 11 | 0x0400, 1, 0, 0, 0) + reading.written(zone) + struct.pack("!HH", TYPES["SOA"], 1)
