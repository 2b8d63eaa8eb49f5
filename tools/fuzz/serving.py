"""Batches of hostile messages to a server over the loopback, and what is judged of its replies, its zones and itself."""

import contextlib
import socket
import time

import deciding
import judging
import mutations
import networks
import peers
import policy
import reading
import shapes
import stations
import transfers
import wire
from dns_text import TYPES
from following import POLL, is_aged, outcome_of, rcode_name

WINDOW = 120  # datagrams that are sent at a time
SMALL_WINDOW = 40  # the same where a query may need many questions
WAIT = 6.5  # a reply comes within 5 seconds; the machine may be busy
PROBED = 1.0
MOST_MEMORY = 200 << 20
MOST_DESCRIPTORS = 2  # more than at the start, once all is idle
SETTLES = 20.0
PATIENCE = 4.0  # seconds behind which a query's time may be over
LOSSY = 3.0  # seconds at the end of a run in which the upstream loses questions in some batches
LATE = 15.0  # seconds behind a batch with losses in which questions may still wait, or be asked one at a time
KEPT = 5_000  # queries of which the outcome is kept
NO_CACHE = deciding.Cache()  # stays empty
LOOPBACK = socket.inet_aton(peers.LOOPBACK)
SHARE_OF_STRANGERS = 0.1  # of messages over UDP, and of connections
MOST_SILENT = 8  # messages of a connection that get no reply: it is closed behind 16
STRANGERS = ("127.0.0.9", stations.V6_LOOPBACK)  # addresses that are no primary's


class Exchange:
    """Messages of one client over one socket, each with an ID of its own, and their replies."""

    def __init__(self, port, host, window):
        self.window = window
        self.sock = socket.socket(peers.family_of(host), socket.SOCK_DGRAM)
        self.sock.setsockopt(socket.SOL_SOCKET, socket.SO_RCVBUF, 4 << 20)
        self.sock.bind((host, 0))
        self.sock.connect((server_of(host), port))
        self.host, self.client = host, octets_of(host)
        self.number, self.sent, self.due, self.done = 0, {}, set(), set()

    def send(self, octets, word):
        """Sends a message with the next ID."""
        self.window.figures.tried[word] += 1
        self.number = (self.number + 1) & 0xFFFF
        octets = self.number.to_bytes(2, "big") + octets[2:] if len(octets) >= 2 else octets
        self.sent[self.number] = octets, word
        self.done.discard(self.number)
        self.due.discard(self.number)
        if self.window.must_answer(octets, "udp", self.client):
            self.due.add(self.number)
        self.window.station.events.add(word_of("udp", self.host), octets)
        with contextlib.suppress(ConnectionRefusedError):
            self.sock.send(octets)

    def receive(self, seconds):
        """Takes replies until all that must come are there, or the time is over."""
        end = time.monotonic() + seconds
        while True:
            self.sock.settimeout(max(0.0005, end - time.monotonic()) if self.due else 0.0005)
            try:
                self.take(self.sock.recv(65_535))
            except (TimeoutError, ConnectionRefusedError):
                if not self.due or time.monotonic() >= end:
                    return

    def take(self, reply):
        number = wire.number_of(reply)
        octets, word = self.sent.get(number, (b"", ""))
        self.due.discard(number)
        if number in self.done:
            self.window.fail("a second reply", octets, reply)
        elif len(octets) < 2:
            self.window.fail("a reply to an ID that wasn't asked", octets, reply)
        else:
            self.window.judge(octets, reply, "udp", word, self.client)
        self.done.add(number)


class Serving:
    """Drives one server. `figures` and `findings` are those of the job."""

    def __init__(self, station, figures, findings, seed):
        self.station, self.figures, self.findings, self.seed = station, figures, findings, seed
        self.chance, self.count = station.chance, 0
        self.own, *self.strangers = (Exchange(station.port, host, self) for host in (peers.LOOPBACK, *STRANGERS))
        self.ruled, self.outcomes = None, {}
        self.recent, self.dropped = [policy.probe(0)], 0
        self.sent_at, self.late_until = time.monotonic(), 0.0

    def fail(self, said, *octets):
        station = self.station
        zones = "the zone that stays alone" if station.is_plain else f"two zones, of which the second has {station.override}"
        head = [f"# {said}", f"# seed {self.seed}, {zones}",
                "# the last messages, in order, as hexadecimal digits; behind them the request and the reply that this is about"]
        lines = [f"# {line}" for line in station.new_lines()[-20:]]
        about = "about " + " ".join(one.hex() or "-" for one in octets)
        text = "\n".join([*head, *lines, *station.events.text(), about, ""])
        self.findings.add(f"serve: {said}", text.encode())

    # -- what is expected

    def outcome(self, octets, transport, client):
        """The reply that the policy and the upstream's responses come to, with fresh TTLs; None where none is sent."""
        rules = self.station.rules()
        if rules != self.ruled or len(self.outcomes) > KEPT:
            self.ruled, self.outcomes = rules, {}
        key = octets, transport, client
        if key not in self.outcomes:
            query = deciding.Query(octets, transport, client, rules)
            question, reply = query.turn(NO_CACHE, 0)
            while question is not None:
                query.facts[question] = self.station.upstream.fact(question)
                question, reply = query.turn(NO_CACHE, 0)
            self.outcomes[key] = reply
        return self.outcomes[key]

    def is_heard(self, client):
        """Whether a client may ask; the primaries may."""
        return networks.may_ask(self.station.allowed, client)

    def must_answer(self, octets, transport, client):
        """Whether it must be answered. What has the opcode of a NOTIFY may be dropped where others came in the same second."""
        kind, _ = reading.triage(octets, "serve", self.is_heard(client))
        if kind == "silence" or octets[2] >> 3 & 15 == reading.NOTIFY:
            return False
        return kind != "query" or self.outcome(octets, transport, client) is not None

    def judge(self, octets, reply, transport, word, client):
        """Counts a reply, or says what is wrong with it."""
        is_heard = self.is_heard(client)
        self.figures.count(word, "less than a header" if len(reply) < 4 else rcode_name(reply) if is_heard else "to a client outside")
        fault = judging.fault_of(octets, reply, transport, "serve", self.figures, is_heard)
        if fault is None:
            fault = self.content_fault(octets, reply, transport, client)
        if fault is not None:
            self.fail(fault, octets, reply)

    def content_fault(self, octets, reply, transport, client):
        """What is wrong with the reply to a NOTIFY or a query."""
        kind, request = reading.triage(octets, "serve", self.is_heard(client))
        if kind == "notify":
            accepts = client == LOOPBACK and any(request.asks(zone, TYPES["SOA"], reading.IN) for zone in self.zones())
            wanted = reading.refusal(octets, request, reading.NOERROR if accepts else reading.REFUSED)
            return None if reply == wanted else "another reply to a NOTIFY"
        if kind != "query":
            return None
        if self.is_late() and deciding.Query(octets, transport, client, self.station.rules()).turn(NO_CACHE, 0)[0] is not None:
            self.figures.count("replies to queries", "late, not compared")
            return None
        wanted = self.outcome(octets, transport, client)
        if wanted is None:
            return "a reply though a rule drops the query"
        self.figures.count("replies to queries", "compared with the policy's")
        return None if is_aged(wanted, reply) else "another reply than the policy's"

    def is_late(self):
        """Whether questions may have got no answer in time."""
        now = time.monotonic()
        if now - self.sent_at > PATIENCE:
            self.late_until = now + LATE
        return self.station.upstream.loses > 0 or now < self.late_until

    def zones(self):
        return (policy.ZONE,) if self.station.is_plain else (policy.ZONE, stations.ODD)

    # -- messages

    def unique(self):
        """A name that wasn't asked before."""
        self.count += 1
        return shapes.below(self.chance, (b"u%d" % self.count, b"p%d" % (self.count % 97), b"test"), 2)

    def name(self):
        kind = self.chance.random()
        if kind < 0.3:
            return self.chance.choice(policy.NAMES)
        if kind < 0.7 or self.station.is_plain:
            return self.unique()
        return transfers.ruled_name(self.chance, self.station.primary.version.rows)

    def message(self):
        """A message, and what it is counted as."""
        kind = self.chance.random()
        if kind < 0.05:
            zone = self.chance.choice((policy.ZONE, stations.ODD, (b"other",)))
            octets = shapes.notify(self.chance, zone, self.chance.randrange(0x10000))
            return mutations.maybe(self.chance, octets, 0.5, self.chance.choice(self.recent)), "NOTIFYs"
        if kind < 0.1:
            return self.chance.randbytes(self.chance.choice((0, 1, 2, 11, 12, 13, 40, 600, 4000))), "random octets"
        octets = shapes.query(self.chance, self.name(), None, self.chance.randrange(0x10000))
        self.recent = [*self.recent[-50:], octets]
        if kind < 0.5:
            return octets, "queries"
        return mutations.mutated(self.chance, octets, self.chance.choice(self.recent))[:60_000], "mutated queries"

    def datagrams(self):
        self.sent_at = time.monotonic()
        for _ in range(WINDOW if self.station.is_plain else SMALL_WINDOW):
            octets, word = self.message()
            exchange = self.chance.choice(self.strangers) if self.chance.random() < SHARE_OF_STRANGERS else self.own
            exchange.send(octets, f"{word} over UDP")
        for exchange in (self.own, *self.strangers):
            exchange.receive(WAIT)
            if exchange.due:
                self.lost(exchange)

    def lost(self, exchange):
        """Replies that are missing, unless the system dropped what was sent."""
        missing = [exchange.sent[number][0] for number in exchange.due]
        exchange.due.clear()
        if self.is_late() and not self.station.is_plain:
            # without their answers other rules may decide, which drop
            self.figures.count("replies to queries", "late, none came", len(missing))
            return
        lost = dropped(self.station.port) - self.dropped
        self.dropped += lost
        self.figures.count("datagrams that the system dropped", "queries", lost)
        if len(missing) > lost:
            again = "" if all(asked(self.station.port, octets, exchange.host) is None for octets in missing[:3]) else ", but to the same query again"
            self.fail(f"no reply over UDP{again}", *missing[:3])

    # -- connections

    def connection(self):
        """Messages of one connection, in pieces; the last may have a wrong length in front of it."""
        chance, parts, silent = self.chance, [], 0
        host = chance.choice(STRANGERS) if chance.random() < SHARE_OF_STRANGERS else peers.LOOPBACK
        client = octets_of(host)
        for _ in range(chance.choice((1, 2, 5, 12, 30))):
            octets, word = self.message()
            silent += not self.must_answer(octets, "tcp", client)
            if silent <= MOST_SILENT:
                parts.append((octets, f"{word} over TCP"))
        stream = b"".join(wire.frame(octets) for octets, _ in parts)
        if chance.random() < 0.1:
            stream = stream[:chance.randrange(len(stream) + 1)]
        elif chance.random() < 0.1:
            stream += chance.randbytes(chance.choice((1, 2)))
        messages = whole_frames(stream)
        words = [word for _, word in parts][:len(messages)] + ["mutated queries over TCP"] * (len(messages) - len(parts))
        self.figures.tried.update(words)
        self.station.events.add(word_of("tcp", host), stream)
        replies = self.exchange_stream(host, stream, sum(self.must_answer(octets, "tcp", client) for octets in messages))
        if replies is not None:
            self.match(messages, words, replies, client)

    def exchange_stream(self, host, stream, wanted):
        """Sends octets over a connection and takes so many replies, those to NOTIFYs not counted, and what comes at once behind them."""
        chance, replies = self.chance, []
        self.sent_at = time.monotonic()
        try:
            with socket.create_connection((server_of(host), self.station.port), WAIT, (host, 0)) as sock:
                for part in in_pieces(chance, stream):
                    sock.sendall(part)
                if chance.random() < 0.5:
                    sock.shutdown(socket.SHUT_WR)
                end = time.monotonic() + WAIT
                with contextlib.suppress(TimeoutError):
                    while sum(reply[2:3] != b"" and reply[2] >> 3 & 15 != reading.NOTIFY for reply in replies) < wanted:
                        sock.settimeout(max(0.001, end - time.monotonic()))
                        if (reply := wire.read_frame(sock)) is None:
                            break
                        replies.append(reply)
                sock.settimeout(0.001)
                with contextlib.suppress(OSError):
                    while (reply := wire.read_frame(sock)) is not None:
                        replies.append(reply)
        except OSError as why:
            self.fail(f"a connection: {type(why).__name__}", stream)
            return None
        return replies

    def match(self, messages, words, replies, client):
        """Each reply is one to a message of the connection that has none yet; each message that must be answered has one."""
        left = list(zip(messages, words, strict=True))
        for reply in replies:
            fits = [pair for pair in left if pair[0][:2] == reply[:2] and reading.triage(pair[0], "serve")[0] != "silence"]
            best = [pair for pair in fits if self.seems_fit(pair[0], reply, client)] or fits
            if not best:
                self.fail("a reply over TCP to no message", *messages, reply)
                continue
            left.remove(best[0])
            self.judge(best[0][0], reply, "tcp", best[0][1], client)
        missing = [octets for octets, _ in left if self.must_answer(octets, "tcp", client)]
        if missing and (self.station.is_plain or not self.is_late()):
            self.fail("no reply over TCP", *missing[:3])

    def seems_fit(self, octets, reply, client):
        """Whether a reply may be the one to a message, of several with one ID."""
        is_heard = self.is_heard(client)
        exact, request = reading.exact(octets, "serve", is_heard), reading.triage(octets, "serve", is_heard)[1]
        if exact is not None:
            return reply == exact
        return reply[reading.HEADER:].startswith(request.question())

    # -- transfers

    def transfer(self):
        """Has the server poll the odd zone, and looks at what comes of it; whether the zone is known behind it."""
        primary, self.sent_at = self.station.primary, time.monotonic()
        primary.order()
        end = time.monotonic() + WAIT
        while not self.is_polled() and time.monotonic() < end:
            if primary.given is None:
                self.own.send(stations.notify_octets(0), "NOTIFYs over UDP")
            time.sleep(0.02)
            self.own.receive(0.001)
        return self.judge_poll()

    def is_polled(self):
        """Whether the poll that was ordered has its line."""
        primary = self.station.primary
        return primary.given is not None and len(self.station.polls_of(2)) >= primary.given[0]

    def judge_poll(self):
        """Looks at the lines so far, and at what is in force; whether they are what the transfers come to."""
        primary, lines = self.station.primary, self.station.polls_of(2)
        if not self.is_polled():
            self.fail("no line of a poll")
            return False
        number, is_legal = primary.given
        found = POLL.fullmatch(lines[number - 1])
        self.figures.count("transfers of a server", outcome_of(found) if found else lines[number - 1])
        if lines != primary.wanted[:len(lines)] or primary.bad is not None:
            self.fail("another line of a poll, or another request of a primary", *filter(None, [primary.bad]))
            return False
        if is_legal and not lines[number - 1].startswith("taken"):
            self.fail("a legal transfer isn't taken")
        self.wait_in_force()
        return True

    def wait_in_force(self):
        """What is in force at once is the version behind the transfer, whether it was taken or not: the marker's reply shows it."""
        query = wire.query(1, "marker.test")
        wanted, end = self.outcome(query, "udp", LOOPBACK), time.monotonic() + PROBED
        if wanted is None or self.is_late():
            return
        while (reply := asked(self.station.port, query)) is None or not is_aged(wanted, reply):
            if time.monotonic() > end:
                self.fail("another version is in force behind a transfer", query, reply or b"", wanted)
                return
            time.sleep(0.01)

    # -- the server itself

    def probe(self):
        """Whether the server lives and answers by a rule that stays; whether it is within its memory."""
        status = self.station.server.process.poll()
        if status is not None:
            self.fail(f"the server has ended with status {status}")
            return False
        query = policy.probe(7)
        begun = time.monotonic()
        reply = asked(self.station.port, query)
        if reply != self.outcome(query, "udp", LOOPBACK) or time.monotonic() - begun > PROBED:
            self.fail("the probe isn't answered as it was", query, reply or b"")
        if self.station.server.peak() > MOST_MEMORY:
            self.fail(f"more than {MOST_MEMORY >> 20} MiB")
            return False
        if self.station.upstream.bad is not None:
            self.fail("what the upstream is asked is no question", self.station.upstream.bad)
            self.station.upstream.bad = None
        return True

    def settle(self):
        """All descriptors but a few are given back once nothing goes on, and each line was one of a poll."""
        for line in self.station.new_lines():
            if not POLL.fullmatch(line):
                self.fail(f"a line that is none of a poll: {line}")
        end, most = time.monotonic() + SETTLES, self.station.descriptors + MOST_DESCRIPTORS
        while (found := self.station.own_descriptors()) > most and time.monotonic() < end:
            time.sleep(0.1)
        if found > most:
            self.fail(f"{found} descriptors at the end, {self.station.descriptors} at the start")

    def batch(self, may_lose):
        """One batch; whether the server can go on."""
        chance = self.chance
        upstream = self.station.upstream
        if upstream.loses:
            self.late_until = time.monotonic() + LATE
        upstream.loses = 0.05 if may_lose and chance.random() < 0.5 else 0.0
        kind = chance.random()
        if kind < 0.5:
            self.datagrams()
        elif kind < 0.8 or self.station.is_plain:
            for _ in range(10):
                self.connection()
        elif not self.transfer():
            return False
        return self.probe()

    def run(self, seconds):
        end = time.monotonic() + seconds
        goes_on = self.station.is_plain or self.begin()
        while goes_on and time.monotonic() < end:
            goes_on = self.batch(time.monotonic() > end - LOSSY)
        for exchange in (self.own, *self.strangers):
            exchange.receive(0.05)
            exchange.sock.close()
        if self.station.server.process.poll() is None:
            self.settle()
        for outcome, count in self.station.upstream.figures.items():
            self.figures.count("answers of the upstream", outcome, count)

    def begin(self):
        """Looks at the line of the first transfer of the odd zone, which came at the start."""
        end = time.monotonic() + WAIT
        while not self.is_polled() and time.monotonic() < end:
            time.sleep(0.01)
        return self.judge_poll()


# ---- sockets


def server_of(host):
    """Where the server listens for a client at this address."""
    return stations.V6_LOOPBACK if ":" in host else peers.LOOPBACK


def octets_of(host):
    return socket.inet_pton(peers.family_of(host), host)


def word_of(transport, host):
    """What the file of a failure says in front of a message."""
    return transport if host == peers.LOOPBACK else f"{transport}-of-a-stranger-at-{host}"


def asked(port, query, host=peers.LOOPBACK):
    """The reply to one query over UDP, from a socket of its own; None where none comes in time."""
    with socket.socket(peers.family_of(host), socket.SOCK_DGRAM) as sock:
        sock.settimeout(WAIT)
        sock.bind((host, 0))
        sock.connect((server_of(host), port))
        try:
            sock.send(query)
            return sock.recv(65_535)
        except OSError:
            return None


def dropped(port):
    """How many datagrams the system has dropped that found no room in the buffers of the server's sockets."""
    rows = []
    for path in ("/proc/net/udp", "/proc/net/udp6"):
        with open(path, encoding="ascii") as file:
            rows += [line.split() for line in file.readlines()[1:]]
    return sum(int(row[-1]) for row in rows if int(row[1].split(":")[1], 16) == port)


def whole_frames(stream):
    """The messages of a stream that are whole."""
    out, at = [], 0
    while at + 2 <= len(stream) and at + 2 + int.from_bytes(stream[at: at + 2], "big") <= len(stream):
        end = at + 2 + int.from_bytes(stream[at: at + 2], "big")
        out.append(stream[at + 2: end])
        at = end
    return out


def in_pieces(chance, stream):
    """The stream cut at some places."""
    ends = sorted(chance.sample(range(len(stream) + 1), min(len(stream), chance.choice((0, 0, 1, 3, 20)))))
    return [stream[start:end] for start, end in zip([0, *ends], [*ends, len(stream)], strict=True) if end > start]
