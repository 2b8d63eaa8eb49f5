"""Attacks by way of the upstream: bad answers, floods of misses, and questions that take long."""

import concurrent.futures
import contextlib
import os
import socket
import threading
import time

import replies
import wire
from bad_upstreams import FOREIGN, KINDS, RIGHT, BadUpstream, DelayedUpstream, SerialUpstream
from harness import CACHED, OTHERS, RULED, SLOWEST, alone, case, fail_if, repeated
from peers import LOOPBACK, ZONE, Primary, Server, Upstream, ask

CLIENTS = [f"127.0.2.{n + 1}" for n in range(20)]
LEAST = 30  # misses a second that are answered where far more are asked, of an upstream that answers in turn
AT_A_TIME = 6  # servers beside one another in `bad_answers`


def outcome(reply, seconds):
    """What a client got, in a few words."""
    if reply is None:
        return "no reply"
    return f"{content(reply)} {'at once' if seconds < 1 else f'after {seconds:.0f} s'}"


def content(reply):
    if reply.is_truncated:
        return "TC"
    if reply.rcode == 2:
        return "SERVFAIL"
    if reply.answers:
        return f"{len(reply.answers)} record{'s' if len(reply.answers) > 1 else ''}"
    soa = " with a SOA" if [record.rtype for record in reply.authority] == [wire.SOA] else ""
    return {0: "no data", 3: "NXDOMAIN"}.get(reply.rcode, f"rcode {reply.rcode}") + soa


# ---- bad answers


class Trial:
    """One kind of fault, at a server of its own."""

    def __init__(self, upstream, port, label):
        self.upstream, self.port, self.label, self.kind = upstream, port, label, KINDS[label]
        self.faults = []

    def expect(self, transport, wanted, reply, seconds):
        got = outcome(reply, seconds)
        if got != wanted:
            self.faults.append(f"{transport} {got} for {wanted}")

    def ask_both(self):
        """The replies over UDP and over TCP, whose names differ."""
        with concurrent.futures.ThreadPoolExecutor(1) as beside:
            later = beside.submit(replies.over_tcp, self.port, f"{self.label}.tcp.test", 8)
            over_udp = replies.over_udp(self.port, f"{self.label}.udp.test", 8)
            return over_udp, later.result()

    def run(self):
        """What the kind came to, in a few words."""
        try:
            self.ask_all()
        except replies.Malformed as why:
            self.faults.append(f"malformed: {why}")
        return f"{self.label} {'; '.join(self.faults) or self.kind.udp}"

    def ask_all(self):
        """Asks, and asks again where it counts whether the answer is kept."""
        over_udp, over_tcp = self.ask_both()
        self.expect("UDP", self.kind.udp, *over_udp)
        self.expect("TCP", self.kind.tcp, *over_tcp)
        if self.kind.is_kept is not None:
            self.ask_both()
            asked = self.upstream.asked[f"{self.label}.udp.test"]
            if asked != (1 if self.kind.is_kept else 2):
                self.faults.append(f"{asked} questions went upstream for two of a client")
        if self.label == "foreign":
            self.try_foreign(over_udp[0])

    def try_foreign(self, reply):
        """The other name's record passes to the client in the answer section alone, and is never used for the other name."""
        if reply is None or reply.authority or reply.additional:
            self.faults.append("records of another name in the authority or additional section")
        elif [record.data for record in reply.answers] != [socket.inet_aton(RIGHT), socket.inet_aton(FOREIGN)]:
            self.faults.append("not both records of the answer section")
        victim, _ = replies.over_udp(self.port, "victim.test", 2)
        if victim is None or [record.data for record in victim.answers] != [socket.inet_aton(RIGHT)]:
            self.faults.append("victim.test hasn't got its own address alone")


@alone
def bad_answers(program, port, workers):
    """An upstream with each kind of bad answer: what its client gets over UDP and over TCP, and whether it is kept."""
    upstream, primary = BadUpstream(port + 1), Primary(port + 2, RULED)
    free = list(range(port + 3, port + 3 + AT_A_TIME))

    def attempt(label):
        own = free.pop()
        server = Server(program, own, upstream.port, [(ZONE, primary.port)], workers)
        try:
            server.wait_for(RULED[0])
            trial = Trial(upstream, own, label)
            return trial.run(), trial.faults
        finally:
            server.end()
            free.append(own)

    try:
        with concurrent.futures.ThreadPoolExecutor(AT_A_TIME) as threads:
            done = list(threads.map(attempt, KINDS))
    finally:
        upstream.end()
        primary.end()
    said = ", ".join(text for text, _ in done)
    fail_if(any(faults for _, faults in done), said)
    return said


@case(upstream=BadUpstream)
def mixed_bad_answers(it):
    """80 misses a second of 20 clients, with each kind of bad answer in turn."""
    labels = list(KINDS)
    with flood(it.port, 80, lambda number: f"{labels[number % len(labels)]}.n{number}.d{number % 97}.test") as sent:
        yield
    fail_if(sent[0] < 200, f"{sent[0]} misses were sent: that was no attack")
    return f"{sent[0]} misses of {len(labels)} kinds"


# ---- many misses


@contextlib.contextmanager
def flood(port, rate, name_of):
    """Sends so many queries a second of the clients in turn, for the names that it makes of their numbers, and reads no reply. It gives
    a list, whose item counts them."""
    sent, stop = [0], threading.Event()

    def send_all(socks):
        begun = time.monotonic()
        while not stop.wait(0.01):
            for number in range(sent[0], int(rate * (time.monotonic() - begun))):
                socks[number % len(socks)].sendto(wire.query(number & 0xFFFF, name_of(number)), (LOOPBACK, port))
                sent[0] += 1

    with contextlib.ExitStack() as stack:
        socks = [stack.enter_context(client(address)) for address in CLIENTS]
        thread = threading.Thread(target=send_all, args=(socks,))
        thread.start()
        stack.callback(thread.join)
        stack.callback(stop.set)
        yield sent


def client(address):
    sock = socket.socket(socket.AF_INET, socket.SOCK_DGRAM)
    sock.bind((address, 0))
    return sock


def probe_until(it, end):
    """Has further probers ask until then, whose queries have to be answered as those of the first one."""
    time.sleep(max(0.0, min(6.0, end - time.monotonic())))
    while time.monotonic() < end:
        udp_lost, udp_slow, tcp_lost, tcp_slow = it.prober().result()
        said = f"later: UDP lost {udp_lost}, slowest {1000 * udp_slow:.1f} ms; TCP lost {tcp_lost}, slowest {1000 * tcp_slow:.1f} ms"
        fail_if(udp_lost or tcp_lost or max(udp_slow, tcp_slow) > SLOWEST, said)


@case(most=200 << 20)
def misses_beyond_a_hung_upstream(it):
    """4,400 misses a second of 20 clients for 15 s, while the upstream hangs; then it is back."""
    it.upstream.is_stopped = True
    begun = time.monotonic()
    with flood(it.port, 4400, lambda number: f"m{number}.dead{number % 997}.test") as sent:
        yield lambda: probe_until(it, begun + 15)
        took = time.monotonic() - begun
    it.upstream.is_stopped = False
    fail_if(sent[0] < 3000 * took, f"{sent[0]:,} misses in {took:.0f} s: that was no flood")
    return f"{sent[0]:,} misses in {took:.0f} s"


@case(upstream=DelayedUpstream)
def one_name_of_forty_clients(it):
    """40 clients ask for one name at once, for which the upstream takes 0.3 s: one question goes upstream, and all are answered."""
    it.upstream.delays["wanted.test"] = 0.3
    answered = 0
    with contextlib.ExitStack() as stack:
        socks = [stack.enter_context(client(f"127.0.3.{n + 1}")) for n in range(40)]
        for number, sock in enumerate(socks):
            sock.settimeout(3)
            sock.sendto(wire.query(number, "www.wanted.test"), (LOOPBACK, it.port))
        for number, sock in enumerate(socks):
            with contextlib.suppress(TimeoutError):
                reply = replies.read(sock.recv(4096), wire.query(number, "www.wanted.test"))
                answered += reply.rcode == 0 and len(reply.answers) == 1
    asked = it.upstream.asked["www.wanted.test"]
    yield
    fail_if(asked != 1 or answered != 40, f"{asked} questions went upstream, {answered} of 40 clients were answered")
    return "one question went upstream, and 40 clients were answered"


# ---- questions that take long


def long_name(number):
    """A name of 102 labels."""
    return ".".join(["a"] * 100 + [f"held{number}", "test"])


def ask_long_names(it, delay):
    """One datagram for each worker, with a name about which 101 NS questions are asked, of an upstream that takes so long for each."""
    it.primary.change("ns.elsewhere.example.rpz-nsdname")
    it.takes_change("nsdname.example")
    for name in CACHED:
        ask(it.port, name, 5)
    it.upstream.delays.update((f"held{number}.test", delay) for number in range(it.workers))
    with contextlib.ExitStack() as stack:
        socks = [stack.enter_context(client(CLIENTS[number])) for number in range(it.workers)]
        threads = stack.enter_context(concurrent.futures.ThreadPoolExecutor(it.workers))
        begun = time.monotonic()
        for number, sock in enumerate(socks):
            sock.sendto(wire.query(number, long_name(number)), (LOOPBACK, it.port))
        later = [threads.submit(time_of_reply, sock, begun) for sock in socks]
        yield
        times = [each.result() for each in later]
    held = sum(count for name, count in it.upstream.asked.items() if "held" in name)
    fail_if(None in times, f"{times.count(None)} of the {it.workers} long names got no reply within 8 s")
    fail_if(held < it.workers, "the long names weren't asked about")
    fail_if(max(times) > 6, f"the reply to a long name came after {max(times):.1f} s")
    return f"{held} questions about {it.workers} long names, whose replies came after {min(times):.1f} to {max(times):.1f} s"


def time_of_reply(sock, begun):
    """Seconds until a reply was read; None where none comes within 8 s."""
    sock.settimeout(max(0.01, begun + 8 - time.monotonic()))
    try:
        sock.recv(4096)
    except TimeoutError:
        return None
    return time.monotonic() - begun


@case(others=True, upstream=DelayedUpstream)
def long_names_and_a_slow_upstream(it):
    """NSDNAME rules, a name of 102 labels for each worker, and an upstream that takes 1 s for each question about them."""
    return (yield from ask_long_names(it, 1.0))


@case(others=True, upstream=DelayedUpstream)
def long_names_and_a_silent_upstream(it):
    """NSDNAME rules, a name of 102 labels for each worker, and an upstream that never answers a question about them."""
    return (yield from ask_long_names(it, None))


@alone
def upstream_is_listen(program, port, workers):
    """UPSTREAM is LISTEN: ruled names are answered, a miss gets SERVFAIL, and nothing goes round for ever."""
    primary = Primary(port + 2, RULED)
    server = Server(program, port, port, [(ZONE, primary.port)], workers)
    try:
        server.wait_for(RULED[0])
        with flood(port, 20, lambda number: f"round{number}.d{number}.test"):
            slowest = slowest_ruled(port, 5)
        reply, seconds = replies.over_udp(port, "last.test", 8)
        time.sleep(7)
        before = processor_time(server)
        time.sleep(3)
        used = processor_time(server) - before
        said = f"ruled names within {1000 * slowest:.0f} ms; a miss: {outcome(reply, seconds)}; then {used:.2f} s of processor time in 3 s"
        fail_if(slowest > SLOWEST or reply is None or reply.rcode != 2 or used > 0.3, said)
        return f"{said}, {server.descriptors()} descriptors"
    finally:
        server.end()
        primary.end()


class ClosingUpstream(Upstream):
    """Answers one question on each connection, and closes it."""

    def serve(self, connection):
        self.connections += 1
        message = wire.read_frame(connection)
        if message is not None:
            self.reply(connection, threading.Lock(), message)


def least_descriptors(server):
    """The fewest descriptors of some looks within a second, so that a connection that is open for a transfer doesn't count."""
    looks = []
    for _ in range(20):
        looks.append(server.descriptors())
        time.sleep(0.05)
    return min(looks)


def ended_connections(program, port, workers, beside):
    """What 200 questions leave of descriptors where the upstream ends each connection. `beside`: what goes on meanwhile, of the primary and
    the port."""
    upstream, primary = ClosingUpstream(port + 1), Primary(port + 2, RULED)
    server = Server(program, port, upstream.port, [(ZONE, primary.port)], workers)
    try:
        server.wait_for(RULED[0])
        with beside(primary, port):
            time.sleep(1)
            before = least_descriptors(server)
            with concurrent.futures.ThreadPoolExecutor(20) as threads:
                got = list(threads.map(lambda number: ask(port, f"m{number}.d{number}.test", 8), range(200)))
            time.sleep(3)
            behind = least_descriptors(server)
        said = f"{got.count(0)} of {len(got)} answered over {upstream.connections} connections; {before} descriptors before, {behind} behind"
        fail_if(behind > before or upstream.connections < 100, said)
        return said, primary.transfers
    finally:
        server.end()
        upstream.end()
        primary.end()


@alone
def connections_that_the_upstream_ends(program, port, workers):
    """An upstream that closes each connection behind an answer, and nobody asks any more: their descriptors are given up."""
    return ended_connections(program, port, workers, lambda primary, port: contextlib.nullcontext())[0]


@alone
def ended_connections_beside_transfers(program, port, workers):
    """The same while one transfer follows another, four in a second at the least."""

    def changes(primary, port):
        def change(number):
            primary.change(f"changed{number}.example")
            primary.notify(port)

        return repeated(change, 0.05)

    begun = time.monotonic()
    said, transfers = ended_connections(program, port, workers, changes)
    rate = transfers / (time.monotonic() - begun)
    said = f"{said}; {rate:.0f} transfers a second"
    fail_if(rate < 4, said)
    return said


def slowest_ruled(port, seconds):
    """The slowest of queries for ruled names, one after another for so long."""
    slowest, end = 0.0, time.monotonic() + seconds
    while time.monotonic() < end:
        begun = time.monotonic()
        fail_if(ask(port, RULED[0], 3) != 3, "a ruled name isn't answered")
        slowest = max(slowest, time.monotonic() - begun)
        time.sleep(0.005)
    return slowest


def processor_time(server):
    with open(f"/proc/{server.process.pid}/stat", encoding="ascii") as file:
        user, system = file.read().rpartition(")")[2].split()[11:13]
    return (int(user) + int(system)) / os.sysconf("SC_CLK_TCK")


class Asker:
    """Misses at a steady rate from one socket, and when each was answered."""

    def __init__(self, port, rate, seconds, mark):
        self.port, self.rate, self.seconds, self.mark = port, rate, seconds, mark
        self.sent, self.times, self.failed = {}, [], 0
        self.is_over = threading.Event()

    def run(self):
        with socket.socket(socket.AF_INET, socket.SOCK_DGRAM) as sock:
            sock.setsockopt(socket.SOL_SOCKET, socket.SO_RCVBUF, 4 << 20)
            sock.settimeout(0.2)
            reader = threading.Thread(target=self.read_all, args=(sock,))
            reader.start()
            begun = time.monotonic()
            for number in range(int(self.rate * self.seconds)):
                self.sent[number & 0xFFFF] = time.monotonic()
                sock.sendto(wire.query(number & 0xFFFF, f"{self.mark}{number}.d{number % 97}.test"), (LOOPBACK, self.port))
                time.sleep(max(0.0, begun + (number + 1) / self.rate - time.monotonic()))
            time.sleep(2)
            self.is_over.set()
            reader.join()
        return self

    def read_all(self, sock):
        while not self.is_over.is_set():
            with contextlib.suppress(TimeoutError):
                message = sock.recv(4096)
                if wire.rcode_of(message) == 0:
                    self.times.append(time.monotonic() - self.sent[wire.number_of(message)])
                else:
                    self.failed += 1


@case(upstream=SerialUpstream)
def answers_in_turn(it):
    """An upstream that answers the questions of a connection one after another, 30 ms each: 60 misses a second, then 400."""
    it.upstream.delay = 0.03
    few = Asker(it.port, 60, 5, "few")
    yield few.run
    lost, slowest = 300 - len(few.times), max(few.times, default=0.0)
    many = Asker(it.port, 400, 5, "many").run()
    it.upstream.delay = 0.0
    said = f"60 a second: lost {lost}, slowest {1000 * slowest:.0f} ms"
    said = f"{said}; of 400 a second {len(many.times) / 5:.0f} are answered, {many.failed / 5:.0f} fail"
    fail_if(lost or slowest > OTHERS or len(many.times) < 5 * LEAST, said)
    return said


CASES = [
    bad_answers,
    mixed_bad_answers,
    misses_beyond_a_hung_upstream,
    one_name_of_forty_clients,
    long_names_and_a_slow_upstream,
    long_names_and_a_silent_upstream,
    upstream_is_listen,
    answers_in_turn,
    connections_that_the_upstream_ends,
    ended_connections_beside_transfers,
]
