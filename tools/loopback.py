#!/usr/bin/env python3
"""loopback.py: what a server does over sockets, tried on the built program with peers on the loopback.

    python3 tools/loopback.py PROGRAM [CASE ..] [--port N] [--jobs N]
    python3 tools/loopback.py --list

Each case starts PROGRAM (`rpz`) with a small primary and a small upstream (tools/attack/peers.py), on ports of its own from N on (24000),
and looks at what goes there and back: datagrams, connections, limits of time, endpoints, NOTIFYs, transfers, and questions to the
upstream. A case that fails is tried once more by itself, since its limits of time are those of a machine with little else to do.
Prints a line for each case that fails then, too, and at the end `N passed, M failed`; the status is 1 if one failed. It takes some 15
seconds. Nothing of it needs a proof: no contract says what a socket carries. What holds under floods is tried by tools/attack. On a host
without version 6 of IP its cases pass by, and a line says so.
"""
import argparse
import contextlib
import pathlib
import signal
import socket
import sys
import threading
import time
import traceback
from concurrent.futures import ThreadPoolExecutor

sys.path.insert(0, str(pathlib.Path(__file__).resolve().parent / "attack"))

import wire  # noqa: E402
from peers import LOOPBACK, ZONE, Primary, Server, Upstream, ask, ask_over_tcp, listener  # noqa: E402

NXDOMAIN, REFUSED, SERVFAIL = 3, 5, 2
BLOCKED = "bad.example"
PORTS = 10  # of each case
V6, OTHER = "::1", "127.0.0.2"
CASES = []


class Failed(Exception):
    pass


def has_version_6():
    with contextlib.suppress(OSError), socket.socket(socket.AF_INET6) as sock:
        sock.bind(("::1", 0))
        return True
    return False


def expect(holds, said):
    if not holds:
        raise Failed(said)


def case(run):
    CASES.append(run)
    return run


def of_version_6(run):
    """A case that needs version 6 of IP."""
    if has_version_6():
        return case(run)
    print(f"loopback: {run.__name__} isn't tried: no version 6 of IP here")
    return run


class Scene:
    """A server with a primary at `port + 2`, whose one rule blocks `bad.example`, and an upstream at `port + 1`."""

    def __init__(self, program, port, *, options=(), workers=1, turns="forever", upstream=Upstream, primaries=None, wait=True, **more):
        self.port, self.ends = port, contextlib.ExitStack()
        with contextlib.ExitStack() as ends:
            self.upstream = upstream(port + 1)
            ends.callback(self.upstream.end)
            self.primary = Primary(port + 2, [BLOCKED])
            ends.callback(self.primary.end)
            zones = [(ZONE, port + 2)] if primaries is None else primaries
            self.server = Server(program, port, port + 1, zones, workers, options, turns=turns, **more)
            ends.callback(self.server.remove_files)
            ends.callback(self.server.end)
            if wait:
                self.server.wait_for(BLOCKED)
            self.ends = ends.pop_all()

    def __enter__(self):
        return self

    def __exit__(self, *why):
        self.ends.close()

    def connect(self, host=LOOPBACK, source=None):
        sock = socket.create_connection((host, self.port), 5, source_address=(source, 0) if source else None)
        sock.settimeout(5)
        return sock


def query(number, name=BLOCKED):
    return wire.query(number, name)


def datagrams(host=LOOPBACK, source=None):
    sock = socket.socket(socket.AF_INET6 if ":" in host else socket.AF_INET, socket.SOCK_DGRAM)
    if source:
        sock.bind((source, 0))
    sock.settimeout(3)
    return sock


def replies(sock, count):
    """So many replies on a connection: (ID, rcode) of each."""
    found = [wire.read_frame(sock) for _ in range(count)]
    expect(None not in found, f"the connection ended before {count} replies")
    return [(wire.number_of(reply), wire.rcode_of(reply)) for reply in found]


def seconds_until_end(sock):
    """How long it takes until the server closes a connection."""
    begun = time.monotonic()
    sock.settimeout(20)
    with contextlib.suppress(ConnectionError):
        while sock.recv(4096):
            pass
    return time.monotonic() - begun


# ---- clients


@case
def a_query_is_answered_over_udp_and_tcp(program, port):
    with Scene(program, port) as it:
        expect(ask(port, BLOCKED, 2) == NXDOMAIN, "a rule over UDP")
        expect(ask_over_tcp(port, BLOCKED, 2) == NXDOMAIN, "a rule over TCP")
        expect(ask(port, "fresh.example", 2) == 0, "the upstream over UDP")
        expect(ask_over_tcp(port, "fresher.example", 2) == 0, "the upstream over TCP")
        expect(it.upstream.questions == 2, f"{it.upstream.questions} questions upstream")


@case
def a_length_goes_out_with_its_message(program, port):
    """In one segment (RFC 7766, section 8)."""
    with Scene(program, port) as it, it.connect() as sock:
        for number in range(20):
            sock.sendall(wire.frame(query(number)))
            part = sock.recv(65_535)
            expect(len(part) == 2 + int.from_bytes(part[:2], "big"), f"{len(part)} octets come first")


@case
def messages_come_however_they_are_cut(program, port):
    """Three at once; one behind which the next begins; and the rest of that."""
    with Scene(program, port) as it, it.connect() as sock:
        frames = [wire.frame(query(number)) for number in range(5)]
        for sent, count in ((b"".join(frames[:3]), 3), (frames[3] + frames[4][:1], 1), (frames[4][1:], 1)):
            sock.sendall(sent)
            replies(sock, count)
        sock.shutdown(socket.SHUT_WR)
        expect(sock.recv(8) == b"", "more comes behind the last reply")


@case
def slow_clients_have_ten_seconds(program, port):
    """One that says nothing, and one that sends a long message octet by octet."""
    def drips(sock):
        with contextlib.suppress(OSError):
            sock.sendall(b"\xea\x60")
            while True:
                sock.sendall(b"x")
                time.sleep(0.2)

    with Scene(program, port) as it, it.connect() as silent, it.connect() as slow:
        threading.Thread(target=drips, args=(slow,), daemon=True).start()
        with ThreadPoolExecutor(2) as pool:
            for took in pool.map(seconds_until_end, (silent, slow)):
                expect(9.5 < took < 11.5, f"closed after {took:.1f} s")


@case
def no_client_holds_a_worker(program, port):
    """32 that send half of a message, and 32 that send messages of 60,000 octets and read no reply."""
    with Scene(program, port) as it, contextlib.ExitStack() as ends:
        long = query(1) + bytes(60_000 - len(query(1)))
        for number in range(64):
            sock = ends.enter_context(it.connect(source=f"127.0.0.{10 + number}"))
            sock.sendall(wire.frame(long)[:4_200] if number % 2 else wire.frame(long))
        begun = time.monotonic()
        expect(ask_over_tcp(port, BLOCKED, 3) == NXDOMAIN and ask(port, BLOCKED, 3) == NXDOMAIN, "another client isn't answered")
        expect(time.monotonic() - begun < 2, "another client waits")


@case
def connections_have_their_turns(program, port):
    """A client with 2,000 pipelined queries keeps another one waiting for no more than a moment."""
    with Scene(program, port) as it, it.connect() as many, it.connect(source=OTHER) as other:
        many.sendall(b"".join(wire.frame(query(number)) for number in range(2_000)))
        begun = time.monotonic()
        other.sendall(wire.frame(query(7)))
        expect(replies(other, 1) == [(7, NXDOMAIN)], "no reply")
        expect(time.monotonic() - begun < 0.5, "the other client waits")
        expect(len(replies(many, 2_000)) == 2_000, "replies are missing")


@case
def later_replies_reach_a_client_that_sends_no_more(program, port):
    """In the order in which they come (RFC 7766, section 6.2.1.1); then the connection ends."""
    with Scene(program, port) as it, it.connect() as sock:
        sock.sendall(wire.frame(query(1, "slow.example")) + wire.frame(query(2)))
        sock.shutdown(socket.SHUT_WR)
        expect(replies(sock, 2) == [(2, NXDOMAIN), (1, 0)], "the order of the replies")
        expect(sock.recv(8) == b"", "the connection goes on")


@case
def as_many_connections_are_open_as_admitted(program, port):
    """Of two, with one of each client: the third closes the one that is idle for longest, a second after it was opened."""
    with Scene(program, port, options=("--tcp-clients", "2", "--tcp-per-client", "1")) as it:
        with it.connect(source="127.0.0.3") as first, it.connect(source="127.0.0.4") as second:
            time.sleep(1.1)
            with it.connect(source="127.0.0.5") as third:
                expect(seconds_until_end(first) < 3, "the first stays")
                for sock in (second, third):
                    sock.sendall(wire.frame(query(1)))
                    expect(replies(sock, 1) == [(1, NXDOMAIN)], "a later one isn't answered")


@case
def the_last_turn_ends_the_server(program, port):
    """Each arrival takes one; what is pending is answered first, and the line of the sums comes."""
    with Scene(program, port, turns=3, wait=False) as it:
        with datagrams() as sock:
            time.sleep(0.5)
            for number, name in ((1, "slow.example"), (2, BLOCKED), (3, "other.example")):
                sock.sendto(query(number, name), (LOOPBACK, port))
            found = sorted(wire.number_of(sock.recv(4096)) for _ in range(3))
        expect(found == [1, 2, 3], f"replies to {found}")
        expect(it.server.process.wait(5) == 0, "the status")
        expect(it.server.lines()[-1] == "served 3 reply 3 silent 0 memory 0 failed 0", it.server.lines()[-1])


@case
def a_signal_ends_what_waits(program, port):
    """SIGTERM beside a question that the upstream never answers."""
    with Scene(program, port) as it, datagrams() as sock:
        sock.sendto(query(1, "hang.example"), (LOOPBACK, port))
        time.sleep(0.2)
        begun = time.monotonic()
        it.server.process.send_signal(signal.SIGTERM)
        it.server.process.wait(5)
        expect(time.monotonic() - begun < 1, "it takes over a second")


# ---- endpoints


@of_version_6
def each_reply_leaves_from_its_endpoint(program, port):
    with Scene(program, port, more_hosts=(OTHER, V6)) as it:
        for host in (LOOPBACK, OTHER, V6):
            with datagrams(host) as sock:
                sock.sendto(query(9), (host, port))
                reply, sender = sock.recvfrom(4096)
            expect(sender[:2] == (host, port) and wire.rcode_of(reply) == NXDOMAIN, f"{host}: a reply from {sender}")
            with it.connect(host) as sock:
                sock.sendall(wire.frame(query(10)))
                expect(replies(sock, 1) == [(10, NXDOMAIN)], f"{host} over TCP")


@case
def all_endpoints_are_bound_or_none(program, port):
    with socket.socket() as taken:
        taken.bind((OTHER, port))
        taken.listen()
        with Scene(program, port, more_hosts=(OTHER,), wait=False) as it:
            expect(it.server.process.wait(5) == 6, "the status")
            expect(any(f"{OTHER}:{port}" in line for line in it.server.complaints()), "standard error doesn't say which")
        with socket.socket() as first:
            first.bind((LOOPBACK, port))


@of_version_6
def both_versions_of_ip_are_served(program, port):
    """With the primary and the upstream on version 6. Of version 4 one client alone may ask; the primary's NOTIFY is heard all the same."""
    with contextlib.ExitStack() as ends:
        upstream, primary = Upstream(port + 1, host=V6), Primary(port + 2, [BLOCKED], host=V6)
        ends.callback(upstream.end)
        ends.callback(primary.end)
        server = Server(program, port, port + 1, [(ZONE, port + 2)], 1, ("--allow", f"{LOOPBACK}/32"), more_hosts=(V6,), peers=V6)
        ends.callback(server.remove_files)
        ends.callback(server.end)
        server.wait_for(BLOCKED)
        expect(ask(port, "fresh.example", 2) == 0 and ask_over_tcp(port, BLOCKED, 2) == NXDOMAIN, "a client that may ask")
        expect(ask(port, BLOCKED, 2, host=V6) == REFUSED and ask_over_tcp(port, BLOCKED, 2, host=V6) == REFUSED, "one that may not")
        primary.change("next.example")
        with datagrams(V6) as sock:
            sock.sendto(wire.notify(3, ZONE), (V6, port))
            expect(wire.rcode_of(sock.recv(512)) == 0, "the primary's NOTIFY")
        server.wait_for("next.example", seconds=3)


@of_version_6
def an_endpoint_of_version_6_hears_nothing_of_version_4(program, port):
    with Scene(program, port, host="::", wait=False) as it:
        it.server.host = V6
        it.server.wait_for(BLOCKED)
        expect(ask(port, BLOCKED, 0.3) is None, "an answer over UDP of version 4")
        expect(ask_over_tcp(port, BLOCKED, 0.3) is None, "a connection of version 4")
        with datagrams() as beside:
            beside.bind((LOOPBACK, port))


# ---- NOTIFYs and transfers


def notified(sock, port, count):
    """The rcodes of the replies to so many NOTIFYs, sent at once."""
    for number in range(count):
        sock.sendto(wire.notify(number, ZONE), (LOOPBACK, port))
    found = []
    with contextlib.suppress(TimeoutError):
        while len(found) < count:
            found.append(wire.rcode_of(sock.recv(512)))
    return found


@case
def notifies_of_a_primary_all_come(program, port):
    """And of another address one in a second, which is refused (RFC 1996, section 3.10)."""
    with Scene(program, port), datagrams() as primary, datagrams(source=OTHER) as other:
        other.settimeout(0.5)
        expect(notified(primary, port, 3) == [0, 0, 0], "the primary's")
        expect(notified(other, port, 3) == [REFUSED], "a stranger's")


@case
def a_notify_leads_to_a_transfer(program, port):
    """Over UDP and over TCP."""
    with Scene(program, port) as it:
        for number, over_tcp in enumerate((False, True)):
            rule = f"new{number}.example"
            it.primary.change(rule)
            expect(it.primary.notify(port, over_tcp) == 0, "the reply to the NOTIFY")
            it.server.wait_for(rule, seconds=3)


@case
def a_silent_primary_holds_nobody(program, port):
    """It takes the connection, by its system alone; and one where nobody is, of which a line says so."""
    silent = socket.socket()
    silent.bind((LOOPBACK, port + 3))
    silent.listen()
    with silent, Scene(program, port, primaries=[(ZONE, port + 2), ("two.example", port + 3), ("three.example", port + 4)]) as it:
        expect(ask(port, BLOCKED, 0.5) == NXDOMAIN, "a rule of another zone")
        it.primary.change("next.example")
        it.primary.notify(port)
        it.server.wait_for("next.example", seconds=3)
        expect("refused 3 FetchFault" in it.server.lines(), f"{it.server.lines()}")


# ---- the upstream


class Echo:
    """An upstream whose connections are served by a function, each in a thread of its own. How many it had, and how many at a time."""

    def __init__(self, port, serve):
        self.serve, self.lock, self.all, self.open, self.most = serve, threading.Lock(), 0, 0, 0
        self.sock = listener(port)
        threading.Thread(target=self.accept, daemon=True).start()

    def accept(self):
        with contextlib.suppress(OSError):
            while True:
                connection, _ = self.sock.accept()
                connection.setsockopt(socket.IPPROTO_TCP, socket.TCP_NODELAY, 1)
                threading.Thread(target=self.serve_one, args=(connection,), daemon=True).start()

    def serve_one(self, connection):
        with self.lock:
            self.all, self.open = self.all + 1, self.open + 1
            self.most, number = max(self.most, self.open), self.all
        with connection, contextlib.suppress(OSError):
            self.serve(connection, number)
        with self.lock:
            self.open -= 1

    def end(self):
        with contextlib.suppress(OSError):
            self.sock.shutdown(socket.SHUT_RDWR)
        self.sock.close()


def echo(serve):
    return lambda port: Echo(port, serve)


def questions(connection):
    while (message := wire.read_frame(connection)) is not None:
        yield message


def answer_to(message):
    return wire.frame(wire.answer(message, ttl=600))


@case
def an_answer_has_the_id_of_its_question(program, port):
    """Two messages without a number and one of another number come first, and then a long answer in pieces. IDs are drawn anew."""
    seen = []

    def serve(connection, _):
        for message in questions(connection):
            seen.append(wire.number_of(message))
            connection.sendall(b"\0\0\0\x01x" + wire.frame(bytes([message[0] ^ 1]) + message[1:]))
            whole = wire.frame(wire.large_answer(message, 600))
            for start in range(0, len(whole), 20_000):
                connection.sendall(whole[start: start + 20_000])

    with Scene(program, port, upstream=echo(serve)) as it, it.connect() as sock:
        for number in range(32):
            sock.sendall(wire.frame(wire.query(number, f"n{number}.example", wire.TXT)))
            reply = wire.read_frame(sock)
            expect(wire.number_of(reply) == number and len(reply) > 59_000, f"{len(reply)} octets with the ID {wire.number_of(reply)}")
    expect(len(set(seen)) > 28, "IDs come again")


@case
def answers_come_in_any_order(program, port):
    """Of one connection, the second question's first."""
    def serve(connection, _):
        waiting = []
        for message in questions(connection):
            waiting.append(message)
            if len(waiting) == 2:
                connection.sendall(b"".join(map(answer_to, reversed(waiting))))
                waiting.clear()

    with Scene(program, port, upstream=echo(serve)) as it, it.connect() as sock:
        sock.sendall(wire.frame(query(1, "one.example")) + wire.frame(query(2, "two.example")))
        expect(sorted(replies(sock, 2)) == [(1, 0), (2, 0)], "an answer is missing")
        expect(it.upstream.all == 1, f"{it.upstream.all} connections")


@case
def questions_wait_for_no_other(program, port):
    """What a rule decides waits for no question, of its connection neither; and two askers ask beside each other."""
    with Scene(program, port, options=("--askers", "2")) as it, it.connect() as sock, datagrams() as beside:
        begun = time.monotonic()
        for number, name in ((1, "slow.one.example"), (2, "slow.two.example"), (3, BLOCKED)):
            sock.sendall(wire.frame(query(number, name)))
        beside.sendto(query(4), (LOOPBACK, port))
        expect(wire.rcode_of(beside.recv(512)) == NXDOMAIN and replies(sock, 1) == [(3, NXDOMAIN)], "what a rule decides")
        expect(time.monotonic() - begun < 0.7, "what a rule decides waits")
        expect(sorted(replies(sock, 2)) == [(1, 0), (2, 0)], "the answers of the upstream")
        expect(time.monotonic() - begun < 1.8, "one question waits for the other")


@case
def a_question_goes_round_a_late_answer(program, port):
    """It is asked on another connection, once one is late on the first."""
    def serve(connection, number):
        for message in questions(connection):
            if number > 1:
                connection.sendall(answer_to(message))

    with Scene(program, port, upstream=echo(serve)) as it, it.connect() as sock:
        sock.sendall(wire.frame(query(1, "late.example")))
        time.sleep(0.8)
        begun = time.monotonic()
        sock.sendall(wire.frame(query(2, "soon.example")))
        expect(replies(sock, 1) == [(2, 0)], "the second question's answer")
        expect(time.monotonic() - begun < 1, "it waits")


@case
def a_silent_upstream_costs_the_time_once(program, port):
    """A question that got no answer fails at once when it is asked again (RFC 9520, section 3.2)."""
    with Scene(program, port) as it:
        it.upstream.is_stopped = True
        for most, least in ((5.6, 4.5), (0.3, 0.0)):
            begun = time.monotonic()
            expect(ask(port, "lost.example", 7) == SERVFAIL, "the reply")
            took = time.monotonic() - begun
            expect(least <= took <= most, f"it took {took:.1f} s")


@case
def a_late_answer_ends_what_is_remembered(program, port):
    """An answer that comes when nobody waits any more says that the upstream is well: the question is asked again. Another question
    keeps the connection open meanwhile."""
    seen = []

    def serve(connection, _):
        for message in questions(connection):
            name = wire.question_name(message)
            seen.append(name)
            if len(seen) == 1:
                time.sleep(5.12)
            if name != "hang.example":
                connection.sendall(answer_to(message))

    with Scene(program, port, upstream=echo(serve)), datagrams() as late, datagrams() as other:
        late.settimeout(7)
        late.sendto(query(1, "late.example"), (LOOPBACK, port))
        time.sleep(0.3)
        other.sendto(query(2, "hang.example"), (LOOPBACK, port))
        expect(wire.rcode_of(late.recv(512)) == SERVFAIL, "the first reply")
        time.sleep(0.8)
        expect(ask(port, "late.example", 2) == 0, "the second one")


def misses(port, count, label):
    with ThreadPoolExecutor(count) as pool:
        return list(pool.map(lambda n: ask(port, f"{label}{n}.example", 6), range(count)))


@case
def many_questions_share_few_connections(program, port):
    """Eight at most (RFC 7766, section 6.2.2)."""
    def serve(connection, _):
        for message in questions(connection):
            time.sleep(0.01)
            connection.sendall(answer_to(message))

    with Scene(program, port, upstream=echo(serve)) as it:
        expect(set(misses(port, 100, "m")) == {0}, "a question fails")
        expect(1 <= it.upstream.most <= 8, f"{it.upstream.most} connections at a time")


@case
def an_upstream_that_closes_gets_one_question_each(program, port):
    """Once two connections were closed behind one answer."""
    def serve(connection, _):
        connection.sendall(answer_to(wire.read_frame(connection)))

    with Scene(program, port, upstream=echo(serve)) as it:
        misses(port, 8, "first")
        time.sleep(0.5)
        expect(set(misses(port, 24, "next")) == {0}, "a question fails")
        expect(it.upstream.all >= 24, f"{it.upstream.all} connections")


def outcome(run, program, port):
    try:
        run(program, port)
    except Failed as why:
        return str(why)
    except Exception:
        return traceback.format_exc(limit=4).strip().replace("\n", " | ")
    return None


def main():
    words = argparse.ArgumentParser()
    words.add_argument("program", nargs="?")
    words.add_argument("cases", nargs="*")
    words.add_argument("--port", type=int, default=24_000)
    words.add_argument("--jobs", type=int, default=8)
    words.add_argument("--list", action="store_true")
    options = words.parse_args()
    if options.list:
        print(*(run.__name__ for run in CASES), sep="\n")
        return 0
    if options.program is None:
        words.error("PROGRAM is missing")
    if unknown := set(options.cases) - {run.__name__ for run in CASES}:
        words.error(f"no such case: {', '.join(sorted(unknown))}")
    wanted = [(run, options.port + PORTS * place) for place, run in enumerate(CASES) if not options.cases or run.__name__ in options.cases]
    with ThreadPoolExecutor(options.jobs) as pool:
        found = list(pool.map(lambda it: outcome(it[0], options.program, it[1]), wanted))
    again = [it for it, why in zip(wanted, found, strict=True) if why]
    failed = [(run.__name__, why) for run, port in again if (why := outcome(run, options.program, port))]
    for name, why in failed:
        print(f"loopback: {name}: {why}")
    print(f"{len(wanted) - len(failed)} passed, {len(failed)} failed")
    return 1 if failed else 0


if __name__ == "__main__":
    sys.exit(main())
