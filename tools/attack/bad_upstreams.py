"""Upstreams that misbehave, and what a client has to get of each kind of fault."""

import collections
import contextlib
import struct
import threading
from typing import Callable, NamedTuple

import wire
from peers import KEPT, serve_each

NS, CNAME, TXT = 2, 5, 16
RIGHT = "192.0.2.9"  # what `wire.answer` gives
FOREIGN = "6.6.6.6"


def right(message):
    return wire.answer(message, ttl=KEPT)


class Answerer:
    """A connection of an upstream: sends whole messages of several threads, and waits for no longer than the upstream is there."""

    def __init__(self, connection, over):
        self.connection, self.over, self.lock = connection, over, threading.Lock()

    def send(self, octets):
        with self.lock:
            self.connection.sendall(octets)

    def send_later(self, seconds, octets):
        def wait():
            if not self.over.wait(seconds):
                with contextlib.suppress(OSError):
                    self.send(octets)

        threading.Thread(target=wait, daemon=True).start()

    def send_each_second(self, octets):
        """Sends an octet a second."""
        for octet in octets:
            self.send(bytes([octet]))
            if self.over.wait(1):
                return


class ScriptedUpstream:
    """An upstream over TCP that does with each question what `act` says, which gets an `Answerer` and the message, and returns whether
    the connection is closed. It counts the questions of each name."""

    def __init__(self, port, act):
        self.port, self.act = port, act
        self.asked = collections.Counter()
        self.over = threading.Event()
        self.stop = serve_each(port, self.serve).end

    def serve(self, connection):
        answerer = Answerer(connection, self.over)
        while not self.over.is_set():
            message = wire.read_frame(connection)
            if message is None:
                return
            self.asked[wire.question_name(message)] += 1
            if self.act(answerer, message):
                return

    def end(self):
        self.over.set()
        self.stop()


def answers_after(seconds_of):
    """An upstream that answers a name after so many seconds, and never where they are None."""

    def act(answerer, message):
        seconds = seconds_of(wire.question_name(message))
        if seconds == 0:
            answerer.send(wire.frame(right(message)))
        elif seconds is not None:
            answerer.send_later(seconds, wire.frame(right(message)))

    return act


class DelayedUpstream(ScriptedUpstream):
    """An upstream that answers after `delay` seconds, and never where that is None; `delays` has those of a domain's names."""

    def __init__(self, port, delay=0.0):
        self.delay, self.delays = delay, {}
        super().__init__(port, answers_after(self.delay_of))

    def delay_of(self, name):
        for domain, delay in self.delays.items():
            if name == domain or name.endswith(f".{domain}"):
                return delay
        return self.delay


class SerialUpstream(ScriptedUpstream):
    """An upstream that answers the questions of a connection one after another, each `delay` seconds behind the one before."""

    def __init__(self, port, delay=0.0):
        self.delay = delay
        super().__init__(port, self.answer_in_turn)

    def answer_in_turn(self, answerer, message):
        self.over.wait(self.delay)
        answerer.send(wire.frame(right(message)))


# ---- kinds of faults: what is sent to a question, whose answer is right otherwise


def response(message, records=(), rcode=0, flags=0x8180, authority=(), additional=()):
    """A response with these records."""
    counts = struct.pack("!HHHHH", flags | rcode, 1, len(records), len(authority), len(additional))
    question = message[12:wire.question_end(message)]
    return message[:2] + counts + question + b"".join([*records, *authority, *additional])


def address(owner, text=RIGHT, ttl=60):
    return wire.record(owner, wire.A, bytes(map(int, text.split("."))), ttl)


def sends(make):
    """A fault whose message is made of the question."""

    def act(answerer, message):
        answerer.send(wire.frame(make(message)))

    return act


def never(answerer, message):
    pass


def half_and_holds(answerer, message):
    octets = wire.frame(right(message))
    answerer.send(octets[: len(octets) // 2])


def drips(answerer, message):
    answerer.send_each_second(wire.frame(right(message)))


def after(seconds):
    def act(answerer, message):
        answerer.send_later(seconds, wire.frame(right(message)))

    return act


def closes(answerer, message):
    return True


def half_and_closes(answerer, message):
    half_and_holds(answerer, message)
    return True


def other_id(message):
    octets = right(message)
    return bytes([octets[0] ^ 0x55]) + octets[1:]


def other_question(message):
    return response(message[:2] + wire.query(0, "other.test")[2:], [address("other.test")])


def without_qr(message):
    octets = right(message)
    return octets[:2] + bytes([octets[2] & 0x7F]) + octets[3:]


def truncated(message):
    return response(message, flags=0x8380)


def bad_data(message):
    return response(message, [wire.record(wire.question_name(message), wire.A, b"\1\2\3")])


def pointer_loop(message):
    at = wire.question_end(message)
    return response(message, [struct.pack("!HHHIH", 0xC000 | at, wire.A, 1, 60, 4) + b"\1\2\3\4"])


def chain(count):
    """So many CNAMEs, one behind another, and the address of the last name."""

    def make(message):
        first = wire.question_name(message)
        names = [first, *(f"c{place}.test" for place in range(count))]
        links = [wire.record(owner, CNAME, wire.name_octets(target)) for owner, target in zip(names, names[1:])]
        return response(message, [*links, address(names[-1])])

    return make


def loop(message):
    name = wire.question_name(message)
    there, back = wire.name_octets(f"back.{name}"), wire.name_octets(name)
    return response(message, [wire.record(name, CNAME, there), wire.record(f"back.{name}", CNAME, back)])


def to_itself(message):
    name = wire.question_name(message)
    return response(message, [wire.record(name, CNAME, wire.name_octets(name))])


def large(message):
    """60 KB of TXT records."""
    name = wire.question_name(message)
    return response(message, [wire.record(name, TXT, bytes([249]) + b"%03d" % place + bytes(246)) for place in range(LARGE)])


def expands(message):
    """700 addresses of a long name, which are 11 KB with pointers, as they come and go on, and over 65,535 octets with the name in full."""
    name = wire.question_name(message)
    alias = wire.record(name, CNAME, wire.name_octets("a" * 60 + "." + "b" * 30))
    at = 0xC000 | wire.question_end(message) + len(wire.name_octets(name)) + 10
    record = struct.pack("!HHHIH", at, wire.A, 1, 60, 4)
    return response(message, [alias, *(record + struct.pack("!I", 0x0A000000 + place) for place in range(700))])


def lives(ttl):
    return lambda message: wire.answer(message, ttl=ttl)


def no_data(rcode, has_soa):
    def make(message):
        soa = wire.record("test", wire.SOA, wire.soa_data(1))
        return response(message, rcode=rcode, authority=[soa] if has_soa else [])

    return make


def foreign(message):
    """The right address, and addresses of another name in each section."""
    other = address("victim.test", FOREIGN)
    servers = wire.record("victim.test", NS, wire.name_octets("ns.victim.test"))
    return response(message, [address(wire.question_name(message)), other], authority=[servers], additional=[other])


LARGE = 220


class Kind(NamedTuple):
    """A fault, what a client gets over UDP and over TCP, and whether the answer is kept, where that counts."""

    act: Callable
    udp: str
    tcp: str
    is_kept: bool | None = None


def kind(act, outcome, tcp=None, is_kept=None):
    return Kind(act, outcome, tcp or outcome, is_kept)


AT_ONCE, LATE = "SERVFAIL at once", "SERVFAIL after 5 s"

KINDS = {
    "right": kind(sends(right), "1 record at once", is_kept=True),
    "never": kind(never, LATE),
    "halfheld": kind(half_and_holds, LATE),
    "drips": kind(drips, LATE),
    "after4": kind(after(4), "1 record after 4 s"),
    "after20": kind(after(20), LATE),
    "closes": kind(closes, AT_ONCE),
    "halfclosed": kind(half_and_closes, AT_ONCE),
    "otherid": kind(sends(other_id), LATE),
    "garbage": kind(sends(lambda message: bytes(range(200, 250))), LATE),
    "idgarbage": kind(sends(lambda message: message[:2] + bytes(range(200, 250))), AT_ONCE),
    "empty": kind(sends(lambda message: b""), LATE),
    "idalone": kind(sends(lambda message: message[:2]), AT_ONCE),
    "otherquestion": kind(sends(other_question), AT_ONCE),
    "truncated": kind(sends(truncated), AT_ONCE),
    "query": kind(sends(without_qr), AT_ONCE),
    "refused": kind(sends(lambda message: response(message, rcode=5)), AT_ONCE, is_kept=False),
    "servfail": kind(sends(lambda message: response(message, rcode=2)), AT_ONCE, is_kept=False),
    "notimp": kind(sends(lambda message: response(message, rcode=4)), AT_ONCE, is_kept=False),
    "baddata": kind(sends(bad_data), AT_ONCE, is_kept=False),
    "pointerloop": kind(sends(pointer_loop), AT_ONCE, is_kept=False),
    "trailing": kind(sends(lambda message: right(message) + b"\0\1\2"), AT_ONCE, is_kept=False),
    "loop": kind(sends(loop), "2 records at once"),
    "toitself": kind(sends(to_itself), "1 record at once"),
    "chain5": kind(sends(chain(5)), "6 records at once", is_kept=True),
    "chain15": kind(sends(chain(15)), "16 records at once", is_kept=True),
    "chain16": kind(sends(chain(16)), AT_ONCE),
    "chain30": kind(sends(chain(30)), AT_ONCE),
    "large": kind(sends(large), "TC at once", f"{LARGE} records at once", is_kept=False),
    "expands": kind(sends(expands), "TC at once", "701 records at once", is_kept=False),
    "ttl0": kind(sends(lives(0)), "1 record at once", is_kept=False),
    "ttl2e31": kind(sends(lives(1 << 31)), "1 record at once", is_kept=True),
    "ttlmost": kind(sends(lives((1 << 32) - 1)), "1 record at once", is_kept=True),
    "nxsoa": kind(sends(no_data(3, True)), "NXDOMAIN with a SOA at once", is_kept=True),
    "nx": kind(sends(no_data(3, False)), "NXDOMAIN at once", is_kept=False),
    "nodatasoa": kind(sends(no_data(0, True)), "no data with a SOA at once", is_kept=True),
    "nodata": kind(sends(no_data(0, False)), "no data at once", is_kept=False),
    "foreign": kind(sends(foreign), "2 records at once"),
}


def acts_by_first_label(answerer, message):
    """Does what the first label of the name says, and answers all other names rightly."""
    found = KINDS.get(wire.question_name(message).partition(".")[0], KINDS["right"])
    return found.act(answerer, message)


class BadUpstream(ScriptedUpstream):
    """An upstream that answers a name by the kind that its first label is."""

    def __init__(self, port, delay=0.0):
        super().__init__(port, acts_by_first_label)
