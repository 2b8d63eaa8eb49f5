"""What every case of an attack has: a server with its peers, the prober beside the attack, and what is judged behind it.

A case is a generator with one argument, a `Scene`, which `case` makes one. It begins its attack and yields; then the prober asks 1,000
queries over UDP and 100 over TCP that a rule or the cache answers, and, where the case says so, misses of another client are asked. What
is yielded, if it is a function, is called meanwhile. Behind that it goes on, ends its attack, and returns what else there is to say. Then
everybody must be served within two seconds, and the most memory that the server has had must be within the bound of the case.
"""

import contextlib
import functools
import os
import socket
import threading
import time

import wire
from peers import LOOPBACK, ZONE, Primary, Prober, Server, Upstream, ask, ask_over_tcp

RULED = [f"bad{n}.example" for n in range(20)]
CACHED = [f"kept{n}.example" for n in range(20)]
SLOWEST = 0.050
RECOVERS = 2.0
OTHERS = 1.0
MISSES, MISSES_SECONDS = 50, 20.0  # of others, beside an attack; those that aren't asked within so many seconds count as lost
MEMORY = 100 << 20
# By how much the bounds of memory are multiplied: programs with AddressSanitizer keep freed memory back.
MEMORY_TIMES = float(os.environ.get("ATTACK_MEMORY_TIMES", "1"))


class Failed(Exception):
    pass


class NotTried(Exception):
    """This machine lacks what the case wants."""


def fail_if(is_wrong, said):
    if is_wrong:
        raise Failed(said)


class Scene:
    """A server with its peers. `stdout`: what standard output is, or what makes it. `zones`: further policy zones, whose primaries are at
    the ports from `port + 3` on, in their order, and are made by the case. `stopped`: zones behind these, whose primaries accept
    connections and say nothing. `is_held`: the primary does so at first, and nothing waits for its rules. `upstream`: makes the upstream,
    of a port and a delay. `started`: what else the server is started with."""

    def __init__(
        self, program, port, workers, options=(), delay=0.0, stdout=None, zones=(), make=Server,
        stopped=(), is_held=False, upstream=Upstream, host=LOOPBACK, **started,
    ):
        self.program, self.port, self.workers, self.host = program, port, workers, host
        with contextlib.ExitStack() as ends:
            self.upstream = upstream(port + 1, delay)
            ends.callback(self.upstream.end)
            self.primary = Primary(port + 2, [*RULED, "first.example"], is_held)
            ends.callback(self.primary.end)
            for at in range(port + 3 + len(zones), port + 3 + len(zones) + len(stopped)):
                ends.callback(Primary(at, [], is_stopped=True).end)
            at_primaries = [(zone, at) for at, zone in enumerate([ZONE, *zones, *stopped], port + 2)]
            self.stdout = ends.enter_context(contextlib.closing(stdout())) if callable(stdout) else stdout
            self.server = make(program, port, port + 1, at_primaries, workers, options, self.stdout, host, **started)
            ends.callback(self.server.remove_files)
            ends.callback(self.server.end)
            if not is_held:
                self.warm()
            self.ends = ends.pop_all()

    def warm(self):
        """Waits for the rules, and has the cache keep its names."""
        self.server.wait_for(RULED[0], seconds=30)
        for name in CACHED:
            ask(self.port, name, 5, host=self.host)

    def prober(self):
        return Prober(self.port, [*RULED, *CACHED], host=self.host)

    def unserved(self):
        """What isn't served, of UDP, TCP and the upstream; nothing where all is."""
        fresh = f"fresh{time.monotonic_ns()}.example"
        if ask(self.port, RULED[0], 0.5, host=self.host) != 3:
            return "UDP"
        if ask_over_tcp(self.port, RULED[0], 0.5, host=self.host) != 3:
            return "TCP"
        return "" if ask(self.port, fresh, 0.5, host=self.host) == 0 else "the upstream"

    def takes_change(self, rule, over_tcp=False):
        """Has the server take a change of its zone by a NOTIFY; the seconds until it is in force, which are at most `OTHERS`."""
        self.primary.change(rule)
        begun = time.monotonic()
        fail_if(self.primary.notify(self.port, over_tcp) != 0, "a NOTIFY is refused")
        self.server.wait_for(rule, 3, 5)
        took = time.monotonic() - begun
        fail_if(took > OTHERS, f"a change was in force {took:.2f} s behind its NOTIFY")
        return took

    def memory(self):
        return f"{self.server.resident() >> 20} MiB resident, {self.server.peak() >> 20} at most, {self.server.descriptors()} descriptors"

    def end(self):
        self.ends.close()


class Misses:
    """Names of another client that are in no cache, one after another, while an attack goes on."""

    def __init__(self, port, host=LOOPBACK):
        self.port, self.host, self.lost, self.slowest = port, host, MISSES, 0.0
        self.thread = threading.Thread(target=self.ask_all)
        self.thread.start()

    def ask_all(self):
        end, answered = time.monotonic() + MISSES_SECONDS, 0
        for number in range(MISSES):
            begun = time.monotonic()
            if begun > end:
                break
            answered += ask(self.port, f"other{number}-{time.monotonic_ns()}.fast{number}.test", 3, host=self.host) == 0
            self.slowest = max(self.slowest, time.monotonic() - begun)
            time.sleep(0.02)
        self.lost = MISSES - answered

    def result(self):
        self.thread.join()
        said = f"misses of others: lost {self.lost} of {MISSES}, slowest {1000 * self.slowest:.0f} ms"
        return said, self.lost == 0 and self.slowest <= OTHERS


def probed(it, meanwhile, others):
    """What the prober and the asker of misses have seen, and whether that holds."""
    prober, misses = it.prober(), Misses(it.port, it.host) if others else None
    failed = None
    if callable(meanwhile):
        failed = failure_of(meanwhile)
    udp_lost, udp_slow, tcp_lost, tcp_slow = prober.result()
    said = f"UDP lost {udp_lost}, slowest {1000 * udp_slow:.1f} ms; TCP lost {tcp_lost}, slowest {1000 * tcp_slow:.1f} ms"
    holds = not udp_lost and not tcp_lost and max(udp_slow, tcp_slow) <= SLOWEST
    if misses is not None:
        more, fine = misses.result()
        said, holds = f"{said}; {more}", holds and fine
    return (f"{said}; {failed}", False) if failed else (said, holds)


FAULTS = (Failed, RuntimeError, OSError)  # what is said beside all else that was seen


def failure_of(action):
    """Why it has failed, if it has."""
    try:
        action()
    except FAULTS as why:
        return str(why) or repr(why)
    return None


def ended(attack):
    """What the attack says at its end, and whether it holds."""
    try:
        next(attack)
    except StopIteration as end:
        return end.value, True
    except FAULTS as why:
        return str(why) or repr(why), False
    return "it doesn't end", False


def recovery(it):
    """How soon all are served again, and whether that is soon enough."""
    begun = time.monotonic()
    while (unserved := it.unserved()) and time.monotonic() < begun + RECOVERS:
        pass
    took = time.monotonic() - begun
    if unserved:
        return f"no service of {unserved} within {took:.1f} s behind it", False
    return f"all served {1000 * took:.0f} ms behind it", took <= RECOVERS


def recovers(it):
    """Whether all are served again soon enough."""
    return recovery(it)[1]


def judge(it, attack, others, most):
    """Runs the attack; what came of it, and whether the server held."""
    said, holds = zip(probed(it, next(attack), others), ended(attack), recovery(it), strict=True)
    said, holds = "; ".join(filter(None, said)), all(holds)
    status = it.server.process.poll()
    if status is not None:
        return f"{said}; the server has ended with status {status}", False
    if it.server.peak() > most * MEMORY_TIMES:
        said, holds = f"{said}; more than {int(most * MEMORY_TIMES) >> 20} MiB", False
    return f"{said}; {it.memory()}", holds


def case(others=False, most=MEMORY, beside=False, **given):
    """A case of these options of `serve` and of its peers. `others`: misses of others are asked, too. `most`: the bound of its memory in
    octets. `beside`: it is also tried on Unbound where that is asked for."""

    def made(attack):
        @functools.wraps(attack)
        def run(program, port, workers, make=Server):
            with contextlib.ExitStack() as ends:
                it = Scene(program, port, workers, make=make, **given)
                ends.callback(it.end)
                begun = ends.enter_context(contextlib.closing(attack(it)))
                said, holds = judge(it, begun, others, most)
                fail_if(not holds, said)
                return said

        run.is_beside = beside
        return run

    return made


def alone(run):
    """A case that makes its own server and judges by itself: of a program, a port and a number of workers."""
    run.is_beside = False
    return run


# ---- what many cases need


def connect(port, source=None, host=LOOPBACK):
    sock = socket.create_connection((host, port), 5, source_address=(source, 0) if source else None)
    sock.settimeout(30)
    return sock


@contextlib.contextmanager
def repeated(action, pause):
    """Calls the action again and again in a thread of its own, with its number, until the block ends."""
    stop = threading.Event()

    def go_on():
        number = 0
        while not stop.is_set():
            number += 1
            with contextlib.suppress(OSError):
                action(number)
            time.sleep(pause)

    thread = threading.Thread(target=go_on)
    thread.start()
    try:
        yield
    finally:
        stop.set()
        thread.join()


def ask_blindly(sock, port, number, name, qtype=wire.A):
    """Sends a query whose reply nobody waits for."""
    sock.sendto(wire.query(number & 0xFFFF, name, qtype), (LOOPBACK, port))
