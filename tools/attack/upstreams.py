"""What an upstream does that hangs or is slow, and clients whose questions it doesn't answer."""

import contextlib
import socket
import threading
import time

import unbound
import wire
from harness import OTHERS, NotTried, alone, ask_blindly, case, fail_if, repeated

ATTACKER = "127.0.0.9"


@contextlib.contextmanager
def socket_at(address):
    with socket.socket(socket.AF_INET, socket.SOCK_DGRAM) as sock:
        sock.setsockopt(socket.SOL_SOCKET, socket.SO_RCVBUF, 4 << 20)
        sock.bind((address, 0))
        yield sock


@case(beside=True)
def upstream_hangs(it):
    """An upstream that stops answering, and 33 misses a second."""
    it.upstream.is_stopped = True
    before = it.upstream.questions
    with socket_at(ATTACKER) as sock:
        with repeated(lambda n: ask_blindly(sock, it.port, n, f"miss{n}.dead{n % 50}.example"), 0.03):
            yield
    it.upstream.is_stopped = False
    asked = it.upstream.questions - before
    fail_if(asked < 50, f"the upstream got {asked} questions")
    return f"{asked} questions without an answer"


@case(others=True, beside=True, delay=0.02)
def slow_names_of_one_client(it):
    """40 names a second of one client that the upstream never answers."""
    before = it.upstream.questions
    with socket_at(ATTACKER) as sock:
        with repeated(lambda n: ask_blindly(sock, it.port, n, f"hang{n}.slow.example"), 0.025):
            time.sleep(4)
            yield
    asked = it.upstream.questions - before
    fail_if(asked < 100, f"the upstream got {asked} questions")
    return f"{asked} questions to the upstream"


class Flood:
    """Misses of one client, 20 each 10 milliseconds, and how many get NOERROR."""

    def __init__(self, port, sock):
        self.port, self.sock = port, sock
        self.sent = self.got = 0
        sock.settimeout(2)

    def send(self, _number):
        for _ in range(20):
            self.sent += 1
            ask_blindly(self.sock, self.port, self.sent, f"m{self.sent}.d{self.sent % 97}.example")

    def receive(self):
        """Takes replies until none comes for two seconds."""
        with contextlib.suppress(OSError):
            while True:
                self.got += wire.rcode_of(self.sock.recv(4096)) == 0


@case(others=True, beside=True, delay=0.02)
def twice_the_misses(it):
    """An upstream of 20 ms, and up to 2,000 misses a second, all of which are answered."""
    with socket_at(ATTACKER) as sock:
        flood = Flood(it.port, sock)
        receiver = threading.Thread(target=flood.receive)
        receiver.start()
        begun = time.monotonic()
        with repeated(flood.send, 0.01):
            yield
        rate = flood.sent / (time.monotonic() - begun)
        receiver.join()
    fail_if(flood.got < flood.sent, f"answered: {flood.got} of {flood.sent} misses, {rate:.0f} a second")
    return f"answered: all {flood.sent} misses, {rate:.0f} a second"


@case(others=True, beside=True, delay=0.02)
def misses_of_many_clients(it):
    """100 clients with 10 misses a second each, a tenth of the clients with names that the upstream never answers."""
    clients = [MissingClient(it.port, f"127.0.1.{n + 1}", n, is_slow=n % 10 == 0) for n in range(100)]
    try:
        for client in clients:
            client.thread.start()
        yield
    finally:
        for client in clients:
            client.is_over = True
        for client in clients:
            client.thread.join()
    well = [client for client in clients if not client.is_slow]
    asked, answered = sum(client.asked for client in well), sum(len(client.times) for client in well)
    slowest = max(max(client.times, default=0.0) for client in well)
    said = f"misses of 90 clients: answered {answered} of {asked}, slowest {1000 * slowest:.0f} ms"
    fail_if(answered < asked or slowest > OTHERS, said)
    return said


class MissingClient:
    """A client at an address of its own that asks for ten names a second that are in no cache, one after another."""

    def __init__(self, port, address, number, is_slow):
        self.port, self.address, self.number, self.is_slow = port, address, number, is_slow
        self.asked, self.times, self.is_over = 0, [], False
        self.thread = threading.Thread(target=self.ask_all)

    def ask_all(self):
        with socket_at(self.address) as sock:
            sock.settimeout(3)
            while not self.is_over:
                begun = time.monotonic()
                self.ask_one(sock)
                time.sleep(max(0.0, begun + 0.1 - time.monotonic()))

    def ask_one(self, sock):
        """One query; of a client that is slow the reply isn't waited for."""
        self.asked += 1
        number, begun = self.asked & 0xFFFF, time.monotonic()
        ask_blindly(sock, self.port, number, f"{'hang' if self.is_slow else 'm'}{self.asked}.c{self.number}.test")
        if self.is_slow:
            return
        with contextlib.suppress(OSError):
            while not is_answer(sock.recv(4096), number):
                pass
            self.times.append(time.monotonic() - begun)


def is_answer(message, number):
    return wire.number_of(message) == number and wire.rcode_of(message) == 0


@alone
def default_unbound(program, port, workers):
    """An Unbound with its defaults as the upstream, and 12 names that it can't find out."""
    if not unbound.is_there():
        raise NotTried("there is no Unbound here")
    return before_unbound(program, port, workers)


@case(others=True, upstream=unbound.DefaultUnbound)
def before_unbound(it):
    """The server before an Unbound."""
    with socket_at(ATTACKER) as sock:
        with repeated(lambda n: ask_blindly(sock, it.port, n, f"n{n % 12}.{unbound.SILENT}"), 0.1):
            time.sleep(1.3)
            yield
    fail_if(not it.upstream.was_asked(), "Unbound was asked for no such name")


CASES = [
    upstream_hangs,
    slow_names_of_one_client,
    twice_the_misses,
    misses_of_many_clients,
    default_unbound,
]
