"""What befalls the process: large answers, standard streams that take no lines, signals, restarts and turns."""

import contextlib
import os
import pathlib
import signal
import socket
import subprocess
import time

import wire
from harness import MEMORY, RULED, Scene, alone, case, connect, fail_if, probed, recovers
from more_clients import NXDOMAIN, SERVFAIL, connections, is_reached, numbers_of, pipelined
from peers import LOOPBACK, ZONE, Primary, Server, Upstream, ask

# ---- the process: memory


def ask_large(port, count):
    """Asks for so many answers of 60 KB over UDP, 64 at a time; how many truncated replies came."""
    came = 0
    with socket.socket(socket.AF_INET, socket.SOCK_DGRAM) as sock:
        sock.connect((LOOPBACK, port))
        sock.settimeout(6)
        for start in range(0, count, 64):
            numbers = range(start, min(start + 64, count))
            for number in numbers:
                sock.send(wire.query(number, f"large{number}.full{number % 50}.example", wire.TXT))
            with contextlib.suppress(TimeoutError):
                came += sum(sock.recv(512)[2] & 2 == 2 for _ in numbers)
    return came


@case()
def large_misses(it):
    """2,836 misses with answers of 60 KB: none is kept in the cache, and memory stays as it is."""
    ask_large(it.port, 64)
    before, came = it.server.resident(), []
    yield lambda: came.append(ask_large(it.port, 2836))
    grown, asked = it.server.resident() - before, it.upstream.questions
    again = ask_large(it.port, 64)
    fail_if(came != [2836] or again != 64, f"{came} and {again} replies with TC")
    fail_if(it.upstream.questions != asked + 64, f"{it.upstream.questions - asked} of 64 were asked again")
    fail_if(grown > MEMORY // 4, f"memory grew by {grown >> 20} MiB")
    return f"memory grew by {grown / (1 << 20):.1f} MiB"


# ---- the process: its lines


def loses_lines(it):
    """The service behind a write that failed: it is served, takes changes, and says once that a write failed."""
    before, holds = probed(it, lambda: [it.takes_change(f"line{n}.example") for n in range(5)], True)
    took = it.takes_change("last.example")
    said = f"{before}; the last change was in force after {1000 * took:.0f} ms"
    fail_if(not holds or took > 1 or not recovers(it), said)
    fail_if(it.server.complaints() != ["rpz: write fault"], f"standard error has {it.server.complaints()}")
    return said


def status_of_turns(it):
    """The status of a server with a number of turns, which are used up."""
    for _ in range(2000):
        if it.server.process.poll() is not None:
            break
        ask(it.port, RULED[0], 0.2)
    return it.server.process.wait(5)


def without_lines(program, port, workers, opened):
    """A server that goes on, and one that comes to its end, with standard output as `opened` gives it; what is to be said."""
    with contextlib.ExitStack() as stack:
        it = Scene(program, port, workers, stdout=stack.enter_context(opened()))
        stack.callback(it.end)
        said = loses_lines(it)
    with contextlib.ExitStack() as stack:
        it = Scene(program, port + 5, workers, stdout=stack.enter_context(opened()), turns=200)
        stack.callback(it.end)
        status, complaints = status_of_turns(it), it.server.complaints()
    fail_if(status != 5 or complaints != ["rpz: write fault"], f"status {status} at the end of its turns, and {complaints}")
    return f"{said}; status {status} at the end"


@alone
def full_device(program, port, workers):
    """Standard output is /dev/full: the service goes on, standard error says so once, and the status at the end is 5."""
    return without_lines(program, port, workers, lambda: open("/dev/full", "wb"))


@contextlib.contextmanager
def one_line():
    """A pipe to a reader that ends behind a line."""
    reader = subprocess.Popen(["head", "-n", "1"], stdin=subprocess.PIPE, stdout=subprocess.DEVNULL)
    try:
        yield reader.stdin
    finally:
        with contextlib.suppress(OSError):
            reader.stdin.close()
        reader.wait(10)


@alone
def ended_reader(program, port, workers):
    """Standard output is a pipe to `head -n 1`: the service goes on behind the line, and the status at the end is 5."""
    return without_lines(program, port, workers, one_line)


def close_streams(*numbers):
    """For `preexec_fn`: closes these descriptors."""

    def close():
        for number in numbers:
            os.close(number)

    return close


@case(others=True, preexec_fn=close_streams(0, 2))
def closed_streams(it):
    """Standard input and error are closed: it serves, takes a change, and writes its lines."""
    yield lambda: it.takes_change("closed.example")
    taken = [line for line in it.server.lines() if line.startswith("taken 1 ")]
    fail_if(len(taken) != 2, f"the lines are {it.server.lines()}")
    return "both changes have their line"


def descriptor_kind(process, number):
    """What a descriptor of a process is: a path, `socket:[..]`, `anon_inode:[..]` or so, or closed."""
    try:
        return os.readlink(f"/proc/{process.pid}/fd/{number}")
    except FileNotFoundError:
        return "closed"


def is_in_use(kind):
    """Whether a descriptor is an event, or a socket of an address or with another end; the system lists neither one without."""
    if not kind.startswith("socket:"):
        return kind.startswith("anon_inode:")
    number = kind[len("socket:["):-1]
    listed = [pathlib.Path("/proc/net", family) for family in ("tcp", "udp", "tcp6", "udp6")]
    return any(number in path.read_text("utf-8").split() for path in listed)


@alone
def numbers_of_closed_streams(program, port, workers):
    """Standard input, output and error are closed: no socket or event of the server takes the numbers that lines are written to."""
    it = Scene(program, port, workers, preexec_fn=close_streams(0, 1, 2))
    with contextlib.ExitStack() as stack:
        stack.callback(it.end)
        it.takes_change("closed.example")
        fail_if(not recovers(it), "nobody is served")
        kinds = [descriptor_kind(it.server.process, number) for number in (1, 2)]
    fail_if(any(is_in_use(kind) for kind in kinds), f"output and error are {kinds}")
    return "output and error are of no use to anybody"


# ---- the process: signals, restarts and turns

SIGNALS = [signal.SIGHUP, signal.SIGUSR1, signal.SIGTERM, signal.SIGINT]


def heed_signals():
    """For `preexec_fn`: a shell that starts this in the background, or `nohup`, has it ignore some of them."""
    for number in SIGNALS:
        signal.signal(number, signal.SIG_DFL)


def ended_by(program, port, workers, number):
    """Sends the signal while queries hang; the seconds until the server has ended."""
    it = Scene(program, port, workers, preexec_fn=heed_signals)
    with contextlib.ExitStack() as stack:
        stack.callback(it.end)
        sock = stack.enter_context(connect(port))
        sock.sendall(pipelined([f"hang{n}.signal{n}.example" for n in range(10)]))
        time.sleep(0.2)
        begun = time.monotonic()
        it.server.process.send_signal(number)
        status = it.server.process.wait(5)
        took = time.monotonic() - begun
        lines = it.server.lines()
    fail_if(status != -number, f"{number.name}: status {status}")
    fail_if(took > 1, f"{number.name}: it ended after {took:.2f} s")
    fail_if(len(lines) != 1 or not lines[0].startswith("taken 1 "), f"{number.name}: the lines are {lines}")
    return took


@alone
def signals(program, port, workers):
    """SIGHUP, SIGUSR1, SIGTERM and SIGINT, while queries hang: each ends it at once, without a `served` line."""
    times = [ended_by(program, port + 4 * place, workers, number) for place, number in enumerate(SIGNALS)]
    return f"ended within {1000 * max(times):.0f} ms"


@alone
def restarts(program, port, workers):
    """A restart right behind SIGTERM, with connections open, five times: the endpoint is bound at once."""
    upstream, primary, times = Upstream(port + 1), Primary(port + 2, RULED), []
    with contextlib.ExitStack() as stack:
        for _ in range(5):
            begun = time.monotonic()
            server = Server(program, port, upstream.port, [(ZONE, primary.port)], workers)
            stack.callback(server.end)
            server.wait_for(RULED[0], 3, 5)
            times.append(time.monotonic() - begun)
            for sock in stack.enter_context(connections(port, 20)):
                sock.sendall(pipelined([RULED[1]]))
                fail_if(numbers_of(sock, 1) != [0], "a connection gets no reply")
            server.end()
    said = f"served after {max(times):.2f} s at most"
    fail_if(max(times) > 3, said)
    return said


def is_listening(port):
    """Whether a connection comes about, on which nothing is sent: no turn of the server."""
    try:
        connect(port).close()
    except OSError:
        return False
    return True


@contextlib.contextmanager
def server_of_turns(program, port, workers, turns):
    """A server of so many turns of which none was used."""
    upstream, primary = Upstream(port + 1), Primary(port + 2, RULED)
    server = Server(program, port, upstream.port, [(ZONE, primary.port)], workers, turns=turns)
    try:
        fail_if(not is_reached(lambda: is_listening(port), 5), "it doesn't listen")
        time.sleep(2.2)
        yield server
    finally:
        server.end()


def fail_unless_done(server, line):
    status = server.process.wait(10)
    lines = server.lines()
    fail_if(status != 0 or lines[-1:] != [line], f"status {status}, and the lines are {lines}")


def datagrams_to_the_end(program, port, workers):
    """Ten datagrams, four of them slow, to a server of ten turns: all are answered; the rcodes of the slow ones, and the seconds."""
    names = [*(f"slow{n}.turns{n}.example" for n in range(4)), *RULED[:6]]
    with server_of_turns(program, port, workers, 10) as server, socket.socket(socket.AF_INET, socket.SOCK_DGRAM) as sock:
        sock.settimeout(5)
        begun = time.monotonic()
        for number, name in enumerate(names):
            sock.sendto(wire.query(number, name), (LOOPBACK, port))
        came = {wire.number_of(reply): wire.rcode_of(reply) for reply in (sock.recv(512) for _ in names)}
        took = time.monotonic() - begun
        slow = [came.get(number) for number in range(4)]
        fail_if(set(slow) - {0, SERVFAIL} or any(came.get(n) != NXDOMAIN for n in range(4, 10)), f"the rcodes are {came}")
        fail_unless_done(server, "served 10 reply 10 silent 0 memory 0 failed 0")
        return f"the slow ones with the rcodes {slow}, the last after {took:.2f} s"


def connection_to_the_end(program, port, workers):
    """Two datagrams and a connection of four messages, one of them slow, to a server of three turns: all are answered."""
    names = ["slow9.turns.example", RULED[0], RULED[1], "fresh9.turns.example"]
    with server_of_turns(program, port, workers, 3) as server, connect(port) as sock:
        for number in range(2):
            fail_if(ask(port, RULED[number], 5) != NXDOMAIN, "a datagram gets no reply")
        sock.sendall(pipelined(names))
        numbers = numbers_of(sock, len(names))
        fail_if(sorted(numbers) != [0, 1, 2, 3], f"these replies came: {numbers}")
        fail_unless_done(server, "served 3 reply 2 silent 0 memory 0 failed 0")


@alone
def turns_with_pending_work(program, port, workers):
    """A server of ten turns and one of three, with slow queries in the last: all are answered, then come the line and status 0."""
    said = datagrams_to_the_end(program, port, workers)
    connection_to_the_end(program, port + 5, workers)
    return f"all answered ({said}), the line and status 0"


@alone
def endpoint_in_use(program, port, workers):
    """Another socket has the endpoint, over UDP, over TCP or both: status 6 at once, and standard error says so."""
    for kinds in ([socket.SOCK_DGRAM], [socket.SOCK_STREAM], [socket.SOCK_DGRAM, socket.SOCK_STREAM]):
        with contextlib.ExitStack() as stack:
            for kind in kinds:
                sock = stack.enter_context(socket.socket(socket.AF_INET, kind))
                sock.bind((LOOPBACK, port))
                if kind == socket.SOCK_STREAM:
                    sock.listen()
            server = Server(program, port, port + 1, [(ZONE, port + 2)], workers)
            stack.callback(server.end)
            status = server.process.wait(5)
        fail_if(status != 6 or server.complaints() != ["rpz: socket fault"], f"status {status}, {server.complaints()}")
    return "status 6"


CASES = [
    large_misses,
    full_device,
    ended_reader,
    closed_streams,
    numbers_of_closed_streams,
    signals,
    restarts,
    turns_with_pending_work,
    endpoint_in_use,
]
