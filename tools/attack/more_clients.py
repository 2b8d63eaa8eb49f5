"""More attacks of clients, over TCP."""

import collections
import contextlib
import functools
import resource
import selectors
import socket
import struct
import threading
import time

import wire
from harness import CACHED, RULED, SLOWEST, Scene, alone, case, connect, fail_if, probed, recovers, repeated
from peers import LOOPBACK, Prober

NXDOMAIN, SERVFAIL, FORMERR = 3, 2, 1
WORD = struct.Struct("!H")


# ---- what several cases need


def pipelined(names, qtype=wire.A):
    """Queries for these names behind one another, with the IDs 0, 1, 2 and so on."""
    return b"".join(wire.frame(wire.query(number & 0xFFFF, name, qtype)) for number, name in enumerate(names))


def replies(sock, most):
    """The replies of a connection as they come, until it ends or there are so many."""
    for _ in range(most):
        try:
            reply = wire.read_frame(sock)
        except OSError:
            return
        if reply is None:
            return
        yield reply


def numbers_of(sock, most):
    return [wire.number_of(reply) for reply in replies(sock, most)]


def has_ended(sock):
    """Whether the server has closed a connection on which no reply is to come."""
    sock.setblocking(False)
    try:
        return not sock.recv(1)
    except BlockingIOError:
        return False
    except OSError:
        return True


def is_reached(holds, seconds):
    """Whether something comes to hold within so many seconds."""
    end = time.monotonic() + seconds
    while time.monotonic() < end:
        if holds():
            return True
        time.sleep(0.05)
    return holds()


def held(port, clients=None):
    """How many connections of clients the server has, or of those with these ports, as the system lists them (ESTABLISHED, CLOSE_WAIT)."""
    with open("/proc/net/tcp", encoding="ascii") as file:
        rows = [line.split() for line in file][1:]
    ports = [int(row[2][-4:], 16) for row in rows if row[1].endswith(f":{port:04X}") and row[3] in ("01", "08")]
    return sum(clients is None or each in clients for each in ports)


@contextlib.contextmanager
def connections(port, count):
    with contextlib.ExitStack() as stack:
        yield [stack.enter_context(connect(port)) for _ in range(count)]


def connect_small(port):
    """A connection with as little room for what isn't read as the system allows."""
    sock = socket.socket()
    sock.setsockopt(socket.SOL_SOCKET, socket.SO_RCVBUF, 1024)
    sock.settimeout(10)
    sock.connect((LOOPBACK, port))
    return sock


def reset(sock):
    """Closes a connection by a reset."""
    sock.setsockopt(socket.SOL_SOCKET, socket.SO_LINGER, struct.pack("ii", 1, 0))
    sock.close()


# ---- slow clients


class Dripping:
    """Connections on each of which an octet of a query is sent each second, and how long each lasted."""

    def __init__(self, socks):
        self.octets = pipelined([RULED[0]])
        self.begun = {sock: time.monotonic() for sock in socks}
        self.lasted = []

    def step(self, number):
        """What is done ten times a second."""
        for sock, begun in list(self.begun.items()):
            if has_ended(sock):
                self.lasted.append(time.monotonic() - begun)
                del self.begun[sock]
            elif number % 10 == 1:
                with contextlib.suppress(OSError):
                    sock.send(self.octets[number // 10: number // 10 + 1])


@case()
def one_octet_a_second(it):
    """100 clients that send one octet of a query a second: each is closed behind 10 seconds."""
    with connections(it.port, 100) as socks:
        dripping = Dripping(socks)
        with repeated(dripping.step, 0.1):
            yield
            is_over = is_reached(lambda: not dripping.begun, 16)
    fail_if(not is_over, f"{len(dripping.begun)} of 100 are open for longer")
    first, last = min(dripping.lasted), max(dripping.lasted)
    said = f"closed after {first:.1f} to {last:.1f} s"
    fail_if(first < 9 or last > 13, said)
    return said


@case()
def slow_reader(it):
    """A client that takes 100 pipelined replies slowly: all of them come, in order."""
    names, numbers = [*RULED, *CACHED, *RULED, *CACHED, *RULED], []
    with connect_small(it.port) as sock:
        sock.sendall(pipelined(names))

        def read():
            for reply in replies(sock, len(names)):
                numbers.append(wire.number_of(reply))
                time.sleep(0.05)

        yield read
    fail_if(numbers != list(range(100)), f"these came: {numbers}")
    return "all 100 in order"


@case(others=True)
def clients_that_leave(it):
    """40 clients that ask for names that hang, and leave: nobody waits for their queries, and their connections go with these."""
    for number in range(40):
        with connect(it.port) as sock:
            sock.sendall(pipelined([f"hang{number}.left{number}.example"]))
    yield
    fail_if(not is_reached(lambda: held(it.port) == 0, 8), f"{held(it.port)} connections are held")
    return "no connection is held"


# ---- pipelined queries


@case()
def first_is_slow(it):
    """Ten pipelined queries of which the first takes a second: the replies to the others come before (RFC 7766, section 6.2.1.1)."""
    names = ["slow.first.example", *RULED[:3], *CACHED[:3], *(f"fresh{n}.first.example" for n in range(3))]
    came = []
    with connect(it.port) as sock:
        begun = time.monotonic()
        sock.sendall(pipelined(names))

        def read():
            came.extend((wire.number_of(reply), time.monotonic() - begun) for reply in replies(sock, len(names)))

        yield read
    numbers = [number for number, _ in came]
    fail_if(sorted(numbers) != list(range(10)) or numbers[-1] != 0, f"these came: {numbers}")
    said = f"the others within {1000 * came[8][1]:.0f} ms, the first after {came[9][1]:.2f} s"
    fail_if(came[8][1] > 0.5 or not 0.95 < came[9][1] < 2, said)
    return said


@case()
def five_thousand_pipelined(it):
    """5,000 pipelined queries on a connection: 4,096 are answered, in order, and then it ends."""
    numbers = []
    with connect(it.port) as sock:

        def send(_):
            sock.sendall(pipelined(RULED * 250))

        def read():
            numbers.extend(numbers_of(sock, 5000))

        with sending(send):
            yield read
        is_closed = has_ended(sock)
    fail_if(numbers != list(range(4096)), f"{len(numbers)} replies, in order: {numbers == sorted(numbers)}")
    fail_if(not is_closed, "the connection doesn't end")
    return "4,096 replies in order, then the end"


@contextlib.contextmanager
def sending(send):
    """Calls it in a thread of its own; where the server ends the connection, so does the thread."""

    def quietly():
        with contextlib.suppress(OSError):
            send(None)

    thread = threading.Thread(target=quietly)
    thread.start()
    try:
        yield
    finally:
        thread.join(30)


# ---- large replies


def reset_in_reply(port, name):
    """Asks for 60 KB, reads some of it, and resets the connection; what came."""
    sock = connect_small(port)
    try:
        sock.sendall(pipelined([name], wire.TXT))
        return "a reply" if sock.recv(512) else "an end"
    except OSError as why:
        return type(why).__name__
    finally:
        reset(sock)


@case()
def resets_in_replies(it):
    """500 connections that are reset in the middle of a reply of 60 KB: none of them is held."""
    came = collections.Counter()
    yield lambda: came.update(reset_in_reply(it.port, f"large{n}.reset{n % 20}.example") for n in range(500))
    fail_if(came["a reply"] != 500, f"what came: {dict(came)}")
    fail_if(not is_reached(lambda: held(it.port) == 0, 5), f"{held(it.port)} connections are held")
    return "all 500 replies began, and no connection is held"


def unread(it, count):
    """So many clients ask for 16 answers of 60 KB each and never read; each is closed 10 seconds behind what it could take."""
    ports, times = set(), []
    with contextlib.ExitStack() as stack:
        for place in range(count):
            sock = stack.enter_context(connect_small(it.port))
            ports.add(sock.getsockname()[1])
            sock.sendall(pipelined([f"large{n}.unread{place}.example" for n in range(16)], wire.TXT))
        begun = time.monotonic()

        def watch():
            fail_if(not is_reached(lambda: held(it.port, ports) == 0, 20), f"{held(it.port, ports)} connections are held")
            times.append(time.monotonic() - begun)

        yield watch
    said = f"closed after {times[0]:.1f} s"
    fail_if(times[0] > 16, said)
    return said


@case(others=True)
def one_that_reads_no_large_replies(it):
    """A client that asks for 16 answers of 60 KB and never reads: it is closed, and nobody waits for it."""
    return (yield from unread(it, 1))


@case(others=True)
def many_that_read_no_large_replies(it):
    """32 clients that ask for 16 answers of 60 KB each and never read: they are closed, and nobody waits for them."""
    return (yield from unread(it, 32))


# ---- few descriptors


def allow_descriptors(count):
    """For `preexec_fn`: so many descriptors, as `ulimit -n` has it."""
    return functools.partial(resource.setrlimit, resource.RLIMIT_NOFILE, (count, count))


@case(preexec_fn=allow_descriptors(64))
def few_descriptors(it):
    """300 clients that say nothing, where 64 descriptors are allowed: it says so at its start, and all others are served."""
    told = "rpz: 64 descriptors are allowed, and 2144 may be wanted (ulimit -n)"
    fail_if(it.server.complaints() != [told], f"standard error has {it.server.complaints()}")
    with connections(it.port, 300):
        yield
        most = it.server.descriptors()
    fail_if(most > 64, f"{most} descriptors")
    fail_if(not is_reached(lambda: held(it.port) == 0, 5), f"{held(it.port)} connections are held")
    return f"{most} descriptors beside it"


def first_outcome(sock):
    """The rcode of a reply that is there, or that the connection was closed."""
    try:
        octets = sock.recv(512)
    except OSError:
        octets = b""
    return wire.rcode_of(octets[2:]) if octets else "closed"


def outcomes(socks, seconds):
    """What came first of each connection, counted, within so many seconds."""
    counted, end = collections.Counter(), time.monotonic() + seconds
    with selectors.DefaultSelector() as selector:
        for sock in socks:
            selector.register(sock, selectors.EVENT_READ)
        while selector.get_map() and time.monotonic() < end:
            for key, _ in selector.select(0.2):
                counted[first_outcome(key.fileobj)] += 1
                selector.unregister(key.fileobj)
    return counted


def ask_on_each(stack, port, count):
    """So many connections, each with a query that needs the upstream."""
    socks = []
    for number in range(count):
        socks.append(stack.enter_context(connect(port)))
        with contextlib.suppress(OSError):
            socks[-1].sendall(pipelined([f"m{number}.dead{number % 50}.example"]))
    return socks


@alone
def more_clients_than_descriptors(program, port, workers):
    """1,151 clients over TCP that ask where 1,024 descriptors are allowed and the upstream hangs: UDP is served; 1,000 get SERVFAIL."""
    it = Scene(program, port, workers, preexec_fn=allow_descriptors(1024))
    with contextlib.ExitStack() as stack:
        stack.callback(it.end)
        it.upstream.is_stopped = True
        prober = Prober(port, [*RULED, *CACHED], streams=0)
        begun = time.monotonic()
        socks = ask_on_each(stack, port, 1151)
        most = it.server.descriptors()
        counted = outcomes(socks, 8)
        took = time.monotonic() - begun
        udp_lost, udp_slow, _, _ = prober.result()
        it.upstream.is_stopped = False
        said = f"{dict(counted)} within {took:.1f} s, {most} descriptors; UDP lost {udp_lost}, slowest {1000 * udp_slow:.1f} ms"
        fail_if(counted[SERVFAIL] < 1000 or counted.total() != 1151 or most > 1024, said)
        fail_if(udp_lost or udp_slow > SLOWEST, said)
        behind, holds = probed(it, None, True)
        fail_if(not holds or not recovers(it), f"{said}; behind it: {behind}")
        return f"{said}; behind it: {behind}; {it.memory()}"


# ---- frames that are no queries


SILENT = [wire.frame(b""), wire.frame(bytes(11))]


def behind_silent(port, count):
    """Sends so many frames that get no reply and then a query; the IDs of what comes first, if anything does before the end, and when."""
    with connect(port) as sock:
        begun = time.monotonic()
        sock.sendall(b"".join(SILENT[n % 2] for n in range(count)) + wire.frame(wire.query(77, RULED[0])))
        numbers = numbers_of(sock, 1)
        return numbers, time.monotonic() - begun


@case()
def frames_without_reply(it):
    """Frames of 0 and 11 octets get no reply; behind 15 a query is answered at once, and behind 16 the connection is closed."""
    came = []
    yield lambda: came.extend(behind_silent(it.port, count) for count in (1, 2, 15, 16))
    times = [took for _, took in came]
    said = f"answered within {1000 * max(times[:3]):.0f} ms, closed after {times[3]:.2f} s"
    fail_if([numbers for numbers, _ in came] != [[77], [77], [77], []], f"what came: {came}")
    fail_if(max(times[:3]) > 0.5 or not 5.5 < times[3] < 7.5, said)
    return said


def reply_to(port, message):
    with connect(port) as sock:
        sock.sendall(wire.frame(message))
        return wire.read_frame(sock)


@case()
def long_messages(it):
    """A query with zeros behind it up to 65,535 octets, or with a record that is cut, gets FORMERR, one with 5,900 records its reply."""
    query = wire.query(78, RULED[0])
    crowded = query[:10] + WORD.pack(5900) + query[12:] + wire.record("", wire.TXT, b"") * 5900
    wrong = query[:10] + WORD.pack(1) + query[12:] + wire.record("", wire.A, bytes(4))[:-1]
    got = []
    yield lambda: got.extend(reply_to(it.port, each) for each in (query + bytes(65_535 - len(query)), crowded, wrong))
    fail_if(None in got, "a connection ended without a reply")
    fail_if(any(wire.number_of(reply) != 78 for reply in got), "a reply of another ID")
    fail_if([wire.rcode_of(reply) for reply in got] != [FORMERR, NXDOMAIN, FORMERR], f"{[reply.hex() for reply in got]}")
    fail_if(len(got[0]) != 12 or len(got[2]) != 12, "FORMERR isn't a header alone")
    return f"a message of {len(crowded):,} octets is answered"


class ZeroFrames:
    """A connection on which frames without an octet are sent, as many as it takes, 200,000 in all."""

    def __init__(self, port):
        self.sock = connect(port)
        self.sock.setblocking(False)
        self.left = 2 * 200_000

    def send(self, _):
        if self.left:
            self.left -= self.sock.send(bytes(min(self.left, 65_536)))


@case(others=True)
def zero_frames(it):
    """200,000 frames without an octet on a connection: nothing is replied, others are served, and it is closed behind 6 seconds."""
    flood, begun = ZeroFrames(it.port), time.monotonic()
    with flood.sock:
        with repeated(flood.send, 0.05):
            yield
            is_over = is_reached(lambda: has_ended(flood.sock), begun + 9 - time.monotonic())
    fail_if(not is_over, "the connection is open")
    return f"{200_000 - flood.left // 2:,} went out"


@case(others=True)
def zero_frames_hold_no_place(it):
    """1,000 clients that send 4,096 frames without an octet each and leave: others can connect, at once or behind 6 seconds."""
    for _ in range(1000):
        with connect(it.port) as sock:
            sock.sendall(wire.frame(b"") * 4096)
    time.sleep(7)
    yield
    fail_if(held(it.port) > 0, f"{held(it.port)} connections are held")
    return "no connection is held"


# ---- half-closed connections


def behind_half_close(port, names):
    """The IDs of all that comes on a connection whose client sends these queries and then shuts down its side, and for how long."""
    with connect(port) as sock:
        begun = time.monotonic()
        sock.sendall(pipelined(names))
        sock.shutdown(socket.SHUT_WR)
        return sorted(numbers_of(sock, 10)), time.monotonic() - begun


@case()
def half_closes(it):
    """Clients that shut down their side behind one query, a slow one, or three: each gets all its replies, and then the end."""
    asked = [RULED[:1], ["slow1.half.example"], ["slow2.half.example", RULED[1], "fresh.half.example"], []]
    got = []
    yield lambda: got.extend(behind_half_close(it.port, names) for names in asked)
    times = [took for _, took in got]
    said = "ended after " + ", ".join(f"{took:.2f}" for took in times) + " s"
    fail_if([numbers for numbers, _ in got] != [list(range(len(names))) for names in asked], f"{got}")
    fail_if(times[0] > 1 or times[3] > 1 or not all(0.95 < took < 2.5 for took in times[1:3]), said)
    return said


CASES = [
    one_octet_a_second,
    slow_reader,
    clients_that_leave,
    first_is_slow,
    five_thousand_pipelined,
    resets_in_replies,
    one_that_reads_no_large_replies,
    many_that_read_no_large_replies,
    few_descriptors,
    more_clients_than_descriptors,
    frames_without_reply,
    long_messages,
    zero_frames,
    zero_frames_hold_no_place,
    half_closes,
]
