"""Attacks by way of the primaries: transfers that are refused, cut, endless, slow or wrong, and many changes under load."""

import contextlib
import random
import socket
import threading
import time

import replies
import wire
from bad_primaries import INCREMENTS, ScriptedPrimary, Step, deaf_port, is_deaf, notify, reset, row_message, soa, soa_message, whole
from harness import OTHERS, RULED, SLOWEST, case, connect, fail_if, repeated
from more_upstreams import probe_until
from peers import LOOPBACK, ask

ZONE = "second.example"  # the second zone of the cases here, whose primary is at the port of the case and 3 more


def lines_of(it, zone):
    """The lines of the server about the zone of this number, without the number."""
    with open(it.server.log, encoding="ascii") as file:
        parts = [line.split() for line in file if line.endswith("\n")]
    return [" ".join([part[0], *part[2:]]) for part in parts if part[1:2] == [str(zone)]]


def next_line(it, before, zone=2, seconds=5):
    """The line behind the first `before` about a zone."""
    end = time.monotonic() + seconds
    while time.monotonic() < end:
        lines = lines_of(it, zone)
        if len(lines) > before:
            return lines[before]
        time.sleep(0.005)
    fail_if(True, f"no line about zone {zone} within {seconds} s")


def polled(it, seconds=5):
    """Sends a NOTIFY of the second zone, and gives the line that comes of it."""
    before = len(lines_of(it, 2))
    fail_if(notify(it.port, ZONE) != 0, "a NOTIFY of the second zone is refused")
    return next_line(it, before, 2, seconds)


def fail_unless(got, wanted, of):
    fail_if(got != wanted, f"{of}: {got!r} for {wanted!r}")


def changes_meanwhile(it, count=3):
    """The slowest of some changes of the first zone, which must be in force within a second."""
    slowest = 0.0
    for _ in range(count):
        slowest = max(slowest, it.takes_change(f"change{time.monotonic_ns()}.example"))
        time.sleep(0.2)
    fail_if(slowest > OTHERS, f"a change of the first zone took {slowest:.2f} s")
    return f"changes of the first zone within {1000 * slowest:.0f} ms"


def serves(zone, serial, rules):
    """What a primary does that sends the whole zone."""

    def act(connection, request):
        connection.sendall(whole(request, zone, serial, rules))

    return act


# ---- primaries that aren't there


@case(zones=[ZONE])
def refusing_primary(it):
    """A primary that refuses each connection, and NOTIFYs of its zone: 20 lines, and the other zone's changes go on."""
    fail_unless(lines_of(it, 2), ["refused FetchFault"], "at the start")
    yield lambda: [fail_unless(polled(it), "refused FetchFault", "a poll") for _ in range(20)]
    return changes_meanwhile(it)


@case(zones=[f"deaf{n}.example" for n in range(8)])
def deaf_primaries(it):
    """8 of 9 primaries drop SYNs, while each is polled again and again; changes of the ninth."""
    with contextlib.ExitStack() as stack:
        for place in range(8):
            stack.enter_context(deaf_port(it.port + 3 + place))
            fail_if(not is_deaf(it.port + 3 + place), "the port isn't deaf")
        said = []
        with repeated(lambda number: notify(it.port, f"deaf{number % 8}.example"), 0.06):
            yield lambda: said.append(changes_meanwhile(it, 8))
        lines = [lines_of(it, zone) for zone in range(2, 10)]
    fail_if(any(len(of_one) < 2 or set(of_one) != {"refused FetchFault"} for of_one in lines), f"lines {lines}")
    return f"{''.join(said)}; {sum(map(len, lines))} lines FetchFault"


@case(zones=[ZONE])
def later_primary(it):
    """A primary that comes up behind the server: its names pass until it sends a NOTIFY, and then its rules are in force."""
    fail_if(ask(it.port, "late.test", 2) != 0, "a name doesn't pass before its zone is there")
    yield
    with ScriptedPrimary(it.port + 3, serves(ZONE, 1, ["late.test"])) as primary:
        begun = time.monotonic()
        fail_unless(polled(it), "taken 1 1", "the poll")
        it.server.wait_for("late.test", 3, 2)
        took = time.monotonic() - begun
        fail_unless(primary.requests, [wire.AXFR], "its requests")
    fail_if(took > OTHERS, f"in force {took:.2f} s behind the NOTIFY")
    return f"in force {1000 * took:.0f} ms behind the NOTIFY"


# ---- transfers that take long


class RowSender:
    """Sends a zone of many rows at a steady rate: so many messages of so many rows, and the SOA record behind them where it is to end."""

    def __init__(self, messages, rows, pause, has_end=True):
        self.messages, self.rows, self.pause, self.has_end = messages, rows, pause, has_end
        self.sent, self.is_over = 0, threading.Event()

    def act(self, connection, request):
        connection.sendall(soa_message(request, ZONE, 1))
        begun = time.monotonic()
        for number in range(self.messages):
            connection.sendall(row_message(request, ZONE, number * self.rows, self.rows))
            self.sent += self.rows
            if self.is_over.wait(max(0.0, begun + (number + 1) * self.pause - time.monotonic())):
                return
        if self.has_end:
            connection.sendall(soa_message(request, ZONE, 1))
        self.is_over.set()


@case(zones=[ZONE], most=500 << 20)
def large_slow_zone(it):
    """500,000 rules that a primary sends over 40 s, and changes of another zone meanwhile; then their rules are in force."""
    sender = RowSender(1000, 500, 0.04)
    with ScriptedPrimary(it.port + 3, sender.act):
        before = len(lines_of(it, 2))
        fail_unless(notify(it.port, ZONE), 0, "the NOTIFY")
        said = []

        def go_on():
            said.append(changes_meanwhile(it))
            probe_until(it, time.monotonic() + 30)
            fail_if(sender.is_over.is_set(), "the zone came too early")
            sender.is_over.wait(30)
            begun = time.monotonic()
            fail_unless(next_line(it, before, 2, 20), "taken 1 500000", "the transfer")
            said.append(f"taken {time.monotonic() - begun:.1f} s behind its end")

        yield go_on
        it.server.wait_for("r499999.bulk.test", 3, 2)
    return "; 500,000 rules ".join(said)


@case(zones=[ZONE], most=500 << 20)
def endless_transfer(it):
    """A primary that sends rows without end, 20,000 a second for 20 s, then closes: the memory that they take, and what is left of it."""
    sender = RowSender(10000, 500, 0.025, has_end=False)
    with ScriptedPrimary(it.port + 3, sender.act):
        before, at_first = len(lines_of(it, 2)), it.server.resident()
        fail_unless(notify(it.port, ZONE), 0, "the NOTIFY")
        end = time.monotonic() + 20
        said = []

        def go_on():
            said.append(changes_meanwhile(it))
            probe_until(it, end)

        yield go_on
        most, sent = it.server.resident(), sender.sent
        fail_if(sent < 200_000 or len(lines_of(it, 2)) != before, f"{sent} rows were sent: that was no long transfer")
        sender.is_over.set()
        fail_unless(next_line(it, before), "refused EndedEarly", "the transfer")
    each = (most - at_first) / sent
    return f"{''.join(said)}; {sent:,} rows took {(most - at_first) >> 20} MiB, {each:.0f} octets each"


@case(zones=[ZONE], most=300 << 20)
def cut_at_the_end(it):
    """A zone of 100,000 rules whose transfer is cut at its last octets, eight times; then it comes whole."""
    cut, rows = [True], {}

    def act(connection, request):
        ends = soa_message(request, ZONE, 1)
        if request[:2] not in rows:
            rows[request[:2]] = b"".join(row_message(request, ZONE, first, 500) for first in range(0, 100_000, 500))
        connection.sendall(ends + rows[request[:2]] + (ends[:-5] if cut[0] else ends))

    with ScriptedPrimary(it.port + 3, act):
        sizes = []

        def go_on():
            for _ in range(8):
                fail_unless(polled(it, 20), "refused Cut", "a poll")
                sizes.append(it.server.resident() >> 20)

        yield go_on
        fail_if(ask(it.port, "r5.bulk.test", 2) != 0, "a rule of a cut zone is in force")
        cut[0] = False
        fail_unless(polled(it, 20), "taken 1 100000", "the whole zone")
        it.server.wait_for("r99999.bulk.test", 3, 2)
    return f"8 lines Cut, then taken; MiB resident behind each: {sizes}"


@case(zones=[ZONE])
def stalled_transfer(it):
    """A transfer that stalls in its middle, while a client asks on a connection that was open before."""
    stalled, goes_on = threading.Event(), threading.Event()

    def act(connection, request):
        octets = whole(request, ZONE, 1, [f"stalled{n}.test" for n in range(2000)])
        connection.sendall(octets[: len(octets) // 2])
        stalled.set()
        goes_on.wait(20)
        connection.sendall(octets[len(octets) // 2:])

    with ScriptedPrimary(it.port + 3, act), connect(it.port) as sock:
        before = len(lines_of(it, 2))
        fail_unless(notify(it.port, ZONE), 0, "the NOTIFY")
        fail_if(not stalled.wait(5), "no transfer was asked for")
        slowest = []
        yield lambda: slowest.append(max(asked_on(sock, number) for number in range(20)))
        fail_if(slowest[0] > SLOWEST, f"a query on the connection took {1000 * slowest[0]:.0f} ms")
        fail_if(len(lines_of(it, 2)) != before, "the transfer ended meanwhile")
        goes_on.set()
        fail_unless(next_line(it, before), "taken 1 2000", "the transfer")
        it.server.wait_for("stalled1999.test", 3, 2)
    return f"on the connection {1000 * slowest[0]:.1f} ms at most; then the transfer went on, and was taken"


def asked_on(sock, number):
    """Seconds until a ruled name is answered on a connection; then a pause."""
    begun = time.monotonic()
    query = wire.query(number, RULED[number])
    sock.sendall(wire.frame(query))
    message = wire.read_frame(sock)
    fail_if(message is None, "the connection was closed")
    fail_unless(replies.read(message, query).rcode, 3, "a ruled name")
    took = time.monotonic() - begun
    time.sleep(0.25)
    return took


# ---- transfers that are wrong


@case(zones=[ZONE])
def cut_at_random(it):
    """A change whose transfer is cut at 50 random places, half of them by a reset: 50 refusals, the old rules, and then the new ones."""
    chance, places = random.Random(1), []
    new = [f"new{n}.test" for n in range(1000)]

    def act(connection, request):
        octets = whole(request, ZONE, 2, new)
        place, is_reset = places.pop() if places else (len(octets), False)
        connection.sendall(octets[: int(place * len(octets)) if place < 1 else place])
        if is_reset:
            reset(connection)

    with ScriptedPrimary(it.port + 3, serves(ZONE, 1, ["old.test"])) as primary:
        fail_unless(polled(it), "taken 1 1", "the first transfer")
        primary.act = act
        said = []

        def go_on():
            for number in range(50):
                places.append((chance.random(), number % 2 == 1))
                said.append(polled(it).removeprefix("refused "))
                fail_if((ask(it.port, "old.test", 2), ask(it.port, f"new{number}.test", 2)) != (3, 0), f"wrong answers behind {said[-1]}")

        yield go_on
        fail_if(len(said) != 50 or not set(said) <= {"Cut", "EndedEarly", "ReadFault"}, f"lines {said}")
        fail_unless(polled(it), "taken 2 1000", "the whole transfer")
        fail_if((ask(it.port, "old.test", 2), ask(it.port, "new7.test", 2)) != (0, 3), "wrong answers behind the whole transfer")
    counts = ", ".join(f"{said.count(word)} {word}" for word in sorted(set(said)))
    return f"{counts}; then taken"


@case(zones=[ZONE])
def wrong_increments(it):
    """Each fault of an increment: its line, the zone stays as it is, and the whole zone is asked for next."""
    with ScriptedPrimary(it.port + 3, serves(ZONE, 1, ["stays.test"])) as primary:
        fail_unless(polled(it), "taken 1 1", "the first transfer")
        faults = []

        def go_on():
            for serial, name in enumerate(INCREMENTS, 1):
                faults.extend(wrong_increment(it, primary, serial, name))

        yield go_on
    fail_if(faults, "; ".join(faults))
    return f"{len(INCREMENTS)} kinds"


def wrong_increment(it, primary, serial, name):
    """One fault, at a server that has this serial: what was wrong about it."""
    fault = INCREMENTS[name]

    def act(connection, request):
        connection.sendall(fault.make(Step(request, ZONE, serial, "stays.test")))
        if fault.is_reset:
            reset(connection)

    primary.act = act
    got, wanted = polled(it), f"refused {fault.line.format(serial, serial + 1, serial + 2)}"
    if got != wanted:
        yield f"{name}: {got!r} for {wanted!r}"
    if (ask(it.port, "stays.test", 2), ask(it.port, "increment.test", 2)) != (3, 0):
        yield f"{name}: the zone has changed"
    primary.act = serves(ZONE, serial + 1, ["stays.test"])
    got = polled(it)
    if got != f"taken {serial + 1} 1" or primary.requests[-2:] != [wire.IXFR, wire.AXFR]:
        yield f"{name}: then {got!r}, asked for by {primary.requests[-2:]}"


@case(zones=[ZONE])
def serial_goes_backward(it):
    """A primary whose serial goes back: as a SOA alone `current`, as a whole zone `SerialNotNewer`; the rules stay; then a newer one."""
    with ScriptedPrimary(it.port + 3, serves(ZONE, 10, ["ten.test"])) as primary:
        fail_unless(polled(it), "taken 10 1", "serial 10")
        primary.act = lambda connection, request: connection.sendall(soa_message(request, ZONE, 5))
        fail_unless(polled(it), "current 5", "a SOA alone of serial 5")
        primary.act = serves(ZONE, 5, ["five.test"])
        yield lambda: [fail_unless(polled(it), "refused SerialNotNewer 10 5", "serial 5") for _ in range(5)]
        fail_if((ask(it.port, "ten.test", 2), ask(it.port, "five.test", 2)) != (3, 0), "other rules are in force")
        primary.act = serves(ZONE, 11, ["eleven.test"])
        fail_unless(polled(it), "taken 11 1", "serial 11")
        fail_if((ask(it.port, "ten.test", 2), ask(it.port, "eleven.test", 2)) != (0, 3), "the new rules aren't in force")
    return "current, 5 refusals, then taken"


@case(zones=[ZONE])
def emptied_zone(it):
    """A newer zone of a SOA record alone: it is taken, and its rules are gone; a transfer of one newer SOA record is refused."""
    with ScriptedPrimary(it.port + 3, serves(ZONE, 1, ["gone.test"])) as primary:
        fail_unless(polled(it), "taken 1 1", "serial 1")
        primary.act = lambda connection, request: connection.sendall(soa_message(request, ZONE, 2))
        fail_unless(polled(it), "refused EndedEarly", "one SOA record of serial 2")
        fail_unless(ask(it.port, "gone.test", 2), 3, "the rcode behind it")
        primary.act = serves(ZONE, 20, [])
        yield
        fail_unless(polled(it), "taken 20 0", "a SOA record twice")
        fail_unless(ask(it.port, "gone.test", 2), 0, "the rcode behind it")
    return "refused EndedEarly, then taken without a row"


# ---- changes under load

VERSIONED = "version.test"


class Load:
    """1,700 queries a second, until it is told that the changes are over, for a name whose address says the serial of its zone. Each
    has the serial that the lines said before it."""

    RATE, MOST = 1700, 60_000

    def __init__(self, it):
        self.it, self.newest, self.sent, self.serials = it, 1, {}, []
        self.faults, self.lost = [], 0
        self.are_changed, self.is_over = threading.Event(), threading.Event()

    def run(self):
        """Sends all, and waits for what is due."""
        with socket.socket(socket.AF_INET, socket.SOCK_DGRAM) as sock:
            sock.setsockopt(socket.SOL_SOCKET, socket.SO_RCVBUF, 4 << 20)
            sock.settimeout(0.2)
            threads = [threading.Thread(target=self.read_replies, args=(sock,)), threading.Thread(target=self.read_lines)]
            for thread in threads:
                thread.start()
            begun = time.monotonic()
            for number in range(self.MOST):
                if self.are_changed.is_set():
                    break
                self.sent[number] = self.newest
                sock.sendto(wire.query(number, VERSIONED), (LOOPBACK, self.it.port))
                time.sleep(max(0.0, begun + number / self.RATE - time.monotonic()))
            time.sleep(2)
            self.is_over.set()
            for thread in threads:
                thread.join()
        self.lost = len(self.sent)

    def read_lines(self):
        while not self.is_over.wait(0.01):
            self.newest = max(int(line.split()[1]) for line in lines_of(self.it, 2) if line.startswith("taken"))

    def read_replies(self, sock):
        while not self.is_over.is_set():
            with contextlib.suppress(TimeoutError):
                self.read_reply(sock.recv(4096))

    def read_reply(self, message):
        least = self.sent.pop(wire.number_of(message), None)
        try:
            reply = replies.read(message, wire.query(wire.number_of(message), VERSIONED))
            serial = reply.answers[0].data[3]
        except (replies.Malformed, IndexError) as why:
            self.faults.append(f"malformed: {why}")
            return
        self.serials.append(serial)
        owners = [record.owner for record in reply.additional]
        if least is None or serial < least or reply.rcode or len(reply.answers) != 1 or owners != [ZONE]:
            self.faults.append(f"serial {serial} in a reply to a query that was sent behind the line of {least}")


@case(zones=[ZONE])
def changes_under_load(it):
    """20 changes in 10 s by NOTIFY beside 1,700 queries a second: no reply is older than a line that was read before its query."""
    serial = [1]

    def act(connection, request):
        row = wire.record(f"{VERSIONED}.{ZONE}", wire.A, bytes([192, 0, 2, serial[0]]))
        connection.sendall(b"".join(wire.messages(request, [soa(ZONE, serial[0]), row, soa(ZONE, serial[0])])))

    with ScriptedPrimary(it.port + 3, act):
        fail_unless(polled(it), "taken 1 1", "the first transfer")
        load = Load(it)
        thread = threading.Thread(target=load.run)
        thread.start()

        def go_on():
            for _ in range(20):
                serial[0] += 1
                notify(it.port, ZONE)
                time.sleep(0.5)
            load.are_changed.set()
            thread.join()

        yield go_on
    lines = lines_of(it, 2)
    fail_if(load.faults or load.lost, f"{load.lost} lost; {len(load.faults)} wrong replies: {load.faults[:3]}")
    fail_if(len(set(load.serials)) < 20 or "taken 21 1" not in lines, f"{len(set(load.serials))} versions were seen; {lines}")
    return f"{len(load.serials):,} replies of {len(set(load.serials))} versions, none lost"


CASES = [
    refusing_primary,
    deaf_primaries,
    later_primary,
    large_slow_zone,
    endless_transfer,
    cut_at_the_end,
    stalled_transfer,
    cut_at_random,
    wrong_increments,
    serial_goes_backward,
    emptied_zone,
    changes_under_load,
]
