#!/usr/bin/env python3
"""What a change of its zone costs a running server: processor time and memory.

    python3 bench/changes.py RPZ [--rules N] [--port N]

RPZ is the built program. It serves the zone rpz.example, of so many rules (1,000,000) hK.gJ.example CNAME . , with 1 worker. A change
takes out one rule, drawn from all of the zone, and adds a new one. Each transfer is brought by a NOTIFY and taken from a primary of this
script, by IXFR; it is done when a reply carries the new serial.

Prints, after the load and after each of the following: the processor time of all threads of the server in ms (user and system), also
that of what it does behind the new serial, with some queries that ask for the serial; the time until the new serial was seen; the
resident memory in octets a rule, and the peak of it since the line before. First come 20 transfers of one change, of which the median
times are printed; then 1,000 changes in one step, and in 1,000 steps; a reload, which is a whole transfer; and 1,000 transfers of one
change, at most 50 a second.
"""

import argparse
import io
import os
import pathlib
import random
import statistics
import sys
import time

sys.path.insert(0, str(pathlib.Path(__file__).resolve().parent.parent / "tools" / "attack"))

import peers
import wire
from stream import IXFR, ORIGIN, Writer, write_steps, write_zone
from transfer import owner

SOA = 6
ALONE = 20  # transfers of one change
MANY = 1_000  # changes of the larger transfers
GAP = 0.02  # seconds between two NOTIFYs: 64 a second are heard
PAUSE = 0.01  # seconds between two queries
STILL = 0.5  # seconds in which a server that is done takes less than
IDLE = 2  # ms of processor time
RELEASED = 6  # seconds behind which no thread holds an older version
LONG = 600  # seconds for a transfer
QTYPE = 2 + 12 + len(ORIGIN)  # where the type of the question stands, behind the length of the message


def octets_of(write, *words):
    out = io.BytesIO()
    write(out, *words)
    return out.getvalue()


def write_soa(out, serial, qtype):
    writer = Writer(out, qtype)
    writer.soa(serial)
    writer.end()


def in_answer_to(request, stream):
    """The messages of a stream with the ID and the type of the request."""
    out, at = bytearray(stream), 0
    qtype = wire.question_type(request).to_bytes(2, "big")
    while at < len(out):
        out[at + 2:at + 4] = request[:2]
        out[at + QTYPE:at + QTYPE + 2] = qtype
        at += 2 + int.from_bytes(out[at:at + 2], "big")
    return out


def labels_key(number):
    return owner(number)[::-1]


class Primary:
    """A primary of the zone, which has a whole transfer and one in steps, and answers what it is asked out of these."""

    def __init__(self, port, count):
        self.numbers = random.Random(1)
        self.rules, self.next_rule, self.serial = list(range(count)), count, 1
        self.steps = (0, b"")  # the serial that they begin with
        self.whole = self.stream_of_all()
        self.in_steps = self.wholes = 0
        peers.serve_each(port, self.serve)

    def stream_of_all(self):
        return octets_of(write_zone, map(owner, sorted(self.rules, key=labels_key)), self.serial)

    def serve(self, connection):
        while (request := wire.read_frame(connection)) is not None:
            connection.sendall(in_answer_to(request, self.answer(request)))

    def answer(self, request):
        qtype = wire.question_type(request)
        ours = wire.ixfr_serial(request) if qtype == IXFR else None
        if qtype == SOA or ours == self.serial:
            return octets_of(write_soa, self.serial, qtype)
        if ours is not None and ours == self.steps[0]:
            self.in_steps += 1
            return self.steps[1]
        self.wholes += 1
        return self.whole

    def change(self, count):
        """The rules that so many changes take out, none of them the first, and those that they add."""
        gone = []
        for _ in range(count):
            place = self.numbers.randrange(1, len(self.rules))
            self.rules[place], self.rules[-1] = self.rules[-1], self.rules[place]
            gone.append(self.rules.pop())
        come = range(self.next_rule, self.next_rule + count)
        self.next_rule += count
        self.rules += come
        return [*map(owner, gone)], [*map(owner, come)]

    def make_steps(self, changes, count):
        """So many changes of the zone in so many steps."""
        steps = [self.change(changes // count) for _ in range(count)]
        self.steps = (self.serial, octets_of(write_steps, steps, self.serial))
        self.serial += count

    def make_whole(self):
        """The same rules in a whole transfer of a newer serial."""
        self.serial += 1
        self.whole = self.stream_of_all()


class Meter:
    """The processor time and the memory of a process."""

    def __init__(self, pid):
        self.pid = pid
        self.clock = ~pid << 3 | 2  # clock_getcpuclockid(3): as /proc/PID/stat, but in nanoseconds

    def processor(self):
        """The ms of all its threads, those that have ended too."""
        return time.clock_gettime_ns(self.clock) / 1_000_000

    def settle(self):
        """Waits until it does nothing."""
        before = self.processor()
        while True:
            time.sleep(STILL)
            now = self.processor()
            if now - before < IDLE:
                return
            before = now

    def memory(self):
        """The octets that are resident, and the peak of these."""
        with open(f"/proc/{self.pid}/status", encoding="ascii") as file:
            lines = dict(line.split(":", 1) for line in file)
        return tuple(int(lines[name].split()[0]) * 1024 for name in ("VmRSS", "VmHWM"))

    def forget_peak(self):
        with open(f"/proc/{self.pid}/clear_refs", "w", encoding="ascii") as file:
            file.write("5")


def serial_seen(port):
    """The serial in the SOA record at the end of the reply to a query that the first rule answers; None where no such reply comes."""
    with peers.socket.socket(peers.socket.AF_INET, peers.socket.SOCK_DGRAM) as sock:
        sock.settimeout(1)
        sock.sendto(wire.query(1, ".".join(owner(0))), (peers.LOOPBACK, port))
        try:
            reply = sock.recv(4096)
        except OSError:
            return None
    return int.from_bytes(reply[-20:-16], "big") if wire.rcode_of(reply) == 3 else None


class Bench:
    def __init__(self, program, port, count):
        self.port, self.count = port, count
        self.primary = Primary(port + 2, count)
        self.upstream = peers.Upstream(port + 1)
        self.server = peers.Server(program, port, port + 1, [(peers.ZONE, port + 2)], 1)
        self.meter = Meter(self.server.process.pid)

    def wait(self):
        """Waits until the serial of the primary is in force."""
        end = time.monotonic() + LONG
        while time.monotonic() < end:
            if serial_seen(self.port) == self.primary.serial:
                return
            time.sleep(PAUSE)
        sys.exit(f"serial {self.primary.serial} isn't in force")

    def bring(self):
        """Has the server take what is new, and gives the seconds until it is in force."""
        begun = time.monotonic()
        self.notify()
        self.wait()
        return time.monotonic() - begun

    def notify(self):
        with peers.socket.socket(peers.socket.AF_INET, peers.socket.SOCK_DGRAM) as sock:
            sock.settimeout(5)
            sock.sendto(wire.notify(7, peers.ZONE), (peers.LOOPBACK, self.port))
            if wire.rcode_of(sock.recv(512)) != 0:
                sys.exit("a NOTIFY was refused")

    def tell(self, what, milliseconds, seconds):
        time.sleep(RELEASED)
        resident, peak = (octets / self.count for octets in self.meter.memory())
        print(f"{what}: {milliseconds:.1f} ms of processor time, in force after {seconds * 1000:.1f} ms, "
              f"{resident:.0f} octets a rule resident, {peak:.0f} at the peak", flush=True)
        self.meter.forget_peak()

    def measure(self, make):
        """The ms of processor time, and the seconds until it is in force, of a transfer that `make` makes ready."""
        make()
        before = self.meter.processor()
        seconds = self.bring()
        self.meter.settle()
        return self.meter.processor() - before, seconds

    def run(self):
        begun = time.monotonic()
        self.wait()
        seconds = time.monotonic() - begun
        self.meter.settle()
        self.tell("the load", self.meter.processor(), seconds)
        alone = [self.measure(lambda: self.primary.make_steps(1, 1)) for _ in range(ALONE)]
        self.tell(f"a change, the median of {ALONE}", *map(statistics.median, zip(*alone)))
        self.tell(f"{MANY} changes in 1 step", *self.measure(lambda: self.primary.make_steps(MANY, 1)))
        self.tell(f"{MANY} changes in {MANY} steps", *self.measure(lambda: self.primary.make_steps(MANY, MANY)))
        self.tell("a reload", *self.measure(self.primary.make_whole))
        self.run_of_changes()

    def run_of_changes(self):
        before, times = self.meter.processor(), []
        for _ in range(MANY):
            self.primary.make_steps(1, 1)
            times.append(self.bring())
            time.sleep(GAP)
        self.meter.settle()
        each = (self.meter.processor() - before) / MANY
        self.tell(f"{MANY} transfers of a change, for each", each, statistics.median(times))

    def check(self):
        """That the last change is in force, and that all was taken as it was meant."""
        newest = ".".join(owner(self.primary.next_rule - 1))
        with open(self.server.log, encoding="ascii") as file:
            refused = [line for line in file if not line.startswith(("taken", "current"))]
        if peers.ask(self.port, newest, 1) != 3 or refused or self.primary.wholes != 2:
            sys.exit(f"{newest}: {peers.ask(self.port, newest, 1)}, {self.primary.wholes} whole transfers, refused: {refused[:5]}")


def main():
    parser = argparse.ArgumentParser()
    parser.add_argument("program")
    parser.add_argument("--rules", type=int, default=1_000_000)
    parser.add_argument("--port", type=int, default=24100)
    options = parser.parse_args()
    if options.rules <= MANY:
        sys.exit(f"more than {MANY} rules are wanted")
    bench = Bench(options.program, options.port, options.rules)
    try:
        bench.run()
        bench.check()
    finally:
        bench.server.end()
        os.remove(bench.server.log)


if __name__ == "__main__":
    main()
