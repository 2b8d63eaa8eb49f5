#!/usr/bin/env python3
"""Runs a server under load for long, and says whether anything was lost, refused or grew.

    python3 tools/soak.py PROGRAM [--seconds N] [--rate N] [--rules N] [--changes N] [--workers N] [--askers N] [--warm N] [--port N] [--both]

PROGRAM is `rpz`. For so many seconds (3,600) dnsperf asks so many queries a second (50,000), of which a tenth are misses; a primary with
so many rules (1,000) makes so many changes a second (10), each with a NOTIFY and taken by an incremental transfer; and 100 connections
come and go, each with a few queries. The upstream is an Unbound. A line is printed each minute, or each tenth of a shorter time: what was
asked and lost so far (and how much of that the system dropped in front of the server; what else is missing was lost on its way back, or
not answered within 5 seconds, as where the machine stood still), and the longest time for which a thread didn't run that wanted to; also
the resident memory and the descriptors, while no connection of these is open. At the end: the same, how many transfers were taken and
refused, and memory and descriptors behind the first tenth and at the end. The status is 0 where nothing was lost or refused, memory grew
by less than 2 % or 1 MiB, and no descriptor more was open. Before the first tenth there are so many seconds (5) of the same queries alone:
each thread that asks the upstream, of which there are 256 if --askers doesn't say else, takes pages for its stack and its heap when it
first needs them, which adds up to some MiB over the first millions of queries. With --both the server listens on `[::1]`, too, and these two
addresses alone may ask: dnsperf asks by turns over either version of IP, half of the connections are of version 6, and a client that may
not ask sends 100 queries a second, each of which has to be refused. Wanted: dnsperf and unbound (packages of Debian). Nothing else should
run meanwhile.
"""

import argparse
import collections
import itertools
import os
import pathlib
import re
import subprocess
import sys
import tempfile
import threading
import time

sys.path.insert(0, str(pathlib.Path(__file__).resolve().parent / "attack"))

import peers
import wire

V6, STRANGER = "::1", "127.0.0.9"
REFUSED = 5
HITS, PASSES = 1_000, 4_000
CONNECTIONS = 100
KEPT_CHANGES = 200
KEPT_ADDED = 100
# what memory may grow by behind the first tenth of the time: a part of it, or so much
GROWS_PART, GROWS_BYTES = 0.02, 1 << 20


class ChangingPrimary(peers.Primary):
    """A primary that answers IXFR (RFC 1995) out of its last changes: each adds a rule and takes out an older one. What a change or its
    transfer costs depends on that change alone: `rules` stays as it is, and `added` has the names that changes added, oldest first."""

    def __init__(self, port, rules):
        self.lock = threading.Lock()
        self.added = collections.deque()
        self.steps = {}  # the records of the step from a serial to the next
        self.whole = self.in_steps = 0
        super().__init__(port, rules)

    def serve(self, connection):
        request = wire.read_frame(connection)
        if request is None:
            return
        if wire.question_type(request) == wire.IXFR:
            ours = wire.ixfr_serial(request)
            with self.lock:
                records = self.records_from(ours)
            if records is not None:
                self.in_steps += 1
                for message in wire.messages(request, records):
                    connection.sendall(message)
                return
        with self.lock:
            serial, added = self.serial, list(self.added)
        self.whole += 1
        for message in wire.transfer(request, peers.ZONE, serial, itertools.chain(self.rules, added)):
            connection.sendall(message)

    def records_from(self, ours):
        """The records of the steps from a serial on; None where they aren't kept any more."""
        newest = soa(self.serial)
        if ours == self.serial:
            return [newest]
        if any(serial not in self.steps for serial in range(ours, self.serial)):
            return None
        steps = (self.steps[serial] for serial in range(ours, self.serial))
        return [newest, *itertools.chain.from_iterable(steps), newest]

    def next_change(self):
        with self.lock:
            come = f"new{self.serial}.example"
            gone = [self.added.popleft()] if len(self.added) == KEPT_ADDED else []
            self.added.append(come)
            self.steps[self.serial] = [soa(self.serial), *map(row, gone), soa(self.serial + 1), row(come)]
            self.steps.pop(self.serial - KEPT_CHANGES, None)
            self.serial += 1


def soa(serial):
    return wire.record(peers.ZONE, wire.SOA, wire.soa_data(serial))


def row(name):
    return wire.rule(f"{name}.{peers.ZONE}")


def write_files(folder, upstream, hits):
    with open(folder / "queries", "w", encoding="ascii") as out:
        for turn in range(100_000):
            if turn % 10 == 0:
                out.write(f"m{turn}.miss.test A\n")
            elif turn % 2:
                out.write(f"h{turn % hits}.example A\n")
            else:
                out.write(f"p{turn % PASSES}.kept.test A\n")
    (folder / "unbound.conf").write_text(f"""server:
  interface: {peers.LOOPBACK}@{upstream}
  username: ""
  chroot: ""
  directory: "{folder}"
  pidfile: ""
  use-syslog: no
  logfile: "{folder}/unbound.log"
  num-threads: 1
  local-zone: miss.test redirect
  local-data: "miss.test 0 A 192.0.2.7"
  local-zone: kept.test redirect
  local-data: "kept.test 86400 A 192.0.2.8"
""")


class Comers:
    """100 connections at a time that come, ask three queries and go. They come to these addresses of the server by turns."""

    def __init__(self, port, hosts):
        self.port, self.hosts, self.is_over = port, hosts, False
        self.done = self.lost = self.open = 0
        self.lock = threading.Lock()
        self.may_come = threading.Event()
        self.may_come.set()
        self.threads = [threading.Thread(target=self.come_and_go, args=(n,), daemon=True) for n in range(CONNECTIONS)]
        for thread in self.threads:
            thread.start()

    def come_and_go(self, number):
        while not self.is_over:
            self.may_come.wait()
            with self.lock:
                self.open += 1
            well = self.one(number)
            with self.lock:
                self.open -= 1
                self.done += 1
                self.lost += not well
            time.sleep(0.5)

    def pause(self):
        """Lets no more come, and waits until all have gone."""
        self.may_come.clear()
        end = time.monotonic() + 20
        while self.open and time.monotonic() < end:
            time.sleep(0.05)
        time.sleep(0.5)

    def one(self, number):
        try:
            with peers.socket.create_connection((self.hosts[number % len(self.hosts)], self.port), 5) as sock:
                sock.settimeout(5)
                for name in (f"h{number}.example", f"p{number}.kept.test", f"c{time.monotonic_ns()}.miss.test"):
                    sock.sendall(wire.frame(wire.query(number, name)))
                    if wire.read_frame(sock) is None:
                        return False
                    time.sleep(0.1)
        except OSError:
            return False
        return True


class Changes:
    def __init__(self, primary, port, a_second):
        self.primary, self.port, self.a_second, self.is_over = primary, port, a_second, False
        self.unanswered = 0
        self.thread = threading.Thread(target=self.change, daemon=True)
        self.thread.start()

    def change(self):
        while not self.is_over:
            begun = time.monotonic()
            self.primary.next_change()
            try:
                self.primary.notify(self.port)
            except OSError:
                self.unanswered += 1
            time.sleep(max(0.0, begun + 1 / self.a_second - time.monotonic()))


class Stranger:
    """A client that may not ask."""

    def __init__(self, port):
        self.is_over, self.asked, self.unrefused = False, 0, 0
        self.sock = peers.socket.socket(peers.socket.AF_INET, peers.socket.SOCK_DGRAM)
        self.sock.settimeout(5)
        self.sock.bind((STRANGER, 0))
        self.sock.connect((peers.LOOPBACK, port))
        self.thread = threading.Thread(target=self.ask, daemon=True)
        self.thread.start()

    def ask(self):
        while not self.is_over:
            self.asked += 1
            try:
                self.sock.send(wire.query(self.asked & 0xFFFF, f"h{self.asked % HITS}.example"))
                reply = self.sock.recv(4096)
                self.unrefused += wire.rcode_of(reply) != REFUSED or wire.number_of(reply) != self.asked & 0xFFFF
            except OSError:
                self.unrefused += 1
            time.sleep(0.01)


def dnsperf(path, port, seconds, rate, host=peers.LOOPBACK):
    # the client's buffers are large, too: replies that it has no room for would count as lost
    words = ["dnsperf", "-s", host, "-p", str(port), "-d", str(path), "-l", str(seconds), "-c", "8", "-T", "1", "-q", "2000",
             "-t", "5", "-b", "4096", "-Q", str(rate)]
    return subprocess.run(words, capture_output=True, text=True, check=True).stdout


def figure(text, label):
    return int(float(re.search(rf"{label}:\s+([0-9.]+)", text)[1]))


def dropped(port):
    """How many datagrams the system has dropped that found no room in the buffers of the server's sockets."""
    rows = []
    for path in ("/proc/net/udp", "/proc/net/udp6"):
        with open(path, encoding="ascii") as file:
            rows += [line.split() for line in file.readlines()[1:]]
    return sum(int(row[-1]) for row in rows if int(row[1].split(":")[1], 16) == port)


class Pauses:
    """The longest time for which this process didn't run though it wanted to: whether the machine stood still."""

    def __init__(self):
        self.longest = 0.0
        threading.Thread(target=self.look, daemon=True).start()

    def look(self):
        while True:
            begun = time.monotonic()
            time.sleep(0.01)
            self.longest = max(self.longest, time.monotonic() - begun - 0.01)

    def take(self):
        """The longest since the last call."""
        longest, self.longest = self.longest, 0.0
        return longest


def watch(server, options, path, comers, hosts):
    """Asks in parts of a minute, or of a tenth of the time; what was sent, lost and seen of memory and descriptors."""
    sent = lost = 0
    seen, pauses = [], Pauses()
    end = time.monotonic() + options.seconds
    while (left := end - time.monotonic()) >= 1:
        host = hosts[len(seen) % len(hosts)]
        text = dnsperf(path, options.port, max(1, int(min(60, options.seconds / 10, left))), options.rate, host)
        sent, lost = sent + figure(text, "Queries sent"), lost + figure(text, "Queries lost")
        comers.pause()
        seen.append((server.resident(), server.descriptors()))
        comers.may_come.set()
        print(f"{sent:>12,} asked, {lost} lost ({dropped(options.port)} before the server read them), {seen[-1][0] / 2 ** 20:.2f} MiB resident, "
              f"{seen[-1][1]} descriptors, longest pause of the machine {1000 * pauses.take():.0f} ms", flush=True)
    return sent, lost, seen


def main():
    parser = argparse.ArgumentParser()
    parser.add_argument("program")
    parser.add_argument("--seconds", type=int, default=3600)
    parser.add_argument("--rate", type=int, default=50_000)
    parser.add_argument("--rules", type=int, default=1_000)
    parser.add_argument("--changes", type=float, default=10)
    parser.add_argument("--workers", type=int, default=4)
    parser.add_argument("--askers", type=int, help="how many threads ask the upstream; the server's own number if it isn't given")
    parser.add_argument("--warm", type=int, default=5)
    parser.add_argument("--port", type=int, default=24000)
    parser.add_argument("--both", action="store_true", help="over both versions of IP, with a client that may not ask")
    options = parser.parse_args()
    hosts = [peers.LOOPBACK, V6] if options.both else [peers.LOOPBACK]
    port = options.port
    with tempfile.TemporaryDirectory() as name:
        folder = pathlib.Path(name)
        write_files(folder, port + 1, min(HITS, options.rules))
        path = os.environ["PATH"] + ":/usr/sbin"
        unbound = subprocess.Popen(["unbound", "-d", "-c", str(folder / "unbound.conf")], env={**os.environ, "PATH": path})
        primary = ChangingPrimary(port + 2, [f"h{n}.example" for n in range(options.rules)])
        words = ["--askers", str(options.askers)] if options.askers else []
        words += ["--allow", f"{peers.LOOPBACK}/32,{V6}/128"] if options.both else []
        server = peers.Server(options.program, port, port + 1, [(peers.ZONE, port + 2)], options.workers, words, more_hosts=hosts[1:])
        try:
            server.wait_for("h0.example", seconds=60)
            dnsperf(folder / "queries", port, options.warm, options.rate)
            changes, comers = Changes(primary, port, options.changes), Comers(port, hosts)
            stranger = Stranger(port) if options.both else None
            sent, lost, seen = watch(server, options, folder / "queries", comers, hosts)
            changes.is_over = comers.is_over = True
            changes.thread.join(10)
            if stranger:
                stranger.is_over = True
                stranger.thread.join(10)
            for thread in comers.threads:
                thread.join(20)
            newest = f"new{primary.serial - 1}.example"
            server.wait_for(newest, 3, 5)
        finally:
            server.end()
            unbound.terminate()
            unbound.wait(10)
    with open(server.log, encoding="ascii") as file:
        lines = file.read().splitlines()
    taken = sum(line.startswith("taken") for line in lines)
    refused = [line for line in lines if line.startswith("refused")]
    first, last = seen[len(seen) // 10], seen[-1]
    grew = last[0] - first[0] > max(GROWS_BYTES, GROWS_PART * first[0]) or last[1] > first[1]
    print(f"{sent:,} queries over UDP, {lost} lost; {comers.done:,} connections, {comers.lost} without all their replies; "
          f"{primary.serial - 1:,} changes, {changes.unanswered} NOTIFYs without a reply; {taken:,} transfers taken "
          f"({primary.in_steps:,} in steps, {primary.whole} whole), {len(refused)} refused; the last change was in force; memory "
          f"{first[0] / 2 ** 20:.1f} to {last[0] / 2 ** 20:.1f} MiB ({100 * (last[0] / first[0] - 1):+.1f} %), descriptors {first[1]} to "
          f"{last[1]}")
    for line in refused[:5]:
        print("  ", line)
    unrefused = stranger.unrefused if stranger else 0
    if stranger:
        print(f"{stranger.asked:,} queries of a client that may not ask, {unrefused} not refused")
    os._exit(1 if lost or comers.lost or refused or changes.unanswered or grew or unrefused else 0)


if __name__ == "__main__":
    main()
