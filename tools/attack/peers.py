"""Peers of a server on the loopback: a primary, an upstream, and the server itself. Their threads end with the script, or at `end`."""

import contextlib
import heapq
import os
import signal
import socket
import subprocess
import sys
import tempfile
import threading
import time

import wire

HERE = os.path.dirname(os.path.abspath(__file__))
LOOPBACK = "127.0.0.1"
ZONE = "rpz.example"
KEPT = 600  # the TTL of what an upstream answers, so that nothing expires before a case has ended


def listener(port, host=LOOPBACK):
    sock = socket.socket(family_of(host))
    sock.setsockopt(socket.SOL_SOCKET, socket.SO_REUSEADDR, 1)
    sock.bind((host, port))
    sock.listen(512)
    return sock


def endpoint(host, port):
    """As the command line writes it."""
    return f"[{host}]:{port}" if ":" in host else f"{host}:{port}"


def family_of(host):
    return socket.AF_INET6 if ":" in host else socket.AF_INET


class Listener:
    """Takes the connections to a port, and serves each in a thread of its own."""

    def __init__(self, port, serve, host=LOOPBACK):
        self.serve, self.lock, self.open = serve, threading.Lock(), set()
        self.sock = listener(port, host)
        threading.Thread(target=self.accept, daemon=True).start()

    def accept(self):
        with contextlib.suppress(OSError):
            while True:
                connection, _ = self.sock.accept()
                threading.Thread(target=self.serve_one, args=(connection,), daemon=True).start()

    def serve_one(self, connection):
        with connection, contextlib.suppress(OSError):
            connection.setsockopt(socket.IPPROTO_TCP, socket.TCP_NODELAY, 1)
            with self.lock:
                self.open.add(connection)
            try:
                self.serve(connection)
            finally:
                with self.lock:
                    self.open.discard(connection)

    def end(self):
        """Takes no more connections, and ends those that are open; whoever reads or writes there gets an end or an error."""
        with self.lock:
            for sock in [self.sock, *self.open]:
                with contextlib.suppress(OSError):
                    sock.shutdown(socket.SHUT_RDWR)
        self.sock.close()


def serve_each(port, serve, host=LOOPBACK):
    """Calls `serve` in a thread of its own for each connection."""
    return Listener(port, serve, host)


class Primary:
    """A primary of one policy zone. `is_stopped`: it accepts connections and says nothing. `drips`: it sends an octet each second."""

    def __init__(self, port, rules, is_stopped=False, host=LOOPBACK):
        self.port, self.serial, self.rules = port, 1, list(rules)
        self.is_stopped, self.drips, self.has_ended = is_stopped, False, False
        self.requests = self.transfers = 0
        self.listener = serve_each(port, self.serve, host)

    def serve(self, connection):
        request = wire.read_frame(connection)
        if request is None:
            return
        self.requests += 1
        while self.is_stopped and not self.has_ended:
            time.sleep(0.05)
        for message in wire.transfer(request, ZONE, self.serial, self.rules):
            self.send(connection, message)
        self.transfers += 1

    def send(self, connection, message):
        gone = 0
        while self.drips and gone < len(message):
            connection.sendall(message[gone: gone + 1])
            gone += 1
            time.sleep(1)
        connection.sendall(message[gone:])

    def change(self, rule):
        self.rules.append(rule)
        self.serial += 1

    def notify(self, port, over_tcp=False):
        """Sends a NOTIFY, and gives the rcode of its reply."""
        message = wire.notify(7, ZONE)
        if over_tcp:
            with socket.create_connection((LOOPBACK, port), 5) as sock:
                sock.sendall(wire.frame(message))
                return wire.rcode_of(wire.read_frame(sock))
        with socket.socket(socket.AF_INET, socket.SOCK_DGRAM) as sock:
            sock.settimeout(5)
            sock.sendto(message, (LOOPBACK, port))
            return wire.rcode_of(sock.recv(512))

    def end(self):
        self.has_ended = True
        self.listener.end()


class Upstream:
    """A recursive resolver over TCP, which takes several questions on a connection. Names that begin with `hang` get no answer, those
    with `slow` one after a second, all others after `delay`; those with `large` get one of nearly 60,000 octets."""

    def __init__(self, port, delay=0.0, host=LOOPBACK):
        self.port, self.delay = port, delay
        self.is_stopped = False
        self.questions = self.connections = 0
        self.later = Later()
        self.listener = serve_each(port, self.serve, host)

    def serve(self, connection):
        self.connections += 1
        lock = threading.Lock()
        while True:
            message = wire.read_frame(connection)
            if message is None:
                return
            self.questions += 1
            name = wire.question_name(message)
            if name.startswith("hang") or self.is_stopped:
                continue
            wait = 1.0 if name.startswith("slow") else self.delay
            if wait:
                self.later.call(wait, self.reply, connection, lock, message)
            else:
                self.reply(connection, lock, message)

    @staticmethod
    def reply(connection, lock, message):
        make = wire.large_answer if wire.question_name(message).startswith("large") else wire.answer
        with lock, contextlib.suppress(OSError):
            connection.sendall(wire.frame(make(message, ttl=KEPT)))

    def end(self):
        self.listener.end()
        self.later.end()


class Later:
    """Calls functions after a time, all of them in one thread."""

    def __init__(self):
        self.condition, self.calls, self.count, self.has_ended = threading.Condition(), [], 0, False
        threading.Thread(target=self.call_all, daemon=True).start()

    def call(self, seconds, function, *arguments):
        with self.condition:
            self.count += 1
            heapq.heappush(self.calls, (time.monotonic() + seconds, self.count, function, arguments))
            self.condition.notify()

    def call_all(self):
        while True:
            with self.condition:
                while not self.has_ended and (not self.calls or self.calls[0][0] > time.monotonic()):
                    self.condition.wait(self.calls[0][0] - time.monotonic() if self.calls else None)
                if self.has_ended:
                    return
                _, _, function, arguments = heapq.heappop(self.calls)
            function(*arguments)

    def end(self):
        with self.condition:
            self.has_ended = True
            self.condition.notify()


class Program:
    """A server that runs as a process of its own, on an address of this host. `started`: what else `Popen` is given."""

    is_ours = False  # has the limits that cases of our server look for

    def __init__(self, words, port, host, stdout, stderr=subprocess.DEVNULL, **started):
        self.host, self.port = host, port
        streams = {"stdin": subprocess.DEVNULL, "stdout": stdout, "stderr": stderr}
        self.process = subprocess.Popen(words, **streams, **started)

    def wait_for(self, name, rcode=3, seconds=10):
        """Waits until a name gets this rcode."""
        end = time.monotonic() + seconds
        while time.monotonic() < end:
            if ask(self.port, name, 0.2, host=self.host) == rcode:
                return
            time.sleep(0.05)
        raise RuntimeError(f"{name} doesn't get rcode {rcode}")

    def resident(self):
        """Octets of resident memory."""
        with open(f"/proc/{self.process.pid}/statm", encoding="ascii") as file:
            return int(file.read().split()[1]) * os.sysconf("SC_PAGESIZE")

    def peak(self):
        """The most octets of resident memory that it has had."""
        with open(f"/proc/{self.process.pid}/status", encoding="ascii") as file:
            return int(next(line for line in file if line.startswith("VmHWM:")).split()[1]) << 10

    def descriptors(self):
        return len(os.listdir(f"/proc/{self.process.pid}/fd"))

    def end(self):
        self.process.send_signal(signal.SIGTERM)
        try:
            self.process.wait(10)
        except subprocess.TimeoutExpired:
            self.process.kill()
            self.process.wait(10)


class Server(Program):
    """`rpz serve` with its standard output and error in files, on an address of this host, and on `more_hosts`, at the same port.
    `primaries`: of each zone its name, the port of its primary, and maybe what stands behind these words. `peers`: where these and the
    upstream are."""

    is_ours = True

    def __init__(
        self, program, port, upstream, primaries, workers, options=(), stdout=None, host=LOOPBACK, turns="forever", more_hosts=(),
        peers=LOOPBACK, **started,
    ):
        zones = [f"{zone}@{endpoint(peers, at)}{''.join(behind)}" for zone, at, *behind in primaries]
        listen = ",".join(endpoint(one, port) for one in (host, *more_hosts))
        words = [program, "serve", *options, listen, endpoint(peers, upstream), str(turns), str(workers), *zones]
        self.log, self.errors = (f"{tempfile.gettempdir()}/attack-{os.getpid()}-{port}.{kind}" for kind in ("log", "errors"))
        with open(self.log, "wb") as log, open(self.errors, "wb") as errors:
            super().__init__(words, port, host, log if stdout is None else stdout, errors, **started)

    def lines(self):
        """What it has written on standard output, where that is its file."""
        with open(self.log, encoding="utf-8") as file:
            return file.read().splitlines()

    def complaints(self):
        """What it has written on standard error."""
        with open(self.errors, encoding="utf-8", errors="replace") as file:
            return file.read().splitlines()

    def remove_files(self):
        os.remove(self.log)
        os.remove(self.errors)


def ask(port, name, seconds, qtype=wire.A, host=LOOPBACK):
    """The rcode of the reply to a query over UDP, or None where none comes in time."""
    with socket.socket(family_of(host), socket.SOCK_DGRAM) as sock:
        sock.settimeout(seconds)
        sock.sendto(wire.query(os.getpid() & 0xFFFF, name, qtype), (host, port))
        try:
            return wire.rcode_of(sock.recv(4096))
        except (TimeoutError, OSError):
            return None


def ask_over_tcp(port, name, seconds, qtype=wire.A, host=LOOPBACK):
    """The same over TCP, on a connection of its own."""
    with contextlib.suppress(OSError), socket.create_connection((host, port), seconds) as sock:
        sock.settimeout(seconds)
        sock.sendall(wire.frame(wire.query(os.getpid() & 0xFFFF, name, qtype)))
        reply = wire.read_frame(sock)
        return None if reply is None else wire.rcode_of(reply)
    return None


class Prober:
    """Queries of a process of its own, during an attack: over UDP and TCP, to names that a rule or the cache answers."""

    def __init__(self, port, names, count=1000, streams=100, gap=0.004, host=LOOPBACK):
        words = [sys.executable, os.path.join(HERE, "probe.py"), host, str(port), str(count), str(streams), str(gap), *names]
        self.process = subprocess.Popen(words, stdout=subprocess.PIPE, text=True)

    def result(self):
        """(lost over UDP, the slowest in seconds, lost over TCP, the slowest)"""
        out, _ = self.process.communicate()
        udp_lost, udp_slow, tcp_lost, tcp_slow = out.split()
        return int(udp_lost), float(udp_slow), int(tcp_lost), float(tcp_slow)
