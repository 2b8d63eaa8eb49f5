#!/usr/bin/env python3
"""Attacks that want a network of their own, of two namespaces: the server is in one, and the attacker in the other.

    python3 neighbours.py silent PROGRAM PORT WORKERS    queries from addresses of the server's own subnet that nobody has, so that each
                                                         reply waits in the system for an address that never resolves
    python3 neighbours.py greedy PROGRAM PORT WORKERS    new connections of one client, again and again, of which it may have few

It makes both namespaces, runs both sides in them, and prints what came of it. The namespaces are this script's own and go with it; nothing
of the host's network is touched.
"""

import contextlib
import os
import socket
import struct
import subprocess
import sys
import time

import wire
from crowd import Crowd
from harness import RULED, Failed, case, connect, fail_if

HERE = os.path.abspath(__file__)
HOST, PREFIX = "198.51.100.1", "198.51.100"
GREEDY, OTHER = f"{PREFIX}.2", f"{PREFIX}.3"
QUERIES, SECONDS = 2_000, 100.0
EACH, ROUND = 20, 100  # connections that a client may have, and those that it opens in each round


def ip(*words):
    subprocess.run(["ip", *words], check=True, stdout=subprocess.DEVNULL, stderr=subprocess.PIPE)


# ---- the attacker's side


def datagram(source, port, payload):
    """An IPv4 packet with a UDP datagram from an address of the subnet (RFC 791, RFC 768; without a checksum of UDP)."""
    udp = struct.pack("!HHHH", 40_000, port, 8 + len(payload), 0) + payload
    head = struct.pack("!BBHHHBBH4s4s", 0x45, 0, 20 + len(udp), 0, 0, 64, 17, 0, socket.inet_aton(source), socket.inet_aton(HOST))
    total = sum(struct.unpack("!10H", head))
    while total >> 16:
        total = (total & 0xFFFF) + (total >> 16)
    return head[:10] + struct.pack("!H", ~total & 0xFFFF) + head[12:] + udp


def flood(port, mac):
    """Sends the queries of 200 silent addresses, again and again, as long as a server needs to be watched."""
    with socket.socket(socket.AF_PACKET, socket.SOCK_RAW) as sock:
        sock.bind(("neighbour", 0))
        own = sock.getsockname()[4]
        frames = []
        for number in range(QUERIES):
            source = f"{PREFIX}.{50 + number % 200}"
            packet = datagram(source, port, wire.query(number & 0xFFFF, RULED[number % len(RULED)]))
            frames.append(bytes.fromhex(mac.replace(":", "")) + own + b"\x08\x00" + packet)
        end = time.monotonic() + SECONDS
        while time.monotonic() < end:
            for start in range(0, QUERIES, 20):
                for frame in frames[start: start + 20]:
                    sock.send(frame)
                time.sleep(0.01)


def grasp(port):
    """Opens connections of one client in rounds, and has another client ask over TCP in each. Prints, after each round, the connections
    that are open behind it and whether the other client was answered."""
    with Crowd(port, host=HOST, sources=[GREEDY]) as crowd:
        end = time.monotonic() + SECONDS
        while time.monotonic() < end:
            with contextlib.suppress(OSError):
                crowd.open(ROUND)
            settle(crowd)
            print(len(crowd.held), int(is_answered(port)), flush=True)


def settle(crowd):
    """Gives the server up to 3 seconds to close those that are too many."""
    for _ in range(15):
        time.sleep(0.2)
        crowd.look()
        if len(crowd.held) <= EACH:
            return


def is_answered(port):
    """Whether the other client is, over TCP."""
    with contextlib.suppress(OSError), connect(port, OTHER, HOST) as sock:
        sock.settimeout(2)
        sock.sendall(wire.frame(wire.query(1, RULED[0])))
        reply = wire.read_frame(sock)
        return reply is not None and wire.rcode_of(reply) == 3
    return False


# ---- the server's side


def received():
    """How many datagrams have come to sockets of this namespace."""
    with open("/proc/net/snmp", encoding="ascii") as file:
        return int([line for line in file if line.startswith("Udp:")][1].split()[1])


@contextlib.contextmanager
def attacker(space, *words):
    """This script in the attacker's namespace."""
    words = ["ip", "netns", "exec", space, sys.executable, HERE, *words]
    with subprocess.Popen(words, stdout=subprocess.PIPE, text=True) as process:
        try:
            time.sleep(1)
            yield process
        finally:
            process.terminate()


def silent(space):
    @case(others=True, host=HOST)
    def attack(it):
        with open("/sys/class/net/server/address", encoding="ascii") as file:
            mac = file.read().strip()
        before = received()
        with attacker(space, "flood", str(it.port), mac) as flooding:
            yield
            came, goes_on = received() - before, flooding.poll() is None
        fail_if(not goes_on or came < 2 * QUERIES, f"only {came:,} queries came")
        return f"{came:,} queries came, the prober's among them"

    return attack


def greedy(space):
    @case(others=True, host=HOST, options=("--tcp-per-client", str(EACH)))
    def attack(it):
        with attacker(space, "grasp", str(it.port)) as grasping:
            yield
            goes_on = grasping.poll() is None
            grasping.terminate()
            rounds = [tuple(map(int, line.split())) for line in grasping.stdout]
        fail_if(not goes_on or len(rounds) < 5, f"only {len(rounds)} rounds")
        most, lost = max(open_now for open_now, _ in rounds), sum(not answered for _, answered in rounds)
        said = f"{most} open of one client at most, in {len(rounds)} rounds of {ROUND}; another client: lost {lost} of {len(rounds)}"
        fail_if(most != EACH or lost, said)
        return said

    return attack


ATTACKS = {"silent": silent, "greedy": greedy}


def attacked(attack, program, port, workers, space):
    try:
        said, status = ATTACKS[attack](space)(program, port, workers), 0
    except Failed as why:
        said, status = str(why), 1
    print(said)
    return status


def main():
    if sys.argv[1] == "flood":
        return flood(int(sys.argv[2]), sys.argv[3])
    if sys.argv[1] == "grasp":
        return grasp(int(sys.argv[2]))
    if sys.argv[1] == "attacked":
        _, _, attack, program, port, workers, space = sys.argv
        return attacked(attack, program, int(port), int(workers), space)
    return in_namespaces(sys.argv[1], os.path.abspath(sys.argv[2]), sys.argv[3], sys.argv[4])


def in_namespaces(attack, program, port, workers):
    spaces = [f"rpz-attacked-{os.getpid()}", f"rpz-attacker-{os.getpid()}"]
    try:
        for space in spaces:
            ip("netns", "add", space)
            ip("-n", space, "link", "set", "lo", "up")
        ip("link", "add", "server", "netns", spaces[0], "type", "veth", "peer", "name", "neighbour", "netns", spaces[1])
        ip("-n", spaces[0], "address", "add", f"{HOST}/24", "dev", "server")
        for address in (GREEDY, OTHER):
            ip("-n", spaces[1], "address", "add", f"{address}/24", "dev", "neighbour")
        ip("-n", spaces[0], "link", "set", "server", "up")
        ip("-n", spaces[1], "link", "set", "neighbour", "up")
        words = ["ip", "netns", "exec", spaces[0], sys.executable, HERE, "attacked", attack, program, port, workers, spaces[1]]
        return subprocess.run(words, check=False).returncode
    finally:
        for space in spaces:
            subprocess.run(["ip", "netns", "del", space], check=False, stderr=subprocess.DEVNULL)


if __name__ == "__main__":
    sys.exit(main())
