#!/usr/bin/env python3
"""How many system calls and how many calls for memory a query costs `rpz serve`, where a rule or the cache answers it.

    python3 bench/per_query.py RPZ [--queries N] [--workers N]

RPZ is the built program. Wanted: strace and cc. A server is run twice for each row, to its end, with a few thousand queries and with so
many more (20,000): the difference is what these cost. System calls are counted by `strace -f -c`, calls for memory by
bench/count_allocations.c. Queries are asked one after another, so that the worker waits for each, and 64 at once, so that some always
wait for the worker.
"""

import argparse
import collections
import os
import pathlib
import re
import socket
import struct
import subprocess
import sys
import tempfile
import time

ROOT = pathlib.Path(__file__).resolve().parent
sys.path.insert(0, str(ROOT.parent / "tools" / "attack"))

import peers
import wire

PRIMARY, UPSTREAM, PORT = 5311, 5312, 5313
FEW = 2_000
KINDS = ("malloc", "calloc", "realloc", "aligned_alloc", "posix_memalign", "free")
LAST = 50  # queries of which it isn't waited for all replies
NAMES = {"hits of a rule": [f"bad{number}.example" for number in range(200)],
         "cached passes": [f"pass{number}.example" for number in range(200)]}


def ask(sock, number, name):
    sock.sendto(wire.query(number & 0xFFFF, name), ("127.0.0.1", PORT))


def ask_all(names, count, at_once, seconds=5):
    """Asks so many queries, so many at once, and waits for all replies; gives up where one doesn't come in time."""
    with socket.socket(socket.AF_INET, socket.SOCK_DGRAM) as sock:
        sock.settimeout(seconds)
        for begin in range(0, count, at_once):
            some = range(begin, min(begin + at_once, count))
            for number in some:
                ask(sock, number, names[number % len(names)])
            for _ in some:
                try:
                    sock.recv(4096)
                except TimeoutError:
                    return


def run(program, names, count, at_once, workers, before, env):
    """Runs a server to its end, with so many queries behind those that fill the cache. The last of them come until it has ended."""
    words = [*before, program, "serve", f"127.0.0.1:{PORT}", f"127.0.0.1:{UPSTREAM}", str(len(names) + count), str(workers),
             f"{peers.ZONE}@127.0.0.1:{PRIMARY}"]
    process = subprocess.Popen(words, stdin=subprocess.DEVNULL, stdout=subprocess.DEVNULL, stderr=subprocess.PIPE, text=True,
                               env={**os.environ, **env})
    wait_for_zone()
    ask_all(names, len(names), 1)
    ask_all(names, count - LAST, at_once)
    while process.poll() is None:
        ask_all(names[:1], 1, 1, seconds=0.1)
    return process.communicate()[1]


def wait_for_zone():
    for _ in range(100):
        try:
            with socket.create_connection(("127.0.0.1", PORT), 1) as sock:
                sock.sendall(wire.frame(wire.query(1, NAMES["hits of a rule"][0])))
                if wire.rcode_of(wire.read_frame(sock)) == 3:
                    return
        except OSError:
            pass
        time.sleep(0.1)
    raise SystemExit("the server has no zone")


def system_calls(program, names, count, at_once, workers, folder):
    out = folder / "calls"
    run(program, names, count, at_once, workers, ["strace", "-f", "-c", "-o", str(out)], {})
    calls = collections.Counter()
    for line in out.read_text().splitlines():
        found = re.match(r"\s*[\d.]+\s+[\d.]+\s+\d+\s+(\d+)\s+(?:\d+\s+)?(\w+)$", line)
        if found and found[2] != "total":
            calls[found[2]] += int(found[1])
    return calls


def allocations(program, names, count, at_once, workers, shim):
    out = shim.with_name("counts")
    out.unlink(missing_ok=True)
    run(program, names, count, at_once, workers, [], {"LD_PRELOAD": str(shim), "COUNT_FILE": str(out)})
    return collections.Counter(dict(zip(KINDS, struct.unpack("6Q", out.read_bytes()))))


def shown(more, few, count):
    each = {name: (more[name] - few[name]) / count for name in more}
    return "  ".join(f"{name} {number:.2f}" for name, number in sorted(each.items(), key=lambda it: -it[1]) if number >= 0.005)


def main():
    parser = argparse.ArgumentParser()
    parser.add_argument("rpz")
    parser.add_argument("--queries", type=int, default=20_000)
    parser.add_argument("--workers", type=int, default=1)
    options = parser.parse_args()
    program = str(pathlib.Path(options.rpz).resolve())
    peers.Primary(PRIMARY, NAMES["hits of a rule"])
    peers.Upstream(UPSTREAM)
    with tempfile.TemporaryDirectory() as name:
        folder = pathlib.Path(name)
        shim = folder / "count_allocations.so"
        subprocess.run(["cc", "-O2", "-shared", "-fPIC", "-o", shim, ROOT / "count_allocations.c"], check=True)
        for kind, names in NAMES.items():
            for at_once in (1, 64):
                for title, counted, last in (("system calls", system_calls, folder), ("memory", allocations, shim)):
                    few, more = (counted(program, names, count, at_once, options.workers, last) for count in (FEW, FEW + options.queries))
                    print(f"{kind:<15} {at_once:>3} at once  {title:<13} {shown(more, few, options.queries)}", flush=True)


if __name__ == "__main__":
    main()
