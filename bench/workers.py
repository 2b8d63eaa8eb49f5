#!/usr/bin/env python3
"""How many answers workers give in threads of their own over one store and one cache, while another thread publishes.

    python3 bench/workers.py BENCH

BENCH is the built program bench. Half of the rules of a zone are hK.gJ.example CNAME . and half
*.wK.gJ.example CNAME . (every name doesn't exist). Hits ask for names of the first kind, drawn at random. Cached passes ask for
pK.gJ.example, of which no rule is, for 50,000 names in a random order, and for one name alone; an answer of one address for each
is in the cache before the workers start. The messages are the same at each run; each worker takes all of them in turn, and begins
at another one. A second zone is published ten times a second meanwhile.

Prints, for hits with 1,000 and 1,000,000 rules and for cached passes with 1,000, the answers a second of `Worker::answer` with 1, 2
and 4 threads, the best of three runs, and how many times those of one thread these are. The time is that from the line that says
that the zone is loaded to the line that says that all is answered. It ends where a name was not in the cache.
"""

import random
import subprocess
import sys
import tempfile
import time

from queries import ORIGIN, TTL, answer, asked, framed, query, rules, write_transfer

THREADS = (1, 2, 4)
RULES = (1_000, 1_000_000)
RUNS = 3
NAMES = 4_000  # of hits
CACHED_NAMES = (50_000, 1)
CACHED_RULES = 1_000
QUERIES = 2_000_000  # of each worker
PAUSE = 100  # milliseconds between two publications


def write_hits(out, count):
    write_transfer(out, rules(count), ORIGIN)
    numbers = random.Random(1)
    for _ in range(NAMES):
        out.write(framed(query(asked("exact hits", numbers.randrange(count // 2)))))


def write_passes(out, count):
    """The transfer, a query for each of so many names, an empty message, and an answer of the ID 0 for each."""
    write_transfer(out, rules(CACHED_RULES), ORIGIN)
    names = [asked("passes", number) for number in range(count)]
    random.Random(1).shuffle(names)
    for labels in names:
        out.write(framed(query(labels)))
    out.write(framed(b""))
    for labels in names:
        out.write(framed(answer(-1, labels, TTL, 1)))


def seconds(program, path, threads):
    """The seconds in which so many threads answer."""
    words = [program, "workers", str(threads), str(QUERIES), str(PAUSE)]
    with open(path, "rb") as stream:
        child = subprocess.Popen(words, stdin=stream, stdout=subprocess.PIPE, stderr=subprocess.PIPE)
        said = [child.stderr.readline()]
        start = time.perf_counter()
        said.append(child.stderr.readline())
        end = time.perf_counter()
        counts = child.stdout.read()
        status = child.wait()
    if status != 0 or said != [b"loaded\n", b"answered\n"] or counts != f"replies {threads * QUERIES} others 0\n".encode():
        sys.exit(f"{threads} threads: status {status}, {said!r}, {counts!r}")
    return end - start


def measure(program, title, write, count):
    with tempfile.NamedTemporaryFile(suffix=".input") as stream:
        write(stream, count)
        stream.flush()
        alone = None
        for threads in THREADS:
            least = min(seconds(program, stream.name, threads) for _ in range(RUNS))
            rate = threads * QUERIES / least
            alone = alone or rate
            print(f"{title}, {threads} threads: {rate:,.0f} answers/s, {rate / alone:.2f} times those of one", flush=True)


def main():
    program = sys.argv[1]
    for count in RULES:
        measure(program, f"hits, {count} rules", write_hits, count)
    for count in CACHED_NAMES:
        measure(program, f"cached passes, {count} names", write_passes, count)


if __name__ == "__main__":
    main()
