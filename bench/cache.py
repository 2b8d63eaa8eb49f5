#!/usr/bin/env python3
"""What an entry takes in the cache that workers share, and what the cache takes however many names come.

    python3 bench/cache.py BENCH [--names COUNT]

BENCH is the built program bench. It is given answers of one address each, as workers learn them, for names that differ; its cache
holds 65,536 answers. The first line is the memory that one answer takes of the first 50,000: how much larger the resident memory of
the program is behind them than before, by their number. The second one is the same of answers whose authority section has a SOA
record, which is kept, and whose additional section has four addresses, which aren't. Then come random names, 10,000,000 unless COUNT says
otherwise, and the resident memory behind the first 200,000 of them, behind each fifth of all, and how much larger the last one is.
"""

import argparse
import fcntl
import random
import struct
import subprocess
import sys
import tempfile
import termios
import time

from queries import ORIGIN, TTL, address, asked, framed, label, query, rules, write_transfer

ENTRIES = 50_000
FIRST = 200_000
PARTS = 5
RULES = 1_000


def question(number):
    return label("p%012x" % number) + b"\x01g\x07example\x00\x00\x01\x00\x01"


def plain(number):
    head = struct.pack(">HHHHHH", 0, 0x8180, 1, 1, 0, 0)
    return framed(head + question(number) + address(TTL, 0))


def with_sections(number):
    """The same with more in its other sections."""
    soa = b"\xc0\x1a" + struct.pack(">HHIH", 6, 1, TTL, 24) + b"\xc0\x1a\xc0\x1a" + struct.pack(">5I", 1, 3600, 600, 86400, 60)
    more = b"".join(b"\xc0\x1a" + struct.pack(">HHIH", 1, 1, TTL, 4) + bytes([192, 0, 2, last]) for last in range(4))
    head = struct.pack(">HHHHHH", 0, 0x8180, 1, 1, 1, 4)
    return framed(head + question(number) + address(TTL, 0) + soa + more)


class Cache:
    """The program, which takes answers until its input ends."""

    def __init__(self, program):
        self.errors = tempfile.TemporaryFile()
        words = [program, "workers", "1", "1", "1000"]
        self.child = subprocess.Popen(words, stdin=subprocess.PIPE, stdout=subprocess.DEVNULL, stderr=self.errors)
        write_transfer(self.child.stdin, rules(RULES), ORIGIN)
        self.child.stdin.write(framed(query(asked("passes", 0))) + framed(b""))

    def give(self, answers):
        self.child.stdin.writelines(answers)

    def resident(self):
        """The resident memory in octets, once all that was given is taken."""
        self.child.stdin.flush()
        left = b"\x01\x00\x00\x00"
        while struct.unpack("i", left)[0]:
            if self.child.poll() is not None:
                sys.exit(f"the program ended with status {self.child.returncode}")
            time.sleep(0.05)
            left = fcntl.ioctl(self.child.stdin, termios.FIONREAD, b"\x00" * 4)
        time.sleep(0.5)
        with open(f"/proc/{self.child.pid}/status", encoding="ascii") as status:
            return next(int(line.split()[1]) * 1024 for line in status if line.startswith("VmRSS"))

    def end(self):
        self.child.kill()
        self.child.wait()


def entry(program, title, answer):
    cache = Cache(program)
    before = cache.resident()
    cache.give(answer(number) for number in range(ENTRIES))
    print(f"{title}: {(cache.resident() - before) / ENTRIES:.0f} octets an entry", flush=True)
    cache.end()


def many(program, count):
    cache = Cache(program)
    draw = random.Random(1)
    given, first = 0, None
    for until in [min(FIRST, count)] + [count * part // PARTS for part in range(1, PARTS + 1)]:
        cache.give(plain(draw.getrandbits(48)) for _ in range(until - given))
        given = max(given, until)
        now = cache.resident()
        first = first or now
        print(f"{given:,} random names: {now / 1e6:.1f} MB, {(now - first) / 1e6:+.1f}", flush=True)
    cache.end()


def main():
    reader = argparse.ArgumentParser()
    reader.add_argument("program")
    reader.add_argument("--names", type=int, default=10_000_000)
    words = reader.parse_args()
    entry(words.program, "one address", plain)
    entry(words.program, "one address, and records in the other sections", with_sections)
    many(words.program, words.names)


if __name__ == "__main__":
    main()
