#!/usr/bin/env python3
"""What a zone's transfers cost, whole and in steps: processor time and memory.

    python3 bench/transfer.py BENCH [--rows N] [--changes]

BENCH is the built program bench, whose word `transfers` reads transfers, publishes each for one reader, and gives up the zone before.
Each stream begins with the transfer of the zone rpz.example in messages of at most 65,535 bytes, whose rows are
hK.gJ.example.rpz.example CNAME . of 60 seconds, all different, with pointers as a primary sends them. They come in the canonical order
of their owners (RFC 4034, section 6.1), in which a primary sends a zone, and then in an order that is shuffled, the same at each run.
Prints for each order and for a tenth of the rows and all of them (1,000,000) the least processor time of three runs, user and system,
and the peak of the memory in octets a row, and then the ratio of the two times.

Then come transfers in steps, in the zone of all rows in canonical order; --changes has these alone. A change deletes a row, drawn from
all of the zone, and adds a new one; they are the same at each run. Prints for each kind of transfer its processor time: what is left of
a run with many of them without that of a run with the zone alone, by turns, the least of three each, over their number; also how long
the longest of them took, and the peak of the memory.

Then come two zones of other kinds, measured in the same way: one of 10,000 addresses at one owner, of which each transfer takes out one
and adds one; and one of 100,000 rules, all of which go in a transfer and come back in the next.
"""

import argparse
import itertools
import os
import random
import shutil
import subprocess
import sys
import tempfile
from typing import NamedTuple

from stream import ZONE, label, pointer, record, write_steps, write_zone

RUNS = 3
GROUP = 100  # rows of one gJ.example
CROWD = 10_000  # rows of one owner
ALL = 100_000  # rows that all go and come back
AAAA = 28
KINDS = ((20_000, 1, 1), (20, 1_000, 1), (20, 1_000, 1_000))  # transfers, the changes of each, and the steps that these come in


class Run(NamedTuple):
    """What one run took: seconds of processor time, the peak of the memory in octets, and the microseconds of the longest transfer."""
    seconds: float
    memory: int
    longest: int


def owner(number):
    return (f"h{number % GROUP}", f"g{number // GROUP}", "example")


def in_canonical_order(count):
    """Labels compare as text, the group's before the host's."""
    groups = sorted(range(-(-count // GROUP)), key=lambda number: f"g{number}")
    hosts = sorted(range(GROUP), key=lambda number: f"h{number}")
    return (number for group in groups for host in hosts if (number := group * GROUP + host) < count)


def shuffled(count):
    numbers = list(range(count))
    random.Random(count).shuffle(numbers)
    return numbers


def write_changes(stream, rows, transfers, changes, steps):
    """So many transfers of so many changes in so many steps each, of a zone of so many rows."""
    deleted = iter(random.Random(changes).sample(range(rows), transfers * changes))
    added = itertools.count(rows)
    size = changes // steps
    for number in range(transfers):
        write_steps(stream, [([owner(next(deleted)) for _ in range(size)], [owner(next(added)) for _ in range(size)])
                             for _ in range(steps)], 1 + number * steps)


def address(number):
    """A row of the owner that has many."""
    return record(label("many") + label("example") + pointer(ZONE), AAAA, bytes.fromhex("20010db8") + number.to_bytes(12, "big"))


def write_crowd_changes(stream, transfers):
    """So many transfers, each of which takes out an address and adds one."""
    gone = iter(random.Random(CROWD).sample(range(CROWD), min(CROWD, transfers)))
    for number in range(transfers):
        write_steps(stream, [([address(next(gone))], [address(CROWD + number)])], 1 + number)


def write_all_again(stream, times):
    """So many times two transfers: all rows go, and all come back."""
    rows = [owner(number) for number in in_canonical_order(ALL)]
    for number in range(times):
        write_steps(stream, [(rows, [])], 1 + 2 * number)
        write_steps(stream, [([], rows)], 2 + 2 * number)


def in_a_child(write, stream):
    """Writes the stream in a process of its own: what a process held when it started the program would count as the program's memory."""
    child = os.fork()
    if child == 0:
        write()
        stream.flush()
        os._exit(0)
    _, status = os.waitpid(child, 0)
    if status != 0:
        sys.exit("the stream was not written")


def run(program, path, serial, rows):
    """A run that is to end with this serial and so many rows."""
    with open(path, "rb") as stream:
        child = subprocess.Popen([program, "transfers"], stdin=stream, stdout=subprocess.PIPE)
        told = child.stdout.read().decode()
        _, status, usage = os.wait4(child.pid, 0)
    child.returncode = os.waitstatus_to_exitcode(status)
    told, _, longest = told.partition(" longest ")
    if child.returncode != 0 or told != f"serial {serial} rows {rows}":
        sys.exit(f"serial {serial}, {rows} rows: status {child.returncode}, {told!r}")
    return Run(usage.ru_utime + usage.ru_stime, usage.ru_maxrss * 1024, int(longest))


def measure(program, count, order):
    with tempfile.NamedTemporaryFile(suffix=".stream") as stream:
        in_a_child(lambda: write_zone(stream, map(owner, order(count))), stream)
        return Run(*map(min, zip(*(run(program, stream.name, 1, count) for _ in range(RUNS)))))


def print_whole(program, rows):
    for name, order in (("in canonical order", in_canonical_order), ("shuffled", shuffled)):
        times = []
        for count in (rows // 10, rows):
            found = measure(program, count, order)
            times.append(found.seconds)
            print(f"{count} rows {name}: {found.seconds:.3f} s, {found.memory / count:.0f} octets of memory a row", flush=True)
        print(f"ratio of the times {name}: {times[1] / times[0]:.1f}")


def measure_changes(program, zone, rows, write, serial):
    """The runs with the zone alone, of so many rows, and with what is written behind it, up to this serial."""
    with tempfile.NamedTemporaryFile(suffix=".stream") as stream:
        zone.seek(0)
        shutil.copyfileobj(zone, stream)
        stream.flush()
        in_a_child(lambda: write(stream), stream)
        runs = [(run(program, zone.name, 1, rows), run(program, stream.name, serial, rows)) for _ in range(RUNS)]
    return (Run(*map(min, zip(*side))) for side in zip(*runs))


def print_behind(program, zone, rows, what, write, transfers, serial):
    without, found = measure_changes(program, zone, rows, write, serial)
    print(f"{transfers} transfers in {rows} rows, {what}: {(found.seconds - without.seconds) / transfers * 1000:.3f} ms each, "
          f"the longest {found.longest / 1000:.1f} ms; {found.memory / rows:.0f} octets of memory a row "
          f"({without.memory / rows:.0f} without them)", flush=True)


def print_changes(program, rows):
    with tempfile.NamedTemporaryFile(suffix=".stream") as zone:
        in_a_child(lambda: write_zone(zone, map(owner, in_canonical_order(rows))), zone)
        for transfers, changes, steps in KINDS:
            print_behind(program, zone, rows, f"each of {changes} changes in {steps} steps",
                         lambda stream: write_changes(stream, rows, transfers, changes, steps), transfers, 1 + transfers * steps)


def print_others(program):
    with tempfile.NamedTemporaryFile(suffix=".stream") as zone:
        in_a_child(lambda: write_zone(zone, map(address, range(CROWD))), zone)
        for count in (100, 1_000):
            print_behind(program, zone, CROWD, "all at one owner, each of 1 change", lambda stream: write_crowd_changes(stream, count), count,
                         1 + count)
    with tempfile.NamedTemporaryFile(suffix=".stream") as zone:
        in_a_child(lambda: write_zone(zone, map(owner, in_canonical_order(ALL))), zone)
        for times in (1, 10, 100):
            print_behind(program, zone, ALL, "which all go, or come back", lambda stream: write_all_again(stream, times), 2 * times,
                         1 + 2 * times)


def main():
    parser = argparse.ArgumentParser()
    parser.add_argument("program")
    parser.add_argument("--rows", type=int, default=1_000_000)
    parser.add_argument("--changes", action="store_true")
    options = parser.parse_args()
    if options.rows < max(transfers * changes for transfers, changes, _ in KINDS):
        sys.exit("too few rows for the changes")
    if not options.changes:
        print_whole(options.program, options.rows)
    print_changes(options.program, options.rows)
    if not options.changes:
        print_others(options.program)


if __name__ == "__main__":
    main()
