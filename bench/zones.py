#!/usr/bin/env python3
"""What several policy zones cost: queries over 1, 8, 32 and 64 zones, and the summary that tells which of them can match.

    python3 bench/zones.py BENCH RPZ [--before OLD_BENCH] [--rules N] [--cpu N]

BENCH and RPZ are the built programs bench and rpz; OLD_BENCH an earlier bench, which takes 32 zones at most, and then takes turns with
the new one.

The first table: queries a second over 1, 8, 32 and 64 zones of 1,000 rules each (those of queries.py), for exact and wildcard hits in the
last zone, which alone has rules for these names; for names that each zone has, where the first one decides; and for passes, which no
zone has a rule for. Each is the best of some turns, in each of which all of them are run once; behind it stands how many times as long
a query takes as over one zone in the same turns.

The second table: two zones of N rules (1,000,000), each alone and both together: the seconds until they are loaded, and the resident
memory then. What both take more than each alone is what the summary of 2N names costs; each line is the best of some runs. What the
allocator keeps of memory that was given up is returned to the system (MALLOC_TRIM_THRESHOLD_, MALLOC_MMAP_THRESHOLD_), which takes time
of its own: so the seconds are those of runs without that.

The third table is of `rpz replay`, whose lines are given one by one, with the pipe's time: a change of one rule in a zone of N rules, alone and beside a zone
of 1,000 rules of the same kind, and a whole transfer of 1,000 rules beside N, of which one in a hundred differs, and of which all do.
"""

import argparse
import io
import os
import subprocess
import sys
import tempfile
import time

from queries import BENCH_QUERIES, MANY_RULES, bench_seconds, rules, words_of, write_lines, write_transfer
from stream import ORIGIN, label, write_steps, write_zone

ZONES = (1, 8, 32, 64)
BEFORE_ZONES = (1, 8, 32)  # of an earlier program
ROUNDS = 5
LOADS = 3
LINE_ROWS = 1_500  # rows of a line of a script
CHANGES = 10_000
TRANSFERS = 200


def origin_of(zone):
    """A name as long as that of the zone in the streams, so that pointers in them stay right."""
    return label(f"z{zone:02}") + label("example") + b"\x00"


def elsewhere(count):
    """Rules for other names, as many and as long."""
    return [("other", *labels) for labels in rules(count)]


def servers(count):
    """The same rules about names of servers."""
    return [(*labels, "rpz-nsdname") for labels in rules(count)]


def of_zones(rows_of_zone, kind):
    """What writes the input of `bench queries` over zones of these rows, for each of them, with queries of this kind."""

    def write(out, zones):
        for zone in range(1, zones + 1):
            write_transfer(out, rows_of_zone(zone, zones), origin_of(zone))
        write_lines(out, kind, MANY_RULES)

    return write


def in_the_last(zone, zones):
    return rules(MANY_RULES) if zone == zones else elsewhere(MANY_RULES)


CASES = {
    "exact hits in the last zone": of_zones(in_the_last, "exact hits"),
    "wildcard hits in the last zone": of_zones(in_the_last, "wildcard hits"),
    "exact hits in each zone": of_zones(lambda zone, zones: rules(MANY_RULES), "exact hits"),
    "passes": of_zones(in_the_last, "passes"),
}


def origins(zones):
    return [f"z{zone:02}.example" for zone in range(1, zones + 1)]


def counts_of(name, before):
    """Over how many zones this program is asked."""
    return BEFORE_ZONES if name == before else ZONES


def query_table(program, before):
    programs = [program] + [before] * bool(before)
    for title, write in CASES.items():
        with tempfile.TemporaryDirectory() as folder:
            paths = {}
            for zones in ZONES:
                paths[zones] = os.path.join(folder, str(zones))
                with open(paths[zones], "wb") as out:
                    write(out, zones)
            times = {(name, zones): [] for name in programs for zones in counts_of(name, before)}
            for _ in range(ROUNDS):
                for name, zones in times:
                    times[name, zones].append(bench_seconds(words_of(name, *origins(zones)), paths[zones], zones * MANY_RULES))
        best = {key: min(all_times) for key, all_times in times.items()}
        for name in programs:
            said = [f"{BENCH_QUERIES / best[name, zones]:.0f} over {zones} ({best[name, zones] / best[name, 1]:.2f})" for zones in counts_of(name, before)]
            print(f"{title}{' (before)' if name == before else ''}: queries/s {', '.join(said)}", flush=True)
        if before:
            said = [f"{best[program, zones] / best[before, zones]:.3f} with {zones}" for zones in BEFORE_ZONES]
            print(f"  the time of the earlier program, zones: {', '.join(said)}", flush=True)


TRIMMED = {"MALLOC_TRIM_THRESHOLD_": "0", "MALLOC_MMAP_THRESHOLD_": "65536"}


def loaded(words, path, rows, env):
    """The seconds until the zones are loaded, and the resident memory then, and at its peak, in octets."""
    with open(path, "rb") as stream:
        start = time.perf_counter()
        child = subprocess.Popen(words, stdin=stream, stdout=subprocess.PIPE, stderr=subprocess.PIPE, env={**os.environ, **env})
        said = child.stderr.readline()
        seconds = time.perf_counter() - start
        with open(f"/proc/{child.pid}/status") as status:
            memory = {line.split()[0]: int(line.split()[1]) * 1024 for line in status if line.startswith(("VmRSS", "VmHWM"))}
        child.communicate()
    if said != f"rows {rows}\n".encode():
        sys.exit(f"not loaded: {said!r}")
    return seconds, memory["VmRSS:"], memory["VmHWM:"]


def load_table(program, count):
    """Two zones, each alone and both together."""
    first, second = rules(count), elsewhere(count)
    runs = {}
    with tempfile.TemporaryDirectory() as folder:
        for title, zones in (("the first", [first]), ("the second", [second]), ("both", [first, second])):
            path = os.path.join(folder, "input")
            with open(path, "wb") as out:
                for number, rows in enumerate(zones):
                    write_transfer(out, rows, origin_of(number + 1))
            words = words_of(program, *origins(len(zones)))
            seconds = min(loaded(words, path, len(zones) * count, {})[0] for _ in range(LOADS))
            runs[title] = seconds, *loaded(words, path, len(zones) * count, TRIMMED)[1:]
            seconds, memory, peak = runs[title]
            each_rule = count * len(zones)
            print(f"{title} of two zones of {count} rules: {seconds:.2f} s, {memory / each_rule:.0f} octets a rule, {peak / each_rule:.0f} at the peak", flush=True)
    seconds, memory = (runs["both"][place] - runs["the first"][place] - runs["the second"][place] for place in range(2))
    print(f"the summary: {seconds:.2f} s for {2 * count} names, {memory / count / 2:.0f} octets a name", flush=True)


def xfer(number, octets):
    return f"xfer {number} {octets.hex()}\n".encode()


def of_zone(octets, zone):
    return octets.replace(ORIGIN, origin_of(zone))


def steps_line(zone, serial, deleted, added):
    stream = io.BytesIO()
    write_steps(stream, [(deleted, added)], serial)
    return xfer(zone, of_zone(stream.getvalue(), zone))


def whole_line(zone, serial, rows):
    stream = io.BytesIO()
    write_zone(stream, rows, serial)
    return xfer(zone, of_zone(stream.getvalue(), zone))


def large(zone, count):
    """A zone of so many rules, line by line."""
    rows = rules(count)
    yield whole_line(zone, 1, rows[:LINE_ROWS])
    for turn, at in enumerate(range(LINE_ROWS, count, LINE_ROWS)):
        yield steps_line(zone, 1 + turn, [], rows[at : at + LINE_ROWS])


def each(program, head, lines):
    """The milliseconds of one line of the script behind its head, each answered before the next is given."""
    child = subprocess.Popen([program, "replay"], stdin=subprocess.PIPE, stdout=subprocess.PIPE)
    for origin in origins(2):
        child.stdin.write(f"zone {origin}\n".encode())
    serial = 1
    for line in head:
        serial = done(child, line)
    times = []
    for line in lines(serial):
        start = time.perf_counter()
        done(child, line)
        times.append(time.perf_counter() - start)
    child.communicate()
    times.sort()
    return 1000 * sum(times) / len(times), 1000 * times[len(times) // 2], 1000 * times[-1]


def done(child, line):
    """Has the line done; the serial that it was taken with."""
    child.stdin.write(line)
    child.stdin.flush()
    said = child.stdout.readline().split()
    if said[0] != b"taken":
        sys.exit(f"not taken: {said!r}")
    return int(said[2])


def one_change(zone, count, times):
    """Changes of one rule: one goes, and the one that went before comes back."""
    rows = rules(count)

    def lines(serial):
        gone = []
        for turn in range(times):
            deleted = [rows[turn * 7919 % count]]
            yield steps_line(zone, serial + turn, deleted, gone)
            gone = deleted

    return lines


def transfers(zone, times, differ):
    """Whole transfers of 1,000 rules, of which so many are other ones at each second transfer."""
    usual = rules(1_000)
    other = [("new", *labels) for labels in usual[:differ]] + usual[differ:]

    def lines(serial):
        for turn in range(times):
            yield whole_line(zone, 10 + turn, other if turn % 2 else usual)

    return lines


def change_table(program, count):
    def said(title, head, lines):
        mean, median, longest = each(program, head, lines)
        print(f"{title}: {mean:.3f} ms, median {median:.3f}, longest {longest:.1f}", flush=True)

    def beside():
        yield whole_line(2, 1, elsewhere(1_000))
        yield from large(1, count)

    said(f"a change of one rule in {count}", large(1, count), one_change(1, count, CHANGES))
    said("  beside a zone of 1000", beside(), one_change(1, count, CHANGES))
    for differ in (10, 1_000):
        said(f"a whole transfer of 1000 rules beside {count}, {differ} differ", beside(), transfers(2, TRANSFERS, differ))


def main():
    parser = argparse.ArgumentParser()
    parser.add_argument("bench")
    parser.add_argument("rpz")
    parser.add_argument("--before", help="an earlier bench, which takes turns with the new one")
    parser.add_argument("--rules", type=int, default=1_000_000)
    parser.add_argument("--cpu", type=int, help="the processor that all runs are on")
    wanted = parser.parse_args()
    if wanted.cpu is not None:
        os.sched_setaffinity(0, {wanted.cpu})
    query_table(wanted.bench, wanted.before)
    load_table(wanted.bench, wanted.rules)
    change_table(wanted.rpz, wanted.rules)


if __name__ == "__main__":
    main()
