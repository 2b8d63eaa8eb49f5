#!/usr/bin/env python3
"""How fast queries are answered by the rules of a zone, and how this changes with their number; and how fast by the cache.

    python3 bench/queries.py BENCH RPZ [--before OLD_BENCH_QUERIES] [--cache]

BENCH and RPZ are the built programs bench and rpz; OLD_BENCH_QUERIES an earlier one that read one zone alone and took no words,
whose times for 1,000,000 rules are then measured by turns with those of the new one. With --cache the last two tables
alone are made.

Half of the rules of a zone are hK.gJ.example CNAME . and half *.wK.gJ.example CNAME . (every name doesn't exist). Exact
hits ask for names of the first kind, wildcard hits for x.wK.gJ.example, and passes for pK.gJ.example, which the server
answers with one address, of TTL 0 so that each is asked for. Local data are asked for as exact hits are, in a zone whose rules have an
address each. The names are drawn at random, the same at each run.

The first table is that of `bench queries`, which does with the lines of a script what `rpz replay` does, over zones that it
reads from streams, for 1,000 and 1,000,000 rules: the queries per second once the zone is loaded. Then come 8 zones of
1,000 rules of which the last one alone is hit. The next table is that of `rpz replay` itself for 1,000 rules and for as
many as one line of a script holds, without the time of a script that has no queries. Each is the best of several runs.

Then come cached passes: `bench queries` is first asked for names pK.gJ.example, and is given an answer of 1, 4 or 20 addresses
for each, untimed. They are 4,000 at most, spread over the zone, of the 4,096 that the cache keeps. It is then asked for
names that are drawn among them, in one run by turns with exact hits among as many names, exact hits among all names of the
zone, and messages that are no queries, which get no reply: their time is about that of reading a line. All have an OPT
record of 1,232 octets, in which 20 addresses fit. Each is the best of its turns; a cached pass shall take at most twice the
time of an exact hit among as many names. An untimed run looks that the cache answers, with all addresses.

The last table says how many allocations one query makes of each kind, those for reading its line among them. A shim that
`cc` builds in a temporary folder counts them (count_allocations.c): the difference of two runs of different numbers of
queries, by the difference of these numbers.
"""

import argparse
import io
import itertools
import os
import random
import shutil
import struct
import subprocess
import sys
import tempfile
import time

from stream import ORIGIN, ZONE, label, pointer, record, write_zone

RUNS = 3
TURNS = 7
KINDS = ("exact hits", "wildcard hits", "passes")
LOCAL = "local data"  # exact hits in a zone whose rules have an address each
MANY_ZONES = 8
MANY_RULES = 1_000
GROUP = 100  # rows of one gJ.example
BENCH_RULES = (1_000, 1_000_000)
BENCH_QUERIES = 300_000
LINE = 200_000  # bytes that a line of a script has at most
REPLAY_RULES = (1_000, 5_000)
REPLAY_QUERIES = 100_000
CACHED_NAMES = 4_000  # of the 4,096 that the cache keeps
RECORDS = (1, 4, 20)
TTL = 300  # of cached answers; the clock stands still
PARTS = 5
PART_QUERIES = 50_000
BOUND = 2
COUNTED_RULES = 1_000
COUNTED_QUERIES = (1_000, 3_000)
PAYLOAD = 1_232
OPT = b"\x00" + struct.pack(">HHIH", 41, PAYLOAD, 0, 0)
QUERY, RESPONSE = 0x0100, 0x8100
SHIM = os.path.join(os.path.dirname(os.path.abspath(__file__)), "count_allocations.c")


def rules(count, kind=None):
    half = count // 2
    rows = [(f"h{number % GROUP}", f"g{number // GROUP}", "example") for number in range(half)]
    rows += [("*", f"w{number % GROUP}", f"g{number // GROUP}", "example") for number in range(half)]
    return [*map(with_address, rows)] if kind == LOCAL else rows


def with_address(labels):
    """A row of this owner in front of the zone's that has an address."""
    return record(b"".join(map(label, labels)) + pointer(ZONE), 1, bytes([192, 0, 2, 1]))


def asked(kind, number):
    group, host = divmod(number, GROUP)
    if kind in ("exact hits", LOCAL):
        return (f"h{host}", f"g{group}", "example")
    if kind == "wildcard hits":
        return ("x", f"w{host}", f"g{group}", "example")
    return (f"p{host}", f"g{group}", "example")


def question(labels):
    return b"".join(map(label, labels)) + b"\x00" + struct.pack(">HH", 1, 1)


def query(labels, flags=QUERY, opt=b""):
    return struct.pack(">HHHHHH", 0x1234, flags, 1, 0, 0, 1 if opt else 0) + question(labels) + opt


def address(ttl, number):
    """The address of a number for the name of the question; the first is 192.0.2.9."""
    return b"\xc0\x0c" + struct.pack(">HHIH", 1, 1, ttl, 4) + bytes([192, 0, 2, 9 + number])


def answer(number, labels, ttl, records):
    """What the server answers to the question of this number; the first is question 0."""
    head = struct.pack(">HHHHHH", (number + 1) % 65536, 0x8180, 1, records, 0, 0)
    return head + question(labels) + b"".join(address(ttl, place) for place in range(records))


def drawn(kind, count, queries):
    """The names of queries, the same at each run."""
    draw = random.Random(f"{kind} {count}")
    return (asked(kind, draw.randrange(count // 2)) for _ in range(queries))


def query_line(message):
    return f"query 0 udp 192.0.2.7 {message.hex()}".encode()


def give_line(message):
    return f"give 0 {message.hex()}".encode()


def lines(kind, count, queries):
    """The lines of a script."""
    for number, labels in enumerate(drawn(kind, count, queries)):
        yield query_line(query(labels))
        if kind == "passes":
            yield give_line(answer(number, labels, 0, 1))


def write_transfer(out, rows, origin=ORIGIN):
    """The transfer of a zone, and an empty message behind it."""
    stream = io.BytesIO()
    write_zone(stream, rows)
    out.write(stream.getvalue().replace(ORIGIN, origin) + framed(b""))


def framed(message):
    return struct.pack(">H", len(message)) + message


def write_lines(out, kind, count):
    for line in lines(kind, count, BENCH_QUERIES):
        out.write(framed(line))


def write_bench(out, kind, count):
    """The input of `bench queries` over one zone: its transfer, an empty message, then the lines."""
    write_transfer(out, rules(count, kind))
    write_lines(out, kind, count)


def write_before(out, kind, count):
    """The input of the earlier program: the zone, then the lines."""
    write_zone(out, rules(count))
    write_lines(out, kind, count)


def part_seconds(words, path, rows, parts):
    """The seconds of each part of the lines: from the line that says that the zones are loaded, or that the part before is
    answered, to the line that says that this one is."""
    said, times = [], []
    with open(path, "rb") as stream:
        child = subprocess.Popen(words, stdin=stream, stdout=subprocess.DEVNULL, stderr=subprocess.PIPE)
        for _ in range(1 + parts):
            said.append(child.stderr.readline())
            times.append(time.perf_counter())
        status = child.wait()
    if status != 0 or said != [f"rows {rows}\n".encode()] + [b"answered\n"] * parts:
        sys.exit(f"{rows} rules: status {status}, {said!r}")
    return [end - start for start, end in itertools.pairwise(times)]


def bench_seconds(words, path, rows):
    return part_seconds(words, path, rows, 1)[0]


def write_script(out, kind, count, queries):
    transfer = io.BytesIO()
    write_zone(transfer, rules(count))
    loaded = f"xfer 1 {transfer.getvalue().hex()}"
    if len(loaded) > LINE:
        sys.exit(f"{count} rules are too many for a line")
    out.write(f"zone rpz.example\n{loaded}\n".encode())
    for line in lines(kind, count, queries):
        out.write(line + b"\n")


def replay_seconds(program, path):
    with open(path, "rb") as stream:
        start = time.perf_counter()
        status = subprocess.run([program, "replay"], stdin=stream, stdout=subprocess.DEVNULL).returncode
        seconds = time.perf_counter() - start
    if status != 0:
        sys.exit(f"replay: status {status}")
    return seconds


def best_of(write, measure):
    """The least seconds of several runs over what `write` writes."""
    with tempfile.NamedTemporaryFile(suffix=".input") as stream:
        write(stream)
        stream.flush()
        return min(measure(stream.name) for _ in range(RUNS))


def words_of(program, *origins):
    return [program, "queries", *origins]


def bench_rate(program, kind, count):
    words = words_of(program, "rpz.example")
    seconds = best_of(lambda out: write_bench(out, kind, count), lambda path: bench_seconds(words, path, count))
    return BENCH_QUERIES / seconds


def write_many(out, kind, zones, count):
    """Zones of which the last one alone has rules for the names of the queries."""
    for zone in range(1, zones + 1):
        rows = rules(count) if zone == zones else [("other", *labels) for labels in rules(count)]
        write_transfer(out, rows, origin_of(zone))
    write_lines(out, kind, count)


def origin_of(zone):
    """A name as long as that of the zone in the streams."""
    return label(f"rp{zone}") + label("example") + b"\x00"


def many_rate(program, kind, zones, count):
    words = words_of(program, *(f"rp{zone}.example" for zone in range(1, zones + 1)))
    seconds = best_of(lambda out: write_many(out, kind, zones, count), lambda path: bench_seconds(words, path, zones * count))
    return BENCH_QUERIES / seconds


def compare(program, before, kind, count):
    """The new program's time over the old one's, by turns."""
    with tempfile.NamedTemporaryFile() as new, tempfile.NamedTemporaryFile() as old:
        write_bench(new, kind, count)
        write_before(old, kind, count)
        new.flush()
        old.flush()
        words = words_of(program, "rpz.example")
        runs = [(bench_seconds(words, new.name, count), bench_seconds([before], old.name, count)) for _ in range(TURNS)]
    print(f"{kind}, {count} rules: {min(r[0] for r in runs) / min(r[1] for r in runs):.2f} times the time of the earlier program")


def replay_rate(program, kind, count):
    full = best_of(lambda out: write_script(out, kind, count, REPLAY_QUERIES), lambda path: replay_seconds(program, path))
    bare = best_of(lambda out: write_script(out, kind, count, 0), lambda path: replay_seconds(program, path))
    return REPLAY_QUERIES / (full - bare)


def table(title, rate, program, counts, kinds=KINDS):
    print(title)
    for kind in kinds:
        few, many = (rate(program, kind, count) for count in counts)
        print(f"{kind}: {few:.0f} queries/s with {counts[0]} rules, {many:.0f} with {counts[1]}; a query takes {few / many:.2f} times as long")


def cached_names(count):
    return min(CACHED_NAMES, count // 2)


def spread(kind, count, size, place):
    """A name of so many that are spread over the zone."""
    return asked(kind, place * (count // 2) // size)


def draws(kind, count, size):
    """Names of so many without end, the same at each run."""
    draw = random.Random(f"{kind} {count} {size}")
    while True:
        yield spread(kind, count, size, draw.randrange(size))


def kept_lines(count, records):
    """What brings an answer for each name into the cache."""
    size = cached_names(count)
    for number in range(size):
        labels = spread("passes", count, size, number)
        yield query_line(query(labels, QUERY, OPT))
        yield give_line(answer(number, labels, TTL, records))


def turns(count):
    """What is asked by turns: its title, the flags, and the names."""
    few = cached_names(count)
    return (
        ("no reply", RESPONSE, draws("passes", count, few)),
        ("all exact hits", QUERY, draws("exact hits", count, count // 2)),
        ("exact hits", QUERY, draws("exact hits", count, few)),
        ("cached passes", QUERY, draws("passes", count, few)),
    )


def asking(turn, queries):
    """The lines of the next queries of a turn."""
    _, flags, names = turn
    for labels in itertools.islice(names, queries):
        yield query_line(query(labels, flags, OPT))


def write_parts(out, count, parts):
    """The input of `bench queries` over one zone: its transfer, an empty message, and parts of lines, an empty one between two."""
    write_transfer(out, rules(count))
    for place, part in enumerate(parts):
        out.write(framed(b"") if place else b"")
        for line in part:
            out.write(framed(line))


def cache_parts(count, records):
    """What fills the cache, and then parts by turns."""
    yield kept_lines(count, records)
    every = turns(count)
    for _ in range(PARTS):
        for turn in every:
            yield asking(turn, PART_QUERIES)


def messages(stream):
    while size := stream.read(2):
        yield stream.read(int.from_bytes(size, "big"))


def is_question(message):
    return len(message) >= 12 and message[2] & 0x80 == 0


def is_reply(message, rcode, records):
    """Whether this is a whole reply to a query with an OPT record, of so many answers."""
    if len(message) < 12:
        return False
    _, flags, questions, answers = struct.unpack_from(">HHHH", message)
    return flags & 0x820F == 0x8000 | rcode and (questions, answers) == (1, records) and len(message) <= PAYLOAD


def is_answered(title, message, records):
    if title == "no reply" or not message:
        return title == "no reply" and message == b""
    return is_reply(message, 0, records) if title == "cached passes" else is_reply(message, 3, 0)


def check(words, path, count, records):
    """Looks that each line outputs what its kind shall."""
    with open(path, "rb") as stream:
        child = subprocess.Popen(words, stdin=stream, stdout=subprocess.PIPE, stderr=subprocess.DEVNULL)
        said = messages(child.stdout)
        good = all(is_question(next(said, b"")) and is_reply(next(said, b""), 0, records) for _ in range(cached_names(count)))
        for title, _, _ in turns(count) * PARTS:
            good = good and all(is_answered(title, next(said, None), records) for _ in range(PART_QUERIES))
        if not good or next(said, None) is not None or child.wait() != 0:
            sys.exit(f"{count} rules, {records} records: a message isn't what its kind has")


def cache_rates(program, count, records):
    """The queries per second of each kind, by its title."""
    words = words_of(program, "rpz.example")
    titles = [title for title, _, _ in turns(count)]
    with tempfile.NamedTemporaryFile(suffix=".input") as stream:
        write_parts(stream, count, cache_parts(count, records))
        stream.flush()
        check(words, stream.name, count, records)
        runs = [part_seconds(words, stream.name, count, 1 + len(titles) * PARTS)[1:] for _ in range(RUNS)]
    return {title: PART_QUERIES / min(min(run[place :: len(titles)]) for run in runs) for place, title in enumerate(titles)}


def cache_table(program):
    print("bench queries, cached passes by turns with exact hits")
    for count in BENCH_RULES:
        for records in RECORDS:
            rate = cache_rates(program, count, records)
            hit, passed, line = rate["exact hits"], rate["cached passes"], rate["no reply"]
            bare = (1 / passed - 1 / line) / (1 / hit - 1 / line)
            print(f"{count} rules, {cached_names(count)} names: {passed:.0f} cached passes/s of {records} records, {hit:.0f} exact hits/s")
            print(f"  a cached pass takes {hit / passed:.2f} times as long (at most {BOUND}); {bare:.2f} times without reading lines")
            print(f"  {rate['all exact hits']:.0f} exact hits/s among all {count // 2} names; {line:.0f} lines/s without a reply")


def calls_for_memory(program, shim, title, records, queries):
    """How often a run calls each function of the shim."""
    turn = next(turn for turn in turns(COUNTED_RULES) if turn[0] == title)
    with tempfile.NamedTemporaryFile(suffix=".input") as stream:
        write_parts(stream, COUNTED_RULES, (kept_lines(COUNTED_RULES, records), asking(turn, queries)))
        stream.seek(0)
        how = {"stdout": subprocess.DEVNULL, "stderr": subprocess.PIPE, "env": {**os.environ, "LD_PRELOAD": shim}}
        run = subprocess.run(words_of(program, "rpz.example"), stdin=stream, check=True, **how)
    words = run.stderr.decode().splitlines()[-1].split()
    if words[:1] != ["malloc"]:
        sys.exit("the shim isn't loaded: is the program linked statically?")
    return dict(zip(words[::2], map(int, words[1::2])))


def count_allocations(program, shim, title, records):
    few, many = (calls_for_memory(program, shim, title, records, queries) for queries in COUNTED_QUERIES)
    calls = {name: (many[name] - few[name]) / (COUNTED_QUERIES[1] - COUNTED_QUERIES[0]) for name in few}
    frees = calls.pop("free")
    print(f"{title}, {records} records in the cache: {sum(calls.values()):.2f} allocations ({calls['realloc']:.2f} by realloc), {frees:.2f} frees")


def allocation_table(program):
    compiler = shutil.which("cc")
    if not compiler:
        print("allocations of a query: not counted, there is no cc")
        return
    print("allocations of a query")
    with tempfile.TemporaryDirectory() as folder:
        shim = os.path.join(folder, "count_allocations.so")
        subprocess.run([compiler, "-O2", "-shared", "-fPIC", "-o", shim, SHIM], check=True)
        count_allocations(program, shim, "no reply", RECORDS[0])
        count_allocations(program, shim, "exact hits", RECORDS[0])
        for records in RECORDS:
            count_allocations(program, shim, "cached passes", records)


def rule_tables(wanted):
    if wanted.before:
        for kind in KINDS:
            compare(wanted.bench, wanted.before, kind, BENCH_RULES[1])
    table("bench queries", bench_rate, wanted.bench, BENCH_RULES, (*KINDS, LOCAL))
    for kind in KINDS:
        one = bench_rate(wanted.bench, kind, MANY_RULES)
        many = many_rate(wanted.bench, kind, MANY_ZONES, MANY_RULES)
        print(f"{kind}: {many:.0f} queries/s with {MANY_ZONES} zones of {MANY_RULES} rules of which the last is hit, {one / many:.2f} times as long as with one")
    table("rpz replay", replay_rate, wanted.rpz, REPLAY_RULES)


def main():
    parser = argparse.ArgumentParser()
    parser.add_argument("bench")
    parser.add_argument("rpz")
    parser.add_argument("--before", help="an earlier program of this bench, over one zone")
    parser.add_argument("--cache", action="store_true", help="cached passes and allocations alone")
    wanted = parser.parse_args()
    if not wanted.cache:
        rule_tables(wanted)
    cache_table(wanted.bench)
    allocation_table(wanted.bench)


if __name__ == "__main__":
    main()
