#!/usr/bin/env python3
"""Memory that is refused while a zone takes transfers: the version before must be what it was.

    python3 bench/refused_memory.py BENCH [SEED [COUNT]]

BENCH is the built program bench. Its word `edits` applies transfers, drawn from the seed (1) as bench/edits.py draws them, with COUNT
edits (400), to a zone and to a plain list; where one of them gets no memory, all rules of the version before are compared with the plain
list. The program is run once for each call for memory that it makes, which this call alone is refused (bench/count_allocations.c).
Wanted: cc. Prints in how many runs a transfer got no memory, how many of these transfers were whole ones, and how many rules were
compared then; also how many runs ended elsewhere for want of memory, as in reading, and how many went on to the end. The status is 0
where no run showed a difference or ended otherwise.
"""

import collections
import os
import pathlib
import re
import struct
import subprocess
import sys
import tempfile

import edits

ROOT = pathlib.Path(__file__).resolve().parent


def small_zone(out, seed, count):
    """A whole transfer, and edits behind it, of few rows, so that a run is short."""
    maker = edits.Maker(out, seed)
    maker.rows = maker.numbers.sample(maker.rows, 60)
    maker.write_whole(maker.rows[:40], edits.AXFR)
    maker.draw(maker.rows, count)
    out.flush()


def run(program, library, path, number, counts=None):
    """What a run says on standard output and standard error that is refused the call of this number. The file `counts` gets how many
    calls of each kind it made."""
    more = {"LD_PRELOAD": library, "REFUSE": str(number)} | ({"COUNT_FILE": counts} if counts else {})
    with open(path, "rb") as given:
        done = subprocess.run([program, "edits"], stdin=given, capture_output=True, text=True, check=False, env={**os.environ, **more})
    return done.returncode, done.stdout, done.stderr


def calls_for_memory(counts):
    """How many there were by that file, whose last number is that of calls that give memory back."""
    with open(counts, "rb") as numbers:
        return sum(struct.unpack("=6Q", numbers.read(48))[:-1])


def outcome(status, told, errors):
    """In a word what a run came to, and the number of the transfer and of comparisons where a transfer got no memory."""
    if status == 0 and (found := re.fullmatch(r"out of memory in transfer (\d+) comparisons (\d+)\n", told)):
        return "transfer", int(found[1]), int(found[2])
    if status == 0 and told.startswith("transfers "):
        return "end", 0, 0
    if status == 1 and re.match(r"(Error: )?(\w+\()*OutOfMemory\b", errors):
        return "elsewhere", 0, 0
    sys.exit(f"status {status}: {told}{errors}")


def main():
    if not 2 <= len(sys.argv) <= 4:
        sys.exit("usage: python3 bench/refused_memory.py BENCH [SEED [COUNT]]")
    seed = int(sys.argv[2]) if len(sys.argv) > 2 else 1
    count = int(sys.argv[3]) if len(sys.argv) > 3 else 400
    with tempfile.TemporaryDirectory() as folder:
        library, path = f"{folder}/refuse.so", f"{folder}/stream"
        subprocess.run(["cc", "-O2", "-shared", "-fPIC", "-o", library, ROOT / "count_allocations.c"], check=True)
        with open(path, "wb") as stream:
            small_zone(stream, seed, count)
        _, told, _ = run(sys.argv[1], library, path, 0, f"{folder}/counts")
        calls = calls_for_memory(f"{folder}/counts")
        print(f"{calls} calls for memory: {told}", end="", flush=True)
        sums = collections.Counter()
        for number in range(1, calls + 1):
            kind, transfer, comparisons = outcome(*run(sys.argv[1], library, path, number))
            sums[kind] += 1
            sums["whole"] += kind == "transfer" and transfer == 1
            sums["rules"] += comparisons
    print(f"{sums['transfer']} transfers got no memory, {sums['whole']} of them whole ones, {sums['rules']} rules compared; "
          f"{sums['elsewhere']} runs ended elsewhere, {sums['end']} went on to the end")
    if calls == 0 or sums["transfer"] == 0:
        sys.exit("no transfer was refused memory")


if __name__ == "__main__":
    main()
