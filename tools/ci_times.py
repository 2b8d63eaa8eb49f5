#!/usr/bin/env python3
"""ci_times.py [--every SECONDS] [--steps N] PID: the processor time of a running `rt ci`, by crate and by kind of work.

Start it beside `rt ci`, which the process of the number PID is or has started; it looks at that run's processes until PID has ended,
or it is told to end (SIGTERM), and then prints a table in the form of docs/MEASUREMENTS.md: for each crate the minutes of processor
time of its proofs, of its tests and of its must-fail edits, and the sums; with --steps the N dearest of these, too; and how long it
took. What a process used between the last look and its end is missed, so the numbers are a little low.
"""
import argparse
import collections
import os
import signal
import time

TICKS = os.sysconf("SC_CLK_TCK")
KINDS = ("proofs", "tests", "edits")


def text_of(path):
    try:
        with open(path, encoding="utf-8", errors="replace") as handle:
            return handle.read()
    except OSError:
        return ""


def fields_of(pid):
    """What the system tells of a process, from its state on."""
    return text_of(f"/proc/{pid}/stat").rpartition(")")[2].split()


def is_of(pid, run):
    """Whether a process is the run or was started by it."""
    while pid != run:
        fields = fields_of(pid)
        if len(fields) < 2 or fields[1] in ("0", "1"):
            return False
        pid = fields[1]
    return True


def processes(run):
    """Each process of the compiler in a run, as (identity, words, folder, seconds)."""
    for pid in filter(str.isdigit, os.listdir("/proc")):
        words = text_of(f"/proc/{pid}/cmdline").split("\0")
        fields = fields_of(pid)
        if "--crate-name" not in words or not words[0].endswith("/rattle") or len(fields) < 20 or not is_of(pid, run):
            continue
        try:
            folder = os.readlink(f"/proc/{pid}/cwd")
        except OSError:
            continue
        yield (pid, fields[19]), words, folder, (int(fields[11]) + int(fields[12])) / TICKS


def kind_of(words, folder):
    """An edit is tried in a copy of its crate, outside the checkout's crates/NAME."""
    name = words[words.index("--crate-name") + 1]
    if not folder.endswith(f"/crates/{name}"):
        return name, "edits"
    return name, "tests" if "--test" in words else "proofs"


def watch(every, run):
    seen = {}
    began = time.time()
    told = []
    signal.signal(signal.SIGTERM, lambda number, frame: told.append(number))
    while os.path.exists(f"/proc/{run}") and not told:
        for identity, words, folder, seconds in processes(run):
            seen[identity] = (*kind_of(words, folder), seconds)
        time.sleep(every)
    return seen.values(), time.time() - began


def table(seen):
    sums = collections.Counter()
    for name, kind, seconds in seen:
        sums[name, kind] += seconds
        sums["all", kind] += seconds
    names = sorted({name for name, _ in sums if name != "all"}) + ["all"]
    yield "| Crate | Proofs | Tests | Edits |"
    yield "|---|---|---|---|"
    for name in names:
        yield f"| {name} | " + " | ".join(f"{sums[name, kind] / 60:.1f}" for kind in KINDS) + " |"


def dearest(seen, count):
    sums = collections.Counter()
    for name, kind, seconds in seen:
        sums[name, kind] += seconds
    for (name, kind), seconds in sums.most_common(count):
        yield f"{seconds / 60:6.1f} minutes of processor time: {name}, {kind}"


def main():
    reader = argparse.ArgumentParser(description=__doc__.split("\n\n")[0])
    reader.add_argument("--every", type=float, default=0.5, metavar="SECONDS")
    reader.add_argument("--steps", type=int, default=0, metavar="N")
    reader.add_argument("run", metavar="PID", help="the process of `rt ci`, or one that has started it")
    words = reader.parse_args()
    seen, passed = watch(words.every, words.run)
    print(*table(seen), *dearest(seen, words.steps), sep="\n")
    used = sum(seconds for _, _, seconds in seen) / 60
    print(f"{passed / 60:.1f} minutes on {os.cpu_count()} processors, {used:.1f} minutes of processor time", flush=True)


if __name__ == "__main__":
    main()
