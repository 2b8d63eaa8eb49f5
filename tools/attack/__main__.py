#!/usr/bin/env python3
"""Attacks a running server over the loopback, and says whether it holds.

    python3 tools/attack PROGRAM [CASE..] [--workers 1,4,16] [--beside unbound]
    python3 tools/attack --list

Each case starts PROGRAM (`rpz`) with its own upstream and primaries, does what an attacker, a slow peer or a full pipe does, and meanwhile
asks 1,000 queries over UDP and 100 over TCP that a rule or the cache answers: all have to be answered, the slowest within 50 ms. Where the
upstream is well, misses of another client are asked, too, and have to be answered within a second. Behind it all have to be served within
2 seconds, and the memory of the server must be within the bound of the case. A line is printed for each case and number of workers. The
status is 0 where all held, and else 1. Nothing else should run meanwhile.

A virtual machine stands still while its host takes processors away. A case that failed while more than a hundredth of their time was
taken so is tried again, three times at most; where it never held, and the host never left it alone, its line says `unsure`.

With `--beside unbound` the cases of clients and of the upstream are then tried on Unbound with the same policy zone, and a line says what
came of it. That doesn't count for the status. A program with AddressSanitizer keeps freed memory back: ATTACK_MEMORY_TIMES in the
environment multiplies the bounds of memory.
"""

import argparse
import importlib
import itertools
import sys
import traceback

import harness
import unbound

MODULES = [
    "clients", "more_clients", "datagrams", "upstreams", "more_upstreams", "primaries", "more_primaries", "process", "more_process",
    "outside",
]
PORTS = 40  # of each try
RANGES = 200  # so many tries later the same ports come again
TRIES = 3
TAKEN = 0.01  # of the time of all processors


def all_cases():
    """The cases of all modules."""
    return [case for name in MODULES for case in importlib.import_module(name).CASES]


def processor_times():
    """The clock ticks of all processors so far, and those of them that the host took away (proc(5), /proc/stat)."""
    with open("/proc/stat") as stat:
        ticks = list(map(int, stat.readline().split()[1:9]))
    return sum(ticks), ticks[7]


def outcome(case, *arguments, **given):
    """The word in front of the line of a case, and what is said of it."""
    try:
        return "holds", case(*arguments, **given)
    except harness.NotTried as why:
        return "not tried", str(why)
    except harness.Failed as why:
        return "FAILS", str(why)
    except Exception:
        return "FAILS", traceback.format_exc(limit=3).strip().replace("\n", " | ")


def tried(case, program, ports, workers, **given):
    """The same of a case that is tried again, with ports of its own, where it failed while the host took processors away."""
    for _ in range(TRIES):
        all_before, taken_before = processor_times()
        word, said = outcome(case, program, next(ports), workers, **given)
        all_after, taken_after = processor_times()
        taken = (taken_after - taken_before) / max(1, all_after - all_before)
        if word != "FAILS" or taken <= TAKEN:
            return word, said
    return "unsure", f"{said}; the host took {taken:.0%} of the processors away"


def run_all(cases, options):
    """Whether all held."""
    held = True
    ports = itertools.cycle(range(options.port, options.port + RANGES * PORTS, PORTS))
    for case in cases:
        for workers in map(int, options.workers.split(",")):
            word, said = tried(case, options.program, ports, workers)
            held = held and word not in ("FAILS", "unsure")
            print(f"{word}  {case.__name__}, {workers} workers: {said}", flush=True)
            if options.beside and case.is_beside:
                word, said = tried(case, options.program, ports, workers, make=unbound.Unbound)
                print(f"  Unbound {word.lower()}  {case.__name__}, {workers} threads: {said}", flush=True)
    return held


def main():
    parser = argparse.ArgumentParser()
    parser.add_argument("program", nargs="?")
    parser.add_argument("cases", nargs="*")
    parser.add_argument("--workers", default="1,4,16")
    parser.add_argument("--port", type=int, default=21000)
    parser.add_argument("--beside", choices=["unbound"])
    parser.add_argument("--list", action="store_true")
    options = parser.parse_args()
    cases = all_cases()
    if options.list:
        for case in cases:
            print(f"{case.__name__}: {case.__doc__}")
        return
    if options.program is None:
        parser.error("PROGRAM is missing")
    if unknown := set(options.cases) - {case.__name__ for case in cases}:
        parser.error(f"no such case: {', '.join(sorted(unknown))}")
    if options.beside and not unbound.is_there():
        parser.error("there is no Unbound here")
    wanted = [case for case in cases if not options.cases or case.__name__ in options.cases]
    sys.exit(0 if run_all(wanted, options) else 1)


if __name__ == "__main__":
    main()
