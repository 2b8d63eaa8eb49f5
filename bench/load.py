#!/usr/bin/env python3
"""How long `rpz load` takes: to make rules and queries, to load the rules, and to answer in threads over one version of the policy.

    python3 bench/load.py RPZ [--rules N] [--queries N] [--runs N]

RPZ is the built program. The whole run is timed with 1, 2 and 4 workers, the least of the runs of each, which take turns. What it
takes to make the rules and to load them is the time of a run without queries; what it takes to make the queries is told from runs
without rules with 1 and with 4 workers, of which the part that answers is taken to be four times as fast with 4. The rest is the
time of the answers. The line that a run writes must be the same for every number of workers.
"""

import argparse
import subprocess
import sys
import time

WORKERS = (1, 2, 4)


def run(program, rules, queries, workers):
    """The seconds of a load run, and its line."""
    start = time.perf_counter()
    done = subprocess.run([program, "load", "1", str(rules), str(queries), str(workers)], capture_output=True, check=True)
    return time.perf_counter() - start, done.stdout


def least(program, cases, runs):
    """The least time of each case, which take turns, and the lines that it wrote."""
    best, lines = {}, {}
    for _ in range(runs):
        for case in cases:
            took, line = run(program, *case)
            best[case] = min(took, best.get(case, took))
            lines.setdefault(case, line)
    return best, lines


def main():
    parser = argparse.ArgumentParser()
    parser.add_argument("rpz")
    parser.add_argument("--rules", type=int, default=1_000_000)
    parser.add_argument("--queries", type=int, default=1_000_000)
    parser.add_argument("--runs", type=int, default=3)
    options = parser.parse_args()
    whole = {workers: (options.rules, options.queries, workers) for workers in WORKERS}
    loading, one, four = (options.rules, 0, 1), (0, options.queries, 1), (0, options.queries, 4)
    best, lines = least(options.rpz, [*whole.values(), loading, one, four], options.runs)
    if len({lines[case] for case in whole.values()}) != 1:
        sys.exit("the line depends on the number of workers")
    making = (4 * best[four] - best[one]) / 3
    print(f"rules and their zone {best[loading]:.2f} s, making queries {making:.2f} s")
    first = None
    for workers, case in whole.items():
        answering = best[case] - best[loading] - making
        first = first or answering
        print(f"{workers} workers: whole {best[case]:.2f} s, answering {answering:.2f} s, {answering / first:.2f} times that of one")


if __name__ == "__main__":
    main()
