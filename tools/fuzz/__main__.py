#!/usr/bin/python3
"""Drives `rpz replay` and `rpz serve` with mutated messages, transfers and scripts, and compares each reply with what it has to be.

    /usr/bin/python3 tools/fuzz [--seed N] [--jobs N] [--port P] PROGRAM SECONDS
    /usr/bin/python3 tools/fuzz --scenarios

PROGRAM is `rpz`. Each of so many processes (one for each cpu) does two things by turns until the seconds are over: it grows a script for
`rpz replay` in rounds, in which what workers ask is answered, and then runs mutations of its lines; and it starts a server with an
upstream, and one or two primaries, on the loopback at ports from P (27,000) on, and sends it datagrams, connections, NOTIFYs and transfers
in batches, to its addresses of both versions of IP, and from clients of which some may not ask. Messages are drawn with a legal shape, and
about half of them is mutated: bits, octets and fields at their bounds; parts that are deleted, doubled, moved, put in, or spliced to
another message; pointers to anywhere; lengths and counts that are off.

What has to come is told by a second writing of docs/FORMATS.md, docs/PROFILE.md and docs/OPERATING.md in Python, which shares no code with
`rpz`: of messages (reading.py), lines of scripts (script_lines.py), networks of clients (networks.py, whose addresses of version 6 the
ipaddress of Python has to read alike), transfers and their faults (taking.py), rules and overrides (rules.py), and what a query comes to
(deciding.py). With --scenarios it is compared with the scenarios of the repository, whose transcripts were written by hand; no program is
run.

Checked of a script: the whole transcript, each question, reply, silence and line of a transfer, octet for octet; the line that is refused
and why; the status. Of a server: each reply, octet for octet but for TTLs, which may be less; that it comes within its transport's limit,
once, and within 6.5 seconds; silence where it must be and nowhere else; the line of each poll, the requests of its transfers, and the
version in force behind each; the form of questions upstream; after each batch a query that a rule answers within a second; at most 200 MiB
resident, and 400 MiB of addresses for a script's run; as many descriptors at the end as at the start, but for two and for connections to
the upstream. Of each reply besides: its ID, opcode, flags, question and OPT record, and that pointers stand where they must; and that
dnspython, a reader of messages by others, reads the same in it.

What dnspython refuses though it may stand in a reply is listed in judging.py, changed in a copy before it reads that, and counted as
`exempt`. In the last 3 seconds of a server its upstream loses questions on purpose; then, and for 15 seconds behind a batch that took over
4 seconds, replies that need the upstream aren't compared (`late`), but checked in all else. A NOTIFY may be left without a reply, as
docs/OPERATING.md says; its reply is compared.

Printed: a line for each failure, whose input is written into fuzz-failure-N.txt in this folder (for replay the script, without lines that
the failure doesn't need; for a server the messages in order, as hexadecimal digits), and at the end, for each kind of input, how many were
tried and what came of them. The status is 0 where nothing failed, and else 1. The same seed and number of jobs draw the same, but for what
depends on times and sockets. Wanted: dnspython (python3-dnspython of Debian, for /usr/bin/python3).
"""

import argparse
import multiprocessing
import os
import pathlib
import random
import sys
import time
import traceback

HERE = pathlib.Path(__file__).resolve().parent
sys.path[:0] = [str(HERE.parent), str(HERE.parent / "attack")]

import against_scenarios
import scripts
import serving
import stations
from figures import Figures, Findings

PORTS = 8  # of each job
TURN = 15.0  # seconds for scripts, and for a server


def scripts_until(end, options, chance, figures, findings):
    run = scripts.Run(options.program, chance, figures, findings)
    while time.monotonic() < end:
        scripts.one(run)


def server_until(end, options, seed, port, figures, findings, is_plain):
    station = stations.Station(options.program, port, seed, is_plain)
    try:
        serving.Serving(station, figures, findings, seed).run(end - time.monotonic())
    finally:
        station.end()


def all_turns(options, job, figures, findings):
    """What one process does, by turns: scripts, a server with two zones, scripts, a server with the zone that stays alone."""
    end, port = time.monotonic() + options.seconds, options.port + PORTS * job
    turn = 0
    while (left := end - time.monotonic()) > 0:
        seed = f"{options.seed}/{job}/{turn}"
        until = time.monotonic() + min(left, TURN)
        if (turn + job) % 2:
            server_until(until, options, seed, port, figures, findings, (turn + job) // 2 % 2 == 1)
        else:
            scripts_until(until, options, random.Random(seed), figures, findings)
        turn += 1


def work(options, job, numbers, results):
    def next_number():
        with numbers.get_lock():
            numbers.value += 1
            return numbers.value

    figures = Figures()
    try:
        all_turns(options, job, figures, Findings(figures, next_number))
    except Exception:
        figures.failures["the fuzzer itself has failed"] += 1
        traceback.print_exc()
    results.put(figures)
    results.close()
    results.join_thread()
    os._exit(0)


def run_jobs(options):
    """The figures of all processes."""
    numbers, results = multiprocessing.Value("i", 0), multiprocessing.Queue()
    jobs = [multiprocessing.Process(target=work, args=(options, job, numbers, results)) for job in range(options.jobs)]
    for job in jobs:
        job.start()
    figures = Figures()
    for _ in jobs:
        figures.add(results.get())
    for job in jobs:
        job.join()
    return figures


def show(figures, seconds):
    print(*figures.lines(), sep="\n")
    inputs = figures.inputs()
    print(f"{inputs:,} inputs, {inputs / seconds:,.0f} a second; {sum(figures.failures.values())} failures")
    for said, count in figures.failures.most_common():
        print(f"  {count} times: {said}")


def main():
    parser = argparse.ArgumentParser()
    parser.add_argument("program", nargs="?")
    parser.add_argument("seconds", nargs="?", type=float)
    parser.add_argument("--seed", type=int, default=1)
    parser.add_argument("--jobs", type=int, default=len(os.sched_getaffinity(0)))
    parser.add_argument("--port", type=int, default=27_000)
    parser.add_argument("--scenarios", action="store_true")
    options = parser.parse_args()
    if options.seconds is None and not options.scenarios:
        parser.error("PROGRAM and SECONDS are missing")
    begun = time.monotonic()
    figures = against_scenarios.compared() if options.scenarios else run_jobs(options)
    show(figures, time.monotonic() - begun)
    sys.exit(1 if figures.failures else 0)


if __name__ == "__main__":
    main()
