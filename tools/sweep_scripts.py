#!/usr/bin/env python3
"""Each allocation of a replay refused in turn: what is written begins the transcript, and the status says why it ends there.

    python3 tools/sweep_scripts.py [--run K] [--most N] [--jobs N] RPZ [SUBJECT ..]

RPZ is the built program. A small run of `load` (its subject is `load`), and each scenario of these subjects, or of all, whose script has at most N octets (2,000), is replayed once without a
refusal, and then once for each call for memory, which alone is refused (bench/count_allocations.c), until none is refused any more;
with --run it is K calls one behind another. Each such run must write the whole transcript and end with its status, or a beginning
of it and end with the status for out of memory, 9; or, where the words of the command line or the text of the status get no memory,
nothing, or a beginning, with the status 1 (docs/OPERATING.md).

Prints for each subject how many calls were refused, and how many runs were `whole`, ended with the status 9 (`refused`) or 1 (`early`).
The status is 1 where one is none of these, which is shown. Wanted: cc.
"""

import argparse
import collections
import concurrent.futures
import os
import subprocess
import sys
import tempfile

import scenarios
import sweep

OUT_OF_MEMORY, EARLY = 9, 1
# a run of another command, of one worker, so that its calls come in one order
LOAD = scenarios.Case("load/one-worker", ["load", "7", "12", "4", "1"], 0, b"", "", "0")
# so many runs go on beside one another
AHEAD = 64


def run(words, case, library, counts, number, length):
    """The status and the output of a run that is refused so many calls from this number on, and how many calls there were."""
    more = {"LD_PRELOAD": library, "REFUSE": str(number), "REFUSE_RUN": str(length), "COUNT_FILE": counts}
    done = subprocess.run(words, input=case.script, capture_output=True, check=False, timeout=120, env={**os.environ, **more})
    calls = sweep.calls_for_memory(counts)
    os.remove(counts)
    return done.returncode, done.stdout, calls


def judged(whole, done):
    """In a word what a run came to, by the one without a refusal; None where it is wrong."""
    if done[:2] == whole[:2]:
        return "whole"
    if whole[1].startswith(done[1]) and done[0] in (OUT_OF_MEMORY, EARLY):
        return "refused" if done[0] == OUT_OF_MEMORY else "early"
    return None


class Sweep:
    """The runs of one scenario's script."""

    def __init__(self, options, library, folder, case):
        self.words, self.case = [options.program, *case.words], case
        self.library, self.folder, self.length = library, folder, options.run

    def run(self, number):
        return run(self.words, self.case, self.library, f"{self.folder}/{id(self)}-{number}", number, self.length)

    def all(self, pool):
        """How often each outcome was seen, and what is wrong."""
        whole, seen, wrong = self.run(0), collections.Counter(), []
        for begin in range(1, 1_000_000, AHEAD):
            for number, done in zip(range(begin, begin + AHEAD), pool.map(self.run, range(begin, begin + AHEAD))):
                if number > done[2]:
                    return seen, wrong
                outcome = judged(whole, done)
                seen[outcome or "WRONG"] += 1
                if outcome is None:
                    wrong.append(f"{self.case.name} {self.case.piece}, number {number}: status {done[0]}, {done[1][-200:]}")
        sys.exit(f"{self.case.name}: no end of calls for memory")


def cases_of(options):
    """The scenarios of `replay` by subject, but for those with large scripts."""
    subjects = collections.defaultdict(list)
    names = [name for name in options.subjects if name != "load"]
    if not options.subjects or "load" in options.subjects:
        subjects["load"].append(LOAD)
    for case in scenarios.all_cases(names) if names or not options.subjects else ():
        if case.words == ["replay"] and len(case.script) <= options.most:
            subjects[case.name.split("/")[0]].append(case)
    return subjects


def words_of():
    words = argparse.ArgumentParser()
    words.add_argument("--run", type=int, default=1)
    words.add_argument("--most", type=int, default=2_000)
    words.add_argument("--jobs", type=int, default=os.cpu_count())
    words.add_argument("program")
    words.add_argument("subjects", nargs="*")
    return words.parse_args()


def main():
    options, failed = words_of(), False
    with tempfile.TemporaryDirectory() as folder, concurrent.futures.ThreadPoolExecutor(options.jobs) as pool:
        library = f"{folder}/refuse.so"
        subprocess.run(["cc", "-O2", "-shared", "-fPIC", "-o", library, sweep.ROOT / "bench/count_allocations.c"], check=True)
        for subject, cases in sorted(cases_of(options).items()):
            seen, wrong = collections.Counter(), []
            for case in cases:
                seen_there, wrong_there = Sweep(options, library, folder, case).all(pool)
                seen, wrong = seen + seen_there, wrong + wrong_there
            told = " ".join(f"{word} {seen[word]}" for word in sorted(seen))
            print(f"{subject}: {len(cases)} scripts, {sum(seen.values())} refused: {told}", flush=True)
            for line in wrong[:3]:
                print(f"  {line}")
            failed = failed or bool(wrong)
    sys.exit(1 if failed else 0)


if __name__ == "__main__":
    main()
