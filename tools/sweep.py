#!/usr/bin/env python3
"""Each allocation of a call refused in turn: the call gives what it gives with memory, or says that it has none, and loses nothing.

    python3 tools/sweep.py [--run K] PROGRAM [NAME ..]

PROGRAM is the built program alloc_tests, which does one public call of a library twice on the same value, and prints what came of each. It is run once without a refusal, for what is right, and then once for each call for memory, which alone is refused
(bench/count_allocations.c), until none is refused any more. With --run it is K calls one behind another, as where a list that can't
have its room at once is filled all the same, one by one. Names are those that it prints, or the beginnings of some; without names
all are tried. Wanted: cc.

A line may be what is right, or `out of memory`; where it is that, the line of the second call is what the first was to be, since the
value is as it was (with --run it may be refused, too). A program that gets no memory for the input of the call ends with an error, which
is counted apart. What else may come where a worker sends or serves, and at a whole run of a server, the functions say whose names begin
with `came_of_`.

Prints a line for each name: how many calls for memory were refused, and in how many runs the first call or the second got none
(`first`, `second`), both (`both`) or neither (`same`), and how many ended before (`before`). `NO MEMORY` says that no refusal met the
call. The transfer under pins has other words: whether a pin or the transfer got none (`pin`, `publish`). The status is 1 where a line is
none of these (`WRONG`), which is shown.
"""

import collections
import os
import pathlib
import re
import subprocess
import sys
import tempfile
from concurrent.futures import ThreadPoolExecutor

ROOT = pathlib.Path(__file__).resolve().parent.parent
REFUSED = "out of memory"
CHANGES = "changes"

Run = collections.namedtuple("Run", "status lines errors refused")


class Sweep:
    """Runs of one call, of which each is refused so many calls for memory one behind another."""

    def __init__(self, program, library, folder, name, length):
        self.words = [program, name]
        self.library, self.folder, self.length = library, folder, length

    def run(self, number):
        """What a run prints that is refused the call for memory of this number (0: none), and whether there was one of this number."""
        counts = f"{self.folder}/counts-{number}"
        more = {"LD_PRELOAD": self.library, "REFUSE": str(number), "REFUSE_RUN": str(self.length), "COUNT_FILE": counts}
        done = subprocess.run(self.words, stdin=subprocess.DEVNULL, capture_output=True, text=True, check=False, timeout=120,
                              env={**os.environ, **more})
        calls = calls_for_memory(counts)
        os.remove(counts)
        return Run(done.returncode, done.stdout.splitlines(), done.stderr, 0 < number <= calls)


def calls_for_memory(counts):
    """How many there were by that file, whose last number is that of calls that give memory back."""
    with open(counts, "rb") as numbers:
        octets = numbers.read(48)
    return sum(int.from_bytes(octets[place:place + 8], sys.byteorder) for place in range(0, 40, 8))


def ended_early(run):
    """Whether a run got no memory before the call, or to show what it did."""
    return run.status == 1 and bool(re.search(r"OutOfMemory|NotShown|AllocError|AllocFailed", run.errors))


def bare(reply):
    """The server failure with the ID of this reply, which takes no memory (RFC 1035, section 4.1.1)."""
    return [*reply[:2], 129, 130, 0, 0, 0, 0, 0, 0, 0, 0]


def octets_of(line):
    """The octets that stand in a line behind `wrote` or `sent`; None where there are none."""
    found = re.search(r"(?:wrote|sent) \[([\d, ]*)\]", line)
    return found and [int(number) for number in found.group(1).split(",") if number.strip()]


def replies_on(octets):
    """The replies on a connection, each without its length."""
    replies, place = [], 0
    while place < len(octets):
        end = place + 2 + octets[place] * 256 + octets[place + 1]
        replies.append(octets[place + 2:end])
        place = end
    return replies


def came_of_sent(defined, line):
    """Of what a worker sent: nothing may stand for the reply, or a bare one."""
    if line == "sent ":
        return "nothing"
    return "bare" if octets_of(line) == bare(octets_of(defined)) else None


def came_of_stream(defined, line):
    """Of a connection: for each message in turn its reply was written, or a bare one, each whole and behind its length. The connection
    ended behind the last message, or out of memory; then the first octets of the next reply, or of a bare one, may stand at the end."""
    end, rest = line.split(" ", 1)[0], octets_of(line)
    if rest is None or end not in ("End", "OutOfMemory"):
        return None
    for reply in replies_on(octets_of(defined)):
        frames = [[*divmod(len(octets), 256), *octets] for octets in (reply, bare(reply))]
        whole = next((frame for frame in frames if rest[:len(frame)] == frame), None)
        if whole is None:
            return "cut" if end == "OutOfMemory" and any(frame[:len(rest)] == rest for frame in frames) else None
        rest = rest[len(whole):]
    return None if rest else "bare" if end == "End" else "cut"


def server_of(line):
    """The status of a server, the text that it wrote, and the replies that it sent; None where a line doesn't say all of it."""
    parts = re.fullmatch(r"(\w+) (wrote \[[\d, ]*\]) (\d+) ((?:sent \[[\d, ]*\] )*)", line)
    if not parts:
        return None
    replies = [octets_of(one) for one in re.findall(r"sent \[[\d, ]*\]", parts[4])]
    return (parts[1], bytes(octets_of(parts[2])).decode(), replies) if len(replies) == int(parts[3]) else None


def came_of_server(defined, line):
    """Of a server: each reply is one that is right, or a bare one in its place, or lacks. Where it is done it took the transfer, and of
    the queries as many as it says got the right reply; else it ended for want of memory or of a thread, and wrote the beginning of
    such lines."""
    (_status, whole, right), server = server_of(defined), server_of(line)
    if server is None:
        return None
    status, text, replies = server
    ids = [reply[:2] for reply in replies]
    if any(reply not in right and reply not in map(bare, right) or ids.count(reply[:2]) > 1 for reply in replies):
        return None
    texts = [re.sub(r"reply \d+ silent 0 memory 0", f"reply {count} silent 0 memory {len(right) - count}", whole)
             for count in range(len(right) + 1)]
    if status in ("OutOfMemory", "StartFault"):
        return "cut" if any(other.startswith(text) for other in texts) else None
    return "bare" if status == "Done" and text == texts[sum(reply in right for reply in replies)] else None


OTHERS = {
    "answers_under_refusal": came_of_sent,
    "rpz_workers::Worker::serve_stream": came_of_stream,
    "rpz_program::run::serve": came_of_server,
}


def came_of(name, defined, line):
    """In a word what a line came to: `same` as defined, nothing where it is plainly refused, or what may stand in its place; None where
    it is wrong."""
    if line in (defined, REFUSED):
        return "same" if line == defined else ""
    for beginning, other in OTHERS.items():
        if name.startswith(beginning):
            return other(defined, line)
    return None


def defined_answers(name, run):
    """The lines of a run without a refusal: the first and the second answer, and what is said of the value, if anything is."""
    if run.status != 0 or len(run.lines) not in (2, 3) or run.lines[2:] not in ([], [CHANGES]):
        sys.exit(f"{name}: no answer without a refusal: status {run.status} {run.lines} {run.errors}")
    first, second = run.lines[:2]
    if any(line.startswith(REFUSED) for line in (first, second)):
        sys.exit(f"{name}: out of memory without a refusal")
    if first != second and not run.lines[2:]:
        sys.exit(f"{name}: two answers, and no line that says so:\n{first}\n{second}")
    return run.lines


def judged(name, answers, length, run):
    """In a word what a run came to; None where a line is wrong."""
    if ended_early(run):
        return "before"
    if run.status != 0 or len(run.lines) < 2 or run.lines[2:] != answers[2:]:
        return None
    first, second = answers[:2]
    one, two = run.lines[:2]
    word = came_of(name, first, one)
    if word is None:
        return None
    if word == "same":
        word = came_of(name, second, two)
        return word if word in ("same", None) else f"second {word}".strip()
    # refused: the second call is then the first one that the value sees
    other = came_of(name, first, two)
    if other == "same":
        return f"first {word}".strip()
    return "both" if length > 1 and other is not None else None


def judged_pins(defined, run):
    """The same of the transfer under pins, of which each line has a name."""
    if ended_early(run):
        return "before"
    if run.status != 0:
        return None
    said = [line for line in run.lines if line != "pin out of memory"]
    if said == defined:
        return "same" if said == run.lines else "pin"
    first, publish, _fresh, _kept, last, _end = defined
    old, new = first.split(" ", 1)[1], last.split(" ", 1)[1]
    again = "again " + publish.split(" ", 1)[1]
    refused = [first, "publish out of memory", f"fresh {old}", f"kept {old}", again, f"last {new}", f"kept {old}"]
    return "publish" if said == refused else None


def defined_pins(run):
    """The six lines of a run without a refusal; the first version and the last are not the same."""
    names = [line.split(" ", 1)[0] for line in run.lines]
    if run.status != 0 or names != ["first", "publish", "fresh", "kept", "last", "kept"]:
        sys.exit(f"transfer_under_pins: no answer without a refusal: status {run.status} {run.lines} {run.errors}")
    first, _publish, fresh, kept, last, end = (line.split(" ", 1)[1] for line in run.lines)
    if first == last or fresh != last or kept != first or end != first:
        sys.exit("transfer_under_pins: the versions are not those that are expected")
    return run.lines


def judge_of(name, length, run):
    """What judges the runs of a call, by the one without a refusal."""
    if name == "transfer_under_pins":
        defined = defined_pins(run)
        return lambda other: judged_pins(defined, other)
    answers = defined_answers(name, run)
    return lambda other: judged(name, answers, length, other)


def sweep(program, library, folder, name, length):
    """How often each outcome was seen, and the runs that are wrong."""
    runs = Sweep(program, library, folder, name, length)
    judge = judge_of(name, length, runs.run(0))
    seen, wrong = collections.Counter(), []
    with ThreadPoolExecutor(2) as pool:
        for start in range(1, 1_000_000, 16):
            numbers = range(start, start + 16)
            for number, run in zip(numbers, pool.map(runs.run, numbers)):
                if not run.refused:
                    return seen, wrong
                outcome = judge(run)
                seen[outcome or "WRONG"] += 1
                if outcome is None:
                    wrong.append((number, run))
    sys.exit(f"{name}: no end of calls for memory")


def names_of(program, wanted):
    """The names that the program prints, or those of them that begin so."""
    done = subprocess.run([program], stdin=subprocess.DEVNULL, capture_output=True, text=True, check=True)
    names = done.stdout.split()
    for word in wanted:
        if not any(name.startswith(word) for name in names):
            sys.exit(f"no call {word}")
    return [name for name in names if not wanted or any(name.startswith(word) for word in wanted)]


def read_words(words):
    """How many calls are refused one behind another, the program, and the names."""
    length = 1
    if words[:1] == ["--run"] and len(words) > 1 and words[1].isdigit() and int(words[1]) > 0:
        length, words = int(words[1]), words[2:]
    if not words or words[0].startswith("-"):
        sys.exit("usage: python3 tools/sweep.py [--run K] PROGRAM [NAME ..]")
    return length, words[0], words[1:]


def main():
    length, program, wanted = read_words(sys.argv[1:])
    failed = False
    with tempfile.TemporaryDirectory() as folder:
        library = f"{folder}/refuse.so"
        subprocess.run(["cc", "-O2", "-shared", "-fPIC", "-o", library, ROOT / "bench/count_allocations.c"], check=True)
        for name in names_of(program, wanted):
            seen, wrong = sweep(program, library, folder, name, length)
            told = " ".join(f"{word} {seen[word]}" for word in sorted(seen))
            lacking = "" if set(seen) - {"before", "same"} else " NO MEMORY: no refusal met the call"
            print(f"{name}: {sum(seen.values())} refused: {told}{lacking}", flush=True)
            for number, run in wrong[:3]:
                print(f"  number {number}: status {run.status}", *run.lines, *run.errors.splitlines()[:-1], sep="\n    ")
            failed = failed or bool(wrong)
    sys.exit(1 if failed else 0)


if __name__ == "__main__":
    main()
