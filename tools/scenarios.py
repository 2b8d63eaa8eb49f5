#!/usr/bin/env python3
"""scenarios.py: what the product does, as text; turns scenarios/ into what a program reads and must write.

    scenarios.py --write               writes the files in crates/replay_cases that the scenarios give
    scenarios.py --check               says whether those files are what the scenarios give; silent where they are
    scenarios.py --show FILE ..        prints scripts and transcripts as text (`-` is standard input)
    scenarios.py --run PROGRAM NAME .. runs scenarios through a built `rpz`, and shows the first difference of each;
                                       NAME is a file of scenarios/, or FILE/SCENARIO as --list prints it; none: all
    scenarios.py --list                prints the names of all scenarios

scenarios/README says what a scenario may say. The encoder knows DNS messages, and no rule of policy: what is expected
stands in the scenarios, and is only put into bytes here.
"""
import argparse
import re
import subprocess
import sys
from copy import deepcopy
from dataclasses import dataclass, field
from pathlib import Path

from dns_text import Refused
from scenario_text import each_of, OUTPUTS, Reader, Shower, split_worker

TOP = Path(__file__).resolve().parent.parent
FOLDER = TOP / "scenarios"
CRATE = TOP / "crates" / "replay_cases"
USAGE = """\
usage: rpz serve [OPTION]... LISTEN UPSTREAM TURNS WORKERS ZONE@PRIMARY...
       rpz replay < SCRIPT
       rpz load SEED RULES QUERIES WORKERS
       rpz help [COMMAND]
       rpz --version"""
RAW = re.compile(r"(worker \d+: )?line( |$)")
ANSWERED = (b"xfer", b"query", b"give", b"fail", b"notify", b"due")  # lines that have an output


@dataclass
class Step:
    place: str  # file and line
    worker: int
    text: str
    block: list = field(default_factory=list)
    expected: list = field(default_factory=list)  # pairs of text and block


@dataclass
class Scenario:
    name: str
    words: list = field(default_factory=lambda: ["replay"])
    pieces: list = field(default_factory=lambda: [0])
    rounds: list = field(default_factory=list)  # lists of steps that are done together for each number of their ranges


@dataclass
class Case:
    """A script with its words, in pieces of so many bytes (0: whole), its transcript and its status."""
    name: str
    words: list
    piece: int
    script: bytes
    transcript: str
    status: str


# ---- reading scenarios

def name_of_scenario(path, title):
    return f"{path.name}/{re.sub('[^a-z0-9]+', '-', title.lower()).strip('-')}"


def without_comment(line):
    """What stands before a `;` that begins the line or follows a space, and isn't in quotation marks."""
    quoted = False
    for place, c in enumerate(line):
        if c == '"':
            quoted = not quoted
        if c == ";" and not quoted and (place == 0 or line[place - 1] == " "):
            return line[:place].rstrip()
    return line.rstrip()


def read_file(path):
    scenarios, block = [], None
    for number, line in enumerate(path.read_text(encoding="utf-8").splitlines(), 1):
        place = f"{path.name}:{number}"
        text = line if RAW.match(line) else without_comment(line)
        if not text:
            continue
        if text.startswith("scenario "):
            scenarios.append(Scenario(name_of_scenario(path, text[9:])))
        elif not scenarios:
            raise Refused(f"{place}: `scenario TITLE` comes first")
        elif text[0] == " ":
            if block is None:
                raise Refused(f"{place}: nothing to which this line belongs")
            block.append(text.strip())
        else:
            block = read_line(scenarios[-1], place, text)
    return scenarios


def read_line(scenario, place, text):
    """Takes in a line that isn't indented, and gives the list to which indented ones behind it belong."""
    if text.startswith("command rpz"):
        scenario.words = text.split()[2:]
        return None
    if text.startswith("in pieces of "):
        scenario.pieces = [int(number) for number in re.findall(r"\d+", text)]
        return None
    if text.startswith("=> "):
        if not scenario.rounds:
            scenario.rounds.append([Step(place, 0, "")])
        block = []
        scenario.rounds[-1][-1].expected.append((text[3:], block))
        return block
    step = Step(place, *split_worker(text.removeprefix("and ")))
    if text.startswith("and ") and scenario.rounds:
        scenario.rounds[-1].append(step)
    else:
        scenario.rounds.append([step])
    return step.block


def turns_of(steps):
    """The steps once for each number of the ranges in them: each with its text and the texts that are expected of it."""
    texts = [text for step in steps for text in (step.text, *(text for text, _ in step.expected))]
    turns = [texts] if texts[0].startswith("line") else [one.split("\n") for one in each_of("\n".join(texts))]
    for turn in map(iter, turns):
        for step in steps:
            yield step, next(turn), [next(turn) for _ in step.expected]


def rows_of(block):
    return [row for line in block for row in each_of(line)]


def usage_status(cause):
    """The status of words that are refused, with what is wrong with them where more is said than that."""
    return f"2 rpz: usage{': ' if cause else ''}{cause}\n{USAGE}"


def cases_of(scenario, captures):
    reader, script, transcript, status = Reader(captures), b"", "", "0"
    for steps in scenario.rounds:
        step = steps[0]
        try:
            for step, text, outputs in turns_of(steps):
                block, wanted = rows_of(step.block), [rows_of(block) for _, block in step.expected]
                for line in reader.step(step.worker, text, block) if text else [b""]:
                    script += line
                    for output, rows in zip(outputs, wanted):
                        refused = re.fullmatch(r"line (\d+) is refused: (\w+)", output)
                        if refused:
                            status = f"3 rpz: line {refused[1]}: {refused[2]}"
                        elif output.split()[0] == "usage":
                            status = usage_status(output.removeprefix("usage").strip())
                        else:
                            transcript += reader.output(step.worker, output, rows)
        except (Refused, ValueError, IndexError, KeyError) as error:
            raise Refused(f"{step.place}: {error!r}") from None
    for piece in scenario.pieces:
        name = scenario.name if len(scenario.pieces) == 1 else f"{scenario.name}/{piece}"
        yield Case(name, scenario.words, piece, script, transcript, status)


def all_scenarios():
    captures = {}
    for path in sorted((FOLDER / "captures").glob("*.hex")):
        for line in path.read_text().splitlines():
            if line and line[0] != "#":
                label, digits = line.split()
                captures[label] = bytes.fromhex(digits)
    scenarios = [scenario for path in sorted(FOLDER.iterdir()) if path.is_file() and path.name != "README"
                 for scenario in read_file(path)]
    names = [scenario.name for scenario in scenarios]
    doubled = sorted({name for name in names if names.count(name) > 1})
    if doubled:
        raise Refused(f"two scenarios have one name: {', '.join(doubled)}")
    return scenarios, captures


def all_cases(names=()):
    scenarios, captures = all_scenarios()
    wanted = [one for one in scenarios if not names or one.name in names or one.name.split("/")[0] in names]
    missing = [name for name in names if not any(name in (one.name, one.name.split("/")[0]) for one in wanted)]
    if missing:
        raise Refused(f"no such scenario: {', '.join(missing)}")
    return [case for scenario in wanted for case in cases_of(scenario, captures)]


# ---- the files of the crate

def files_of(cases):
    """What the program reads, and what it must write."""
    script, output = b"", ""
    for case in cases:
        words = "".join(f" {word}" for word in case.words)
        script += f"case {case.name} {case.piece} {len(case.script)}{words}\n".encode() + case.script + b"\n"
        output += f"case {case.name}\n{case.transcript}status {case.status}\n"
    return {CRATE / "stdin": script, CRATE / "stdout": output.encode()}


def check():
    wrong = [path for path, octets in files_of(all_cases()).items() if not path.is_file() or path.read_bytes() != octets]
    for path in wrong:
        print(f"{path.relative_to(TOP)} isn't what scenarios/ gives: run tools/scenarios.py --write")
    return 1 if wrong else 0


def write():
    for path, octets in files_of(all_cases()).items():
        path.write_bytes(octets)
    return 0


# ---- showing

def show(octets):
    """Lines of a script, or of a transcript, or of a script with the outputs behind its lines."""
    shower = Shower()
    for line in octets.splitlines():
        print(*shower.line(line), sep="\n")


# ---- running

def steps_of(case):
    """For each line of the transcript the step that it comes behind, as text, and a shower that knows what came before."""
    shower, outputs, out = Shower(), case.transcript.splitlines(), []
    for line in case.script.splitlines():
        text = shower.line(line)
        if line.split(b" ")[0] in ANSWERED:
            out.append((text, deepcopy(shower)))
            if len(out) <= len(outputs):
                shower.line(outputs[len(out) - 1].encode())
    return out


def difference(case, done):
    """The first difference between what a program wrote and what is expected, as text; None where there is none."""
    expected = [*case.transcript.splitlines(), f"status {case.status}"]
    status = f"status {done.returncode} {done.stderr.decode().strip()}".rstrip()
    found = [*done.stdout.decode("latin-1").splitlines(), status]
    for place in range(max(len(expected), len(found))):
        wanted, got = (side[place] if place < len(side) else "nothing" for side in (expected, found))
        if wanted != got:
            steps = steps_of(case)
            text, shower = steps[place] if place < len(steps) else (["(the end of the script)"], Shower())
            lines = ["  step:", *text, "  expected:", *shown_output(shower, wanted), "  found:", *shown_output(shower, got)]
            return "\n".join(line if line.startswith("  ") and line.endswith(":") else f"    {line}" for line in lines)
    return None


def shown_output(shower, line):
    return deepcopy(shower).line(line.encode("latin-1")) if line.split(" ")[0] in OUTPUTS else [line]


def run(program, names):
    failed = 0
    cases = [case for case in all_cases(names)]
    for case in cases:
        done = subprocess.run([program, *case.words], input=case.script, capture_output=True, timeout=60)
        found = difference(case, done)
        if found:
            failed += 1
            print(f"{case.name}\n{found}")
    print(f"{len(cases) - failed} passed, {failed} failed")
    return 1 if failed else 0


def main():
    reader = argparse.ArgumentParser(description=__doc__.split("\n\n")[0], epilog="scenarios/README says what a scenario may say")
    reader.add_argument("--write", action="store_true", help="write the files in crates/replay_cases")
    reader.add_argument("--check", action="store_true", help="say whether those files are what the scenarios give")
    reader.add_argument("--show", nargs="+", metavar="FILE", help="print scripts and transcripts as text; - is standard input")
    reader.add_argument("--run", nargs="+", metavar=("PROGRAM", "NAME"), help="run scenarios through a built rpz")
    reader.add_argument("--list", action="store_true", help="print the names of all scenarios")
    words = reader.parse_args()
    try:
        if words.show:
            for path in words.show:
                show(sys.stdin.buffer.read() if path == "-" else Path(path).read_bytes())
            return 0
        if words.run:
            return run(words.run[0], words.run[1:])
        if words.list:
            print(*(scenario.name for scenario in all_scenarios()[0]), sep="\n")
            return 0
        return write() if words.write else check()
    except Refused as error:
        print(f"scenarios: {error}", file=sys.stderr)
        return 2


if __name__ == "__main__":
    sys.exit(main())
