"""Tries several wrong bodies of one crate in one check, for wrong.py.

A function is proved against the contracts of those that it calls, and not against their bodies. So wrong bodies of different functions don't
touch one another, and one check of the crate with all of them says of each function by itself whether it is proved. An edit is tried so only
where it leaves all but the body of one function as it is: no part of a signature, a contract, a constant or a trait, no `const fn`, and no
body with items or a `dyn` in it. The functions of a cycle of calls have one proof, and count as one.

It is refused where the check names a goal of that very function's contract as open, or a line of its proof as wrong: a clause that doesn't
hold when it returns, the invariant of a type or of a loop, or what a callee requires. All else is left to be tried alone: an edit whose
function is proved, is refused for something else, as a bound, or by the name alone of what a proof file speaks of. A function that calls
one which is refused waits until that one's edits are done with. Where a check comes to no end, or finds a fault or proves a thing anew
outside of these functions, it counts for nothing, and each half of the group is tried by itself.
"""

import json
import pathlib
import re
import subprocess
import tempfile
from dataclasses import dataclass, replace

# as `rt must-fail` has it, and a line for each function that is not taken as it was proved before
FLAGS = ["--jobs", "1", "--progress"]
# how the last line of a check that came to its end begins, by its status
ENDS = {0: "logic=proved", 1: "logic=not-proved"}
# what a plain body doesn't have
ITEMS = {"const", "dyn", "enum", "extern", "fn", "impl", "macro_rules", "mod", "static", "struct", "trait", "type", "unsafe", "use"}
# the goals that a contract makes; others are of bounds, sums, measures and the like
OF_A_CONTRACT = re.compile(r"\breturns\b|\binvariant_of\b|\bloop\b.*-(?:preserved|init)\b|-requires\b")
# what is said of a function or an impl that isn't proved since another one isn't
WAITS = re.compile(r"it calls .*not proved|it waits for the proof of|for what it cites")
# a line that says no more than that a proof file names what is gone, as `rt must-fail` has it
BY_NAME = re.compile(r"has no field|is not in scope|has no `|was not admitted")


@dataclass(frozen=True)
class Body:
    """Where the body of a function stands in the octets of its file, and where the function does in the crate."""

    file: str
    start: int
    end: int
    module: str
    owner: str
    name: str
    cycle: str
    is_plain: bool

    def place(self):
        return self.file, self.module, self.owner, self.name, self.cycle, self.is_plain

    def called(self, functions):
        """What a check calls the function, or None where that isn't sure."""
        owner = f"{self.owner}::" if self.owner else ""
        own = re.compile(re.escape(self.module) + "::" + owner + self.name)
        elsewhere = re.compile(r"(?:\w+::)+" + owner + self.name)
        found = [it for it in functions if own.fullmatch(it)] or [it for it in functions if owner and elsewhere.fullmatch(it)]
        return found[0] if len(found) == 1 else None


@dataclass(frozen=True)
class Edit:
    """A wrong body, what a check calls its function, and those that have one proof with it, itself among them."""

    name: str
    body: Body
    octets: bytes
    function: str
    unit: frozenset[str]
    folder: str

    def is_of(self, function):
        """Whether it is one of these functions, or a closure in one and what belongs to that."""
        parts = 2 if self.body.owner else 1
        inside = ["::".join([self.body.module, "fn", *it.split("::")[-parts:], ""]) for it in self.unit]
        return function in self.unit or any(it in function.replace("++", "::") for it in inside)


def tokens_of(rattle, path):
    """The tokens of Rattle's code outside of clauses, as (start, end, text)."""
    said = subprocess.run([rattle, "fmt", "--tokens", path], capture_output=True, text=True, check=True).stdout
    in_clause = False
    for line in said.splitlines()[1:]:
        _, start, end, kind, text = line.split(" ", 4)
        in_clause = kind != "End" and (in_clause or kind == "Head" and text == '"{"')
        if kind == "Code" and not in_clause:
            yield int(start), int(end), json.loads(text)


def owner_of(head):
    """The part of a function's name that an impl gives it, as a pattern, from the tokens before the impl's brace."""
    plain, depth = [], 0
    for before, text in zip(["", *head], head):
        if text == "<":
            depth += 1
        elif text == ">" and before != "-":
            depth -= 1
        elif not depth:
            plain.append(text)
    plain = plain[plain.index("impl") + 1 :]
    plain = plain[: plain.index("where")] if "where" in plain else plain
    if "for" in plain:
        at = plain.index("for")
        return re.escape(plain[-1] + plain[at - 1]) + r"\w*"
    return re.escape(plain[-1])


def function_at(head):
    """Where the name of a function stands in the tokens before a brace, or 0."""
    return next((at + 1 for at, (one, two) in enumerate(zip(head, head[1:])) if one == "fn" and two.isidentifier()), 0)


def scope_of(head):
    """The kind of what a brace opens that is no body, and what it adds to the names of the functions in it."""
    if "impl" in head:
        return "impl", owner_of(head)
    return ("mod", head[-1]) if "mod" in head else ("other", "")


def is_whole(head):
    """Whether these tokens are no part of a list in brackets, so that a `;` ends them."""
    return head.count("(") == head.count(")") and head.count("[") == head.count("]")


def bodies_of(rattle, path, file, crate):
    """The bodies of a file's functions, without those inside of others."""
    parts = [it for it in pathlib.PurePath(file).with_suffix("").parts[1:] if it not in ("lib", "main", "mod")]
    bodies, scopes, head, depth, inside = [], [], [], 0, set()
    for start, end, text in tokens_of(rattle, path):
        if depth:
            depth += (text == "{") - (text == "}")
            inside.add(text)
            if not depth:
                bodies.append(replace(body, end=end, is_plain=body.is_plain and not inside & ITEMS))
        elif text == "{" and function_at(head):
            at = function_at(head)
            module = "::".join([crate, *parts, *[name for kind, name in scopes if kind == "mod"]])
            owner = next((name for kind, name in scopes if kind == "impl"), "")
            cycle = head[head.index("cycle") + 2] if "cycle" in head[:at] else ""
            is_plain = "const" not in head[:at] and all(kind in ("impl", "mod") for kind, _ in scopes)
            body = Body(file, start, start, module, owner, head[at], cycle, is_plain)
            head, depth, inside = [], 1, set()
        elif text == "{":
            scopes.append(scope_of(head))
            head = []
        elif text == "}":
            scopes.pop()
            head = []
        elif text == ";" and is_whole(head):
            head = []
        else:
            head.append(text)
    return bodies


def folder_of(function):
    """Where the files of a function's proof stand."""
    return "/".join(["proofs", *function.split("::")[1:], ""])


class Said:
    """What a check says of the functions of a crate."""

    def __init__(self, lines):
        self.statuses, self.notes, self.anew, self.errors, self.others = {}, {}, set(), [], []
        notes = []
        for line in lines:
            status = re.match(r"(fn|impl|trait|struct|enum) (.+?): (.*)", line)
            anew = re.match(r"checked (\S+), \d+ of \d+", line)
            error = re.match(r"(?:note: )?(?:\./)?(\S+?):\d+:\d+: (?:error|.*was not admitted)", line)
            if status and status[1] == "fn":
                self.statuses[status[2]], self.notes[status[2]], notes = status[3], notes, []
            elif status and not status[3].startswith("proved"):
                self.others.append((status[2], status[3]))
            elif anew:
                self.anew.add(anew[1])
            elif error:
                self.errors.append((error[1], line))
            elif line.startswith("note: "):
                notes.append(line)

    def is_proved(self, function):
        return self.statuses.get(function, "").startswith("proved")

    def waits(self, function):
        """Whether it is not proved since another one isn't, which it calls."""
        return bool(WAITS.search(self.statuses.get(function, "")))

    def is_about(self, edits, functions):
        """Whether the check has found and done nothing outside of the functions of the edits and of those that call them."""
        known = {it for it in self.statuses if self.waits(it) or any(edit.is_of(it) for edit in edits)}
        strange = (self.anew | {it for it in self.statuses if not self.is_proved(it)}) - known
        # what a wrong body adds or takes away is a closure of its own
        gone = [it for it in functions ^ set(self.statuses) if not any(edit.is_of(it) for edit in edits)]
        impls = [it for it, status in self.others if not WAITS.search(status) or not any(of.startswith(f"{it}::") for of in known)]
        folders = tuple([edit.folder for edit in edits] + [folder_of(it) for it in known])
        elsewhere = [line for path, line in self.errors if not path.startswith(folders)]
        return not (strange or gone or impls or elsewhere)

    def refusal(self, edit):
        """The line that says why the edit's function is refused, or None where none does."""
        status = self.statuses.get(edit.function, "")
        if self.waits(edit.function) or not re.match("not proved|no proof", status):
            return None
        goals = re.findall(r"`([^`]*)`", status.partition("did not prove")[2])
        open_ones = [it for it in goals if OF_A_CONTRACT.search(it)]
        lines = [line for path, line in self.errors if path.startswith(edit.folder) and not BY_NAME.search(line)]
        lines = [line for line in lines if any(OF_A_CONTRACT.search(it) for it in re.findall(r"error: `([^`]*)`", line))]
        lines += [line for line in self.notes[edit.function] if any(f"(`{it}`)" in line for it in open_ones)]
        return next(iter(lines + [status] * bool(open_ones)), None)


class Crate:
    """A crate as it stands in a checkout, over what a check of it has proved and left there."""

    def __init__(self, rt, rtlib, crate, lines):
        self.rt, self.rtlib, self.crate = rt, rtlib, crate
        self.functions = set(Said(lines).statuses)
        self.seed = f"{crate.folder}/out/incremental"
        self.files = rt.listing(self.seed)

    def octets(self, file):
        return pathlib.Path(self.crate.folder, file).read_bytes()

    def bodies(self, file, octets):
        with tempfile.NamedTemporaryFile(suffix=".rt") as copy:
            copy.write(octets)
            copy.flush()
            return bodies_of(self.rtlib.RATTLE, copy.name, file, self.crate.name)

    def edit(self, path):
        """The edit of a file, or None where it can only be tried alone."""
        texts, _ = self.rt.read_edit(str(path), self.crate.folder)
        file = min(texts or [""])
        if not file.startswith("src/") or len(texts) > 1:
            return None
        old, new = self.octets(file), texts[file].encode()
        try:
            before, after = self.bodies(file, old), self.bodies(file, new)
        except (subprocess.CalledProcessError, LookupError, ValueError):
            # no text of Rattle any more
            return None
        for body, other in zip(before, after):
            is_all = old[: body.start] == new[: other.start] and old[body.end :] == new[other.end :]
            function = body.called(self.functions)
            if is_all and function and body.is_plain and body.place() == other.place():
                return Edit(path.name, body, new[other.start : other.end], function, *self.proof_of(body, function, before))
        return None

    def proof_of(self, body, function, bodies):
        """The functions that have one proof with this one, and where its files stand."""
        if not body.cycle:
            return frozenset([function]), folder_of(function)
        unit = {it.called(self.functions) or it.name for it in bodies if it.cycle == body.cycle}
        return frozenset(unit), folder_of(f"{body.module}::+{body.cycle}")

    def check(self, edits):
        """What a check of the crate with these edits says, or None where it comes to no end."""
        octets = {edit.body.file: self.octets(edit.body.file) for edit in edits}
        for edit in sorted(edits, key=lambda it: -it.body.start):
            was = octets[edit.body.file]
            octets[edit.body.file] = was[: edit.body.start] + edit.octets + was[edit.body.end :]
        texts = {file: it.decode() for file, it in octets.items()}
        # beside the seed, so that its files need no copy: a check replaces such a file, and changes none
        with tempfile.TemporaryDirectory(prefix="wrong-", dir=f"{self.crate.folder}/out") as room:
            self.rt.linked(self.seed, f"{room}/seed")
            ran = self.rt.checked(self.crate, texts, FLAGS, f"{room}/seed")
        lines = ran.stdout.rstrip("\n").split("\n")
        is_over = ran.returncode in ENDS and lines[-1].startswith(ENDS[ran.returncode])
        is_read = not self.rtlib.STALE.search(ran.stdout) and not any(self.rt.unread(it, texts) for it in lines)
        return Said(lines) if is_over and is_read and self.rt.listing(self.seed) == self.files else None

    def judge(self, edits):
        """Gives each edit with the line that refuses it, with "" where it waits for another one, or else with None."""
        said = self.check(edits)
        if said and said.is_about(edits, self.functions):
            return [(it, "" if said.waits(it.function) else said.refusal(it)) for it in edits]
        half = len(edits) // 2
        return self.judge(edits[:half]) + self.judge(edits[half:]) if half else [(edits[0], None)]

    def refused(self, edits):
        """Tries the edits, one of each proof at a time, and gives those that are refused, each with why."""
        left = edits
        while left:
            later, is_new = [], False
            while left:
                together = list({it.unit: it for it in reversed(left)}.values())
                left = [it for it in left if it not in together]
                for edit, why in self.judge(together):
                    is_new |= bool(why)
                    later += [edit] * (why == "")
                    if why:
                        yield edit, why
            left = later if is_new else []
