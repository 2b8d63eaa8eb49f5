#!/usr/bin/env python3
"""documents.py: whether the documents name files that exist, quote files as they are, and have the numbers that the code has.

    python3 tools/documents.py

Prints each fault as `file:line: what`, and ends with status 1 if there is any. It reads docs/, README.md, CONTRIBUTING.md,
SECURITY.md, CHANGELOG.md and scenarios/README, and looks at

- links: the file exists, and the heading that a `#` names;
- paths such as crates/NAME/.. or tools/NAME.py, and names such as `best.rt` in backticks: the file exists. Names in capitals
  (crates/NAME) stand for any; what a build makes (crates/*/out) isn't looked for;
- `crate/Module` in the tables of definitions: the file of specs/ exists;
- the tables of docs/ADDING.md: each name of src/, specs/ and proofs/ is one of the row's crate;
- docs/ARCHITECTURE.md: it names each crate of crates.txt, and its paragraphs and tables no other;
- blocks that begin with ```antt PATH: their text stands in that file;
- the numbers of NUMBERS, wherever a document has their words.
"""

import functools
import os
import pathlib
import re
import sys

import sizes

ROOT = pathlib.Path(__file__).resolve().parent.parent
OTHERS = ("README.md", "CONTRIBUTING.md", "SECURITY.md", "CHANGELOG.md", "scenarios/README")
CODE = re.compile(r"`([^`\n]+)`")
LINK = re.compile(r"\[[^\]\n]*\]\(([^)\s]+)\)")
PATH = re.compile(r"(?<![\w/.\"-])((?:crates|docs|tools|bench|scenarios|packaging)/[\w./*-]*[\w*])")
SOURCE = re.compile(r"(?<![\w/])((?:\w+/)*\w+\.rt)\b")
MODULE = re.compile(r"(?<![\w/.-])([a-z][a-z_]+)/([A-Z]\w+)\b(?!\.\w)")
OF_THE_KIT = ("docs/ANSWERS.md", "docs/NOT_COVERED.md", "docs/REFUSED.md")  # pages of the kit, which documents send readers to
QUOTED = re.compile(r"^```antt (\S+)\n(.*?)^```$", re.M | re.S)
PLACEHOLDER = re.compile(r"/(?!README)[A-Z_]+(?:\.(?:antt|edit|py|rt))?(?=/|$)|\.\.|/out\b")


# ---- numbers

@functools.cache
def constant(name):
    """The value of a constant of src/, whose name only one crate gives a number."""
    for path in sorted(ROOT.glob("crates/*/src/**/*.rt")):
        match = re.search(rf"^pub(?:\(crate\))? const {name}: \w+ = ([\d_ <*+]+);", path.read_text(encoding="utf-8"), re.M)
        if match:
            return eval(match.group(1), {"__builtins__": {}})  # digits and operators alone, by the pattern
    raise SystemExit(f"tools/documents.py: no constant {name} is a number")


def crates():
    return re.findall(r"^(\w+).*?:", (ROOT / "crates.txt").read_text(encoding="utf-8"), re.M)


def scenarios():
    files = [path for path in (ROOT / "scenarios").iterdir() if path.is_file() and path.name != "README"]
    return sum(len(re.findall(r"^scenario ", path.read_text(encoding="utf-8"), re.M)) for path in files)


def edits():
    return len(list(ROOT.glob("crates/*/must-fail/*.edit")))


def lines(column):
    return sum(sizes.row(name)[column] for name in crates())


# the words around numbers, and what each group of them must be; only documents that are of today are looked at
NUMBERS = (
    (r"\b([\d,]+) crates\b", lambda: len(crates())),
    (r"\ball ([\d,]+) scenarios\b(?! of)", scenarios),
    (r"\b([\d,]+) edits of the gate\b", edits),
    (r"\b([\d,]+) must-fail edits\b", edits),
    (r"\b([\d,]+) lines of code\b", lambda: lines(1)),
    (r"\b([\d,]+) lines of specifications\b", lambda: lines(3)),
    (r"\b([\d,]+) lines of proofs\b", lambda: lines(4)),
    (r"threads that ask the upstream[^.|\n]*: 1 to ([\d,]+); default", lambda: constant("ASKER_LIMIT")),
    (r"threads that ask the upstream[^.|\n]*: 1 to [\d,]+; default ([\d,]+)", lambda: constant("USUAL_ASKERS")),
    (r"\b([\d,]+) questions are pending", lambda: constant("USUAL_ASKERS")),
    (r"\b[Ww]ith ([\d,]+) askers and\b", lambda: constant("USUAL_ASKERS")),
    (r"the request list: ([\d,]+) queries", lambda: constant("WAITING_QUERIES")),
    (r"\| request list[^|]*\| ([\d,]+)", lambda: constant("WAITING_QUERIES")),
    (r"\bcache of ([\d,]+) answers\b", lambda: constant("USUAL_CACHE")),
    (r"\bone cache, of ([\d,]+) answers unless", lambda: constant("USUAL_CACHE")),
    (r"\| cache \| ([\d,]+) answers", lambda: constant("USUAL_CACHE")),
    (r"--cache ENTRIES`[^\n]* default ([\d,]+)", lambda: constant("USUAL_CACHE")),
    (r"--cache ENTRIES`[^\n]* to ([\d,]+); default", lambda: constant("MOST_CACHE")),
    (r"once ([\d,]+) are open", lambda: constant("USUAL_CONNECTIONS")),
    (r"once [\d,]+ are open \(([\d,]+) of one client\)", lambda: constant("USUAL_PER_CLIENT")),
    (r"connections of clients: 1 to [\d,]+; default ([\d,]+)", lambda: constant("USUAL_CONNECTIONS")),
    (r"connections of clients: 1 to ([\d,]+); default", lambda: constant("CONNECTION_LIMIT")),
    (r"of one client: 1 to [\d,]+; default ([\d,]+)", lambda: constant("USUAL_PER_CLIENT")),
    (r"\b1 to ([\d,]+) zones of distinct names", lambda: constant("ZONE_LIMIT")),
    (r"over ([\d,]+) rows\b", lambda: constant("ROW_LIMIT")),
)
OF_OLD = ("CHANGELOG.md", "docs/MEASUREMENTS.md")  # figures of earlier revisions


# ---- files

def documents():
    found = [ROOT / name for name in OTHERS] + sorted((ROOT / "docs").iterdir())
    return [path for path in found if path.is_file()]


def line_at(text, place):
    return text.count("\n", 0, place) + 1


def is_there(path):
    return path in OF_THE_KIT or bool(PLACEHOLDER.search(path)) or any(ROOT.glob(path))


def slug(heading):
    """The anchor of a heading, as GitHub makes it."""
    plain = re.sub(r"[`*]|\[([^\]]*)\]\([^)]*\)", r"\1", heading).strip().lower()
    return re.sub(r"[^\w\- ]", "", plain).replace(" ", "-")


@functools.cache
def anchors(path):
    return {slug(heading) for heading in re.findall(r"^#+ (.*)$", path.read_text(encoding="utf-8"), re.M)}


def bad_links(path, text):
    for match in LINK.finditer(text):
        name, _, anchor = match.group(1).partition("#")
        if re.match(r"\w+:", name):
            continue
        target = (path.parent / name).resolve() if name else path
        if not target.exists():
            yield match.start(), f"the link to {name} leads nowhere"
        elif anchor and target.is_file() and anchor not in anchors(target):
            yield match.start(), f"{os.path.relpath(target, ROOT)} has no heading #{anchor}"


def bad_paths(path, text):
    for match in PATH.finditer(text):
        if not is_there(match.group(1).rstrip(".")):
            yield match.start(), f"{match.group(1)} isn't there"
    for quoted in CODE.finditer(text):
        for match in SOURCE.finditer(quoted.group(1)):
            name = match.group(1)
            if not name.startswith("crates/") and not any(ROOT.glob(f"crates/*/src/**/{name}")):
                yield quoted.start(), f"no crate has a file {name}"


def bad_modules(path, text):
    names = set(crates())
    for match in MODULE.finditer(text):
        crate, module = match.groups()
        if crate in names and not (ROOT / "crates" / crate / "specs" / f"{module}.antt").exists():
            yield match.start(), f"{crate} has no specs/{module}.antt"


def bad_quotes(path, text):
    for match in QUOTED.finditer(text):
        source, block = match.groups()
        if not (ROOT / source).exists():
            yield match.start(), f"{source} isn't there"
        elif block not in (ROOT / source).read_text(encoding="utf-8"):
            yield match.start(), f"this block doesn't stand in {source}"


def bad_numbers(path, text):
    if str(path.relative_to(ROOT)) in OF_OLD:
        return
    for pattern, value in NUMBERS:
        for match in re.finditer(pattern, text):
            given = match.group(1)
            if int(given.replace(",", "")) != value():
                yield match.start(1), f"{given} is {value():,} ({match.group(0)[:60]})"


def without_brackets(cell):
    return re.sub(r"\([^)]*\)", "", cell)


def bad_rows(text):
    """Rows of the tables of docs/ADDING.md: crate, src/, specs/, proofs/, what it gets."""
    for row in re.finditer(r"^\| ([a-z_, ]+) \|([^|\n]*)\|([^|\n]*)\|([^|\n]*)\|[^|\n]*\|$", text, re.M):
        for crate in row.group(1).split(", "):
            folder = ROOT / "crates" / crate
            if not folder.is_dir():
                if crate in crates() or "_" in crate:
                    yield row.start(), f"there is no crate {crate}"
                continue
            for name in re.findall(r"[\w/]+\.rt\b", row.group(2)):
                if not (folder / "src" / name).exists():
                    yield row.start(), f"{crate} has no src/{name}"
            for name in re.findall(r"\b[A-Z]\w+", without_brackets(row.group(3))):
                if not (folder / "specs" / f"{name}.antt").exists():
                    yield row.start(), f"{crate} has no specs/{name}.antt"
            for name in re.findall(r"[\w/]+", without_brackets(row.group(4))):
                place = folder / "proofs" / name
                if not (place.is_dir() or place.with_suffix(".antt").exists()):
                    yield row.start(), f"{crate} has no proofs of {name}"


def bad_crates(text):
    """Crates that docs/ARCHITECTURE.md doesn't tell of, and those of its paragraphs and tables that aren't there."""
    told = {name: match.start() for match in re.finditer(r"^\*\*(\w+)\*\*:|^\| (\w+_\w+) \|", text, re.M) for name in match.groups() if name}
    bold = set(re.findall(r"\*\*(\w+)\*\*", text)) | set(told)
    for name in crates():
        if name not in bold:
            yield 0, f"the crate {name} of crates.txt isn't named"
    for name, place in told.items():
        if name not in crates():
            yield place, f"{name} is no crate of crates.txt"


def faults(path):
    text = path.read_text(encoding="utf-8")
    for check in (bad_links, bad_paths, bad_modules, bad_quotes, bad_numbers):
        yield from check(path, text)
    if path.name == "ADDING.md":
        yield from bad_rows(text)
    if path.name == "ARCHITECTURE.md":
        yield from bad_crates(text)


def main():
    os.chdir(ROOT)
    count = 0
    for path in documents():
        text = path.read_text(encoding="utf-8")
        for place, what in sorted(faults(path)):
            print(f"{path.relative_to(ROOT)}:{line_at(text, place)}: {what}")
            count += 1
    if not count:
        print("the documents name what is there")
    return 1 if count else 0


if __name__ == "__main__":
    sys.exit(main())
