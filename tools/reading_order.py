#!/usr/bin/env python3
"""reading_order.py: which definitions the contracts of `run` and of a worker rest on, each module after those that it cites.

    python3 tools/reading_order.py            writes docs/READING_ORDER.md
    python3 tools/reading_order.py --check    says whether that file is what the tool would write, and which names of it stand for two
                                              things; ends with status 1 if it isn't, or if there are any

It starts from the names that the clauses of these functions import (`ghost use`), and follows them through the `use` lines of the files
in specs/. A name counts as cited where it stands in the text of a definition; definitions of the toolchain's library and of its
crates are left out.
"""

import argparse
import difflib
import glob
import os
import pathlib
import re
import sys

ROOT = pathlib.Path(__file__).resolve().parent.parent
TARGET = ROOT / "docs" / "READING_ORDER.md"

# each part of the file: the title, what it says first, and the functions whose clauses it follows
PARTS = (
    ("The clauses of `run`", "`crates/rpz_program/src/run.rt`: a whole run of the program.", (("rpz_program", "run", "run"),)),
    (
        "The clauses of a worker",
        "`crates/rpz_workers/src/handling.rt` (`work`, `take`) and `worker.rt` (`answer`). Only what isn't listed above.",
        (("rpz_workers", "handling", "work"), ("rpz_workers", "handling", "take"), ("rpz_workers", "worker", "answer")),
    ),
)

# the definitions that matter most: crate, module, names; docs/READING_ORDER.md has them on top, docs/MODEL.md among the others
MATTERS = (
    ("trigger_codec", "Decode", ("trigger",)),
    ("action_codec", "Action", ("cname_action",)),
    ("policy_snapshot", "Rules", ("rules",)),
    ("policy_snapshot", "Hits", ("is_hit", "hits")),
    ("rpz_precedence", "Rank", ("rank_order", "precedes")),
    ("rpz_precedence", "Best", ("best",)),
    ("policy_snapshot", "Next", ("needs_answer", "pending", "next")),
    ("query_session", "Session", ("turn_by", "turn_of")),
    ("reply_build", "Reply", ("by_action",)),
    ("rpz_workers", "Answering", ("Answers",)),
    ("dns_name", "Grammar", ("NameAt",)),
    ("dns_message", "Grammar", ("MessageAt",)),
    ("dns_message", "Request", ("incoming_of",)),
    ("dns_message", "Compressed", ("compressed_within",)),
    ("axfr_apply", "Reading", ("outcome_of",)),
    ("zone_rows", "Zone", ("apply_outcome",)),
    ("policy_snapshot", "Policy", ("policy_after",)),
    ("upstream_link", "AnswerLife", ("life_in",)),
    ("upstream_link", "Vouched", ("live",)),
    ("policy_feed", "Ending", ("EndsPoll",)),
    ("policy_feed", "Waking", ("TakesWake",)),
    ("rpz_program", "Script", ("script_transcript",)),
)

USE = re.compile(r"^(?:ghost )?use Rattle\.([\w.]+?)(?:\.\{([^}]*)\})?(?: as (\w+))?;?$", re.M)
HEAD = re.compile(r"\s*(?:(?:abbrev|unfoldable) )?pub (?:record |data )?([^\s:({]+)")
STARTS = re.compile(r"(abbrev pub|unfoldable pub|pub record|pub data|pub \S+ :)|\s+(abbrev|unfoldable) pub")
DEFINITION = re.compile(r"(?:(?:abbrev|unfoldable) )?pub (?:record |data )?([^\s:({]+)")
SENTENCE_END = re.compile(r"(?<=\.)\s+(?=[A-Z`])")
TOKEN = re.compile(r"\w+(?:[-']\w+)*")
MEMBER = re.compile(r"\b(\w+)\.(\w+)")


class Module:
    def __init__(self, text, definitions=True):
        self.names = {}  # what a name of another module stands for: (crate, module, name)
        self.modules = {}  # what an alias of a module stands for
        self.types = {}  # names of types of src/
        self.texts = {}  # definitions in their order
        self.constructors = {}
        self.read_uses(text)
        if definitions:
            self.read_definitions(re.sub(r"^--.*$", "", text, flags=re.M))

    def read_uses(self, text):
        for path, names, alias in USE.findall(text):
            parts = path.split(".")
            if len(parts) < 3 or parts[1] != "specs" or not os.path.isdir(f"crates/{parts[0]}"):
                continue
            declared = parts[2] == "declared"
            place = ".".join(parts[3:]).replace(".TheVariants", "") if declared else parts[2]
            for item in filter(None, (name.strip() for name in names.split(","))):
                name, local = item.split(" as ")[0], item.split(" as ")[-1]
                if declared:
                    self.types[local] = (parts[0], place)
                else:
                    self.names[local] = (parts[0], place, name)
            if alias and declared:
                self.types[alias] = (parts[0], place)
            elif alias:
                self.modules[alias] = (parts[0], place)

    def read_definitions(self, text):
        current = None
        for line in text.split("\n"):
            if line.startswith("use "):
                continue
            if STARTS.match(line):
                current = HEAD.match(line).group(1)
                self.texts[current] = ""
            if current:
                self.texts[current] += line + "\n"
        for name, body in self.texts.items():
            if re.search(rf"pub data {re.escape(name)}\b", body):
                for constructor in re.findall(r"^\s+([a-z_]\w*) :", body, re.M):
                    self.constructors[constructor] = name


def comments(crate, module):
    """The comment of each definition of a file of specs/, by its name."""
    found, lines = {}, []
    with open(f"crates/{crate}/specs/{module}.antt", encoding="utf-8") as file:
        for line in file:
            text = line.strip()
            match = DEFINITION.match(text)
            if text.startswith("--"):
                lines.append(text[2:].strip())
            else:
                if match and lines:
                    found[match.group(1)] = " ".join(lines)
                lines = []
    return found


def first_sentence(comment):
    sentence = SENTENCE_END.split(comment)[0].strip().rstrip(".")
    plain = sentence[:1].isupper() and not sentence[1:2].isupper() and "`" not in sentence.split()[0]
    return (sentence[0].lower() + sentence[1:] if plain else sentence).replace("|", "\\|")


def read_modules():
    modules = {}
    for path in glob.glob("crates/*/specs/*.antt"):
        name = os.path.basename(path)[: -len(".antt")]
        if name != "Lib":
            with open(path, encoding="utf-8") as file:
                modules[path.split("/")[1], name] = Module(file.read())
    return modules


def cited(module, key, text):
    """What the text of a definition cites: definitions, and types of src/."""
    found, types = set(), set()
    for token in set(TOKEN.findall(text)):
        if token in module.texts or token in module.constructors:
            found.add((key, module.constructors.get(token, token)))
        elif token in module.names:
            crate, name, item = module.names[token]
            found.add(((crate, name), item))
        elif token in module.types:
            types.add(module.types[token])
    for alias, item in MEMBER.findall(text):
        if alias in module.modules:
            found.add((module.modules[alias], item))
    return found, types


def clauses(text, name):
    """The signature and the clauses of a public function, up to its body."""
    start = re.search(rf"^ *pub fn {name}\b", text, re.M)
    end = re.search(r"^ *\{$", text[start.start() :], re.M)
    return text[start.start() : start.start() + end.start()]


def cited_by(crate, file, name):
    """What the clauses of a function cite: definitions, and types of src/."""
    with open(f"crates/{crate}/src/{file}.rt", encoding="utf-8") as handle:
        text = handle.read()
    uses = Module(re.sub(r"^ +ghost use", "ghost use", text, flags=re.M), definitions=False)
    return cited(uses, None, clauses(text, name))


def reach(modules, functions, known):
    """All definitions that functions rest on and that aren't known, with the modules that each module cites, and the types."""
    seen, types, below, work = set(), set(), {}, []
    for function in functions:
        found, of_src = cited_by(*function)
        work += found
        types |= of_src
    while work:
        key, name = work.pop()
        module = modules.get(key)
        if module is None:
            continue
        name = module.constructors.get(name, name)
        if (key, name) in seen or (key, name) in known or name not in module.texts:
            continue
        seen.add((key, name))
        found, of_src = cited(module, key, module.texts[name])
        types |= of_src
        below.setdefault(key, set()).update(other for other, _ in found if other != key)
        work += found
    return seen, types, below


def in_order(used, below, rank):
    done = []
    entered = set()

    def visit(key):
        if key in entered or key not in used:
            return
        entered.add(key)
        for other in sorted(below.get(key, ()), key=rank):
            visit(other)
        done.append(key)

    for key in sorted(used, key=rank):
        visit(key)
    return done


def listed(names):
    return ", ".join(f"`{name}`" for name in names)


def module_rows(modules, seen, below, rank):
    yield "|Module|Definitions|"
    yield "|---|---|"
    for key in in_order({key for key, _ in seen}, below, rank):
        names = [name for name in modules[key].texts if (key, name) in seen]
        yield f"|{key[0]}/{key[1]}|{listed(names)}|"


def type_rows(crates, types):
    yield "|Crate|Types|"
    yield "|---|---|"
    for crate in crates:
        names = sorted({name.split(".")[-1] for owner, name in types if owner == crate and not name.endswith("TheConstants")})
        if names:
            yield f"|{crate}|{listed(names)}|"


def matter_rows():
    yield "|Definition|File|Says|"
    yield "|---|---|---|"
    for crate, module, names in MATTERS:
        said = comments(crate, module)
        for name in names:
            yield f"|`{name}`|{crate}/{module}|{first_sentence(said.get(name, ''))}|"


def doubled(modules, definitions, types):
    """The names that stand for two things in the list: definitions and their constructors, and types of src/."""
    places = {}
    for (crate, module), name in definitions:
        places.setdefault(name, set()).add(f"{crate}/{module}")
        for constructor, of in modules[crate, module].constructors.items():
            if of == name:
                places.setdefault(constructor, set()).add(f"{crate}/{module} {of}")
    for crate, place in types:
        if not place.endswith("TheConstants"):
            places.setdefault(place.split(".")[-1], set()).add(f"{crate}, {place.split('.')[0]}.rt")
    return {name: sorted(where) for name, where in sorted(places.items()) if len(where) > 1}


def page(found):
    with open("crates.txt", encoding="utf-8") as file:
        lines = [line.partition("#")[0].strip() for line in file]
    crates = [line.split(":")[0].split()[0] for line in lines if line]
    modules = read_modules()

    def rank(key):
        return (crates.index(key[0]), key[1])

    yield "# What the contracts rest on, in reading order"
    yield ""
    yield (
        "Written by `python3 tools/reading_order.py`; `.ci/run` checks that it is up to date. Clauses cite these definitions of "
        "specs/, directly or through others, and no more of this repository. Each module stands after those that it cites. `X/Y` is "
        "`crates/X/specs/Y.antt`. docs/MODEL.md says what the more important ones mean, and which have a law that a reader may believe "
        "instead."
    )
    yield from ("", "## The definitions that matter most", "")
    yield (
        "From rules to a reply, then messages, transfers, the cache, polls, and the transcript of `replay`. docs/FIVE_DEFINITIONS.md "
        "shows five of them with their text."
    )
    yield from ("", *matter_rows())
    known, known_types = set(), set()
    for title, words, functions in PARTS:
        seen, types, below = reach(modules, functions, known)
        yield from ("", f"## {title}", "", words, "", f"{len(seen)} definitions:", "")
        yield from module_rows(modules, seen, below, rank)
        if types - known_types:
            yield from ("", "And these types of src/:", "")
            yield from type_rows(crates, types - known_types)
        known |= seen
        known_types |= types
    found.update(doubled(modules, known, known_types))


def main():
    reader = argparse.ArgumentParser(description=__doc__.split("\n\n")[0])
    reader.add_argument("--check", action="store_true")
    words = reader.parse_args()
    os.chdir(ROOT)
    found = {}
    text = "\n".join(page(found)) + "\n"
    for name, where in found.items():
        print(f"{name} stands for two things: {'; '.join(where)}")
    if not words.check:
        TARGET.write_text(text, encoding="utf-8")
        return 0
    stored = TARGET.read_text(encoding="utf-8") if TARGET.exists() else ""
    if stored == text:
        print("docs/READING_ORDER.md is up to date")
        return 1 if found else 0
    names = ("docs/READING_ORDER.md", "what tools/reading_order.py writes")
    print(*list(difflib.unified_diff(stored.splitlines(), text.splitlines(), *names, lineterm="", n=0))[:20], sep="\n")
    print("docs/READING_ORDER.md is out of date: run python3 tools/reading_order.py")
    return 1


if __name__ == "__main__":
    sys.exit(main())
