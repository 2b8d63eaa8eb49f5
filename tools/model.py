#!/usr/bin/env python3
"""model.py: the definitions that a reader must believe, crate by crate, each with the first sentence of its comment.

    python3 tools/model.py            writes docs/MODEL.md
    python3 tools/model.py --check    says whether that file is what the tool would write, and which listed definitions have no
                                      comment; ends with status 1 if it isn't, or if there are any

docs/model_head.md is the head of the file. Listed are the definitions of specs/ that the contracts of `run` and of a worker rest on
(tools/reading_order.py finds these) and that a clause of a public function cites; those of the head's table of
laws; and those of MATTERS in tools/reading_order.py. A law is a public function of a file laws.rt.
"""

import argparse
import difflib
import glob
import os
import re
import sys

import reading_order
from reading_order import MATTERS, ROOT, Module, cited, comments, first_sentence, reach

TARGET = ROOT / "docs" / "MODEL.md"
FUNCTION = re.compile(r"^ *pub fn (\w+)", re.M)
SIGNATURE_END = re.compile(r"^ *(?:\{|\{\})$|;$", re.M)


def crates():
    with open("crates.txt", encoding="utf-8") as file:
        lines = [line.partition("#")[0].strip() for line in file]
    return [line.split(":")[0] for line in lines if line]


def cited_by_public_functions(modules):
    """What clauses of public functions but laws cite; and the names of the laws of each crate."""
    ordinary, laws = set(), {}
    for path in sorted(glob.glob("crates/*/src/**/*.rt", recursive=True)):
        with open(path, encoding="utf-8") as file:
            text = file.read()
        is_laws = os.path.basename(path) == "laws.rt"
        uses = Module(re.sub(r"^ +ghost use", "ghost use", text, flags=re.M), definitions=False)
        for function in FUNCTION.finditer(text):
            end = SIGNATURE_END.search(text, function.start())
            if is_laws:
                laws.setdefault(path.split("/")[1], []).append(function.group(1))
            else:
                found, _ = cited(uses, None, text[function.start() : end.end() if end else len(text)])
                ordinary.update(found)
    return resolved(modules, ordinary), laws


def resolved(modules, found):
    """The same with a constructor as its type, without what specs/ doesn't define."""
    found = {(key, modules[key].constructors.get(name, name)) for key, name in found if key in modules}
    return {(key, name) for key, name in found if name in modules[key].texts}


def listed(modules, head_text):
    """The definitions that the file lists, and the laws of each crate."""
    known = set()
    for _, _, functions in reading_order.PARTS:
        seen, _, _ = reach(modules, functions, known)
        known |= seen
    ordinary, laws = cited_by_public_functions(modules)
    named = set(re.findall(r"`([A-Z]\w+)`", head_text.partition("\n## Laws ")[2]))
    relations = {(key, name) for key in modules for name in modules[key].texts if name in named}
    matters = {((crate, module), name) for crate, module, names in MATTERS for name in names}
    return (known & ordinary) | relations | matters, laws


def rows(modules, definitions, crate, uncommented):
    for key in sorted(key for key in modules if key[0] == crate):
        said = comments(*key)
        for name in modules[key].texts:
            if (key, name) in definitions:
                if name not in said:
                    uncommented.append(f"crates/{crate}/specs/{key[1]}.antt: `{name}` has no comment")
                yield f"|`{name}`|{key[1]}|{first_sentence(said.get(name, ''))}|"


def page(uncommented):
    modules = reading_order.read_modules()
    with open("docs/model_head.md", encoding="utf-8") as file:
        head_text = file.read().rstrip("\n")
    yield head_text
    definitions, laws = listed(modules, head_text)
    for crate in crates():
        table = list(rows(modules, definitions, crate, uncommented))
        if not table and crate not in laws:
            continue
        yield from ("", f"## {crate}")
        if table:
            yield from ("", "|Definition|File|Says|", "|---|---|---|", *table)
        if crate in laws:
            yield from ("", f"Laws: {reading_order.listed(laws[crate])}.")


def main():
    reader = argparse.ArgumentParser(description=__doc__.split("\n\n")[0])
    reader.add_argument("--check", action="store_true")
    words = reader.parse_args()
    os.chdir(ROOT)
    uncommented = []
    text = "\n".join(page(uncommented)) + "\n"
    print(*uncommented, sep="\n", end="\n" if uncommented else "")
    if not words.check:
        TARGET.write_text(text, encoding="utf-8")
        return 0
    stored = TARGET.read_text(encoding="utf-8") if TARGET.exists() else ""
    if stored == text:
        print("docs/MODEL.md is up to date")
        return 1 if uncommented else 0
    names = ("docs/MODEL.md", "what tools/model.py writes")
    print(*list(difflib.unified_diff(stored.splitlines(), text.splitlines(), *names, lineterm="", n=0))[:20], sep="\n")
    print("docs/MODEL.md is out of date: run python3 tools/model.py")
    return 1


if __name__ == "__main__":
    sys.exit(main())
