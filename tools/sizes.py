#!/usr/bin/env python3
"""The table of docs/MEASUREMENTS.md that says how large each crate is.

    python3 tools/sizes.py

Prints a row for each crate, in the order of crates.txt: its must-fail edits, and the lines of its code with the contracts, of its
tests, of specs/ and of proofs/. A file counts as tests where its `mod` stands under `#[cfg(test)]`; in a crate of tests all files but
the root do.
"""

import pathlib
import re

ROOT = pathlib.Path(__file__).resolve().parent.parent
OF_TESTS = ("library_tests", "run_tests", "worker_tests", "alloc_tests")


def lines_of(files):
    return sum(file.read_text(encoding="utf-8").count("\n") for file in files)


def test_files(name, source, root_file):
    if name in OF_TESTS:
        return set(source) - {root_file}
    named = {module for file in source for module in re.findall(r"#\[cfg\(test\)\]\s*mod (\w+);", file.read_text(encoding="utf-8"))}
    return {file for file in source if file.stem in named}


def row(name):
    folder = ROOT / "crates" / name
    source = list((folder / "src").rglob("*.rt"))
    root_file = folder / "src" / ("lib.rt" if (folder / "src" / "lib.rt").exists() else "main.rt")
    tests = test_files(name, source, root_file)
    edits = len(list(folder.glob("must-fail/*.edit")))
    return (edits, lines_of(set(source) - tests), lines_of(tests), *(lines_of((folder / part).rglob("*.antt")) for part in ("specs", "proofs")))


def shown(name, numbers, mark=""):
    cells = [f"{mark}{number:,}{mark}" if number else "" for number in numbers]
    return f"| {mark}{name}{mark} | " + " | ".join(cells) + " |"


def main():
    names = re.findall(r"^(\w+).*:", (ROOT / "crates.txt").read_text(), re.MULTILINE)
    rows = {name: row(name) for name in names}
    print("| Crate | Must-fail edits | Code | Tests | Specs | Proofs |")
    print("|---|---|---|---|---|---|")
    for name, numbers in rows.items():
        print(shown(name, numbers))
    print(shown("all", [sum(column) for column in zip(*rows.values())], "**"))


if __name__ == "__main__":
    main()
