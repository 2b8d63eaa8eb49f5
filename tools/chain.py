#!/usr/bin/env python3
"""chain.py: the longest chain of libraries, each standing on the next, as crates.txt has them.

Prints it, and ends with status 1 where it has more than eight. Programs (crates with a src/main.rt) and crates of tests aren't counted:
no crate stands on them.
"""
import functools
import pathlib
import sys

ROOT = pathlib.Path(__file__).resolve().parent.parent
MOST = 8


def libraries():
    """The libraries of the repository, each with those that it stands on."""
    lines = (line.partition("#")[0] for line in (ROOT / "crates.txt").read_text(encoding="utf-8").splitlines())
    crates = {name.split()[0]: rest.split() for name, _, rest in (line.partition(":") for line in lines) if name.strip()}
    found = {name for name in crates if not name.endswith("_tests") and not (ROOT / "crates" / name / "src" / "main.rt").exists()}
    return {name: [low for low in crates[name] if low in found] for name in found}


def main():
    below = libraries()

    @functools.cache
    def chain(name):
        return (name, *max(map(chain, below[name]), key=len, default=()))

    longest = max(map(chain, sorted(below)), key=len)
    print(f"the longest chain of libraries has {len(longest)} of at most {MOST}: {' -> '.join(longest)}")
    return 0 if len(longest) <= MOST else 1


if __name__ == "__main__":
    sys.exit(main())
