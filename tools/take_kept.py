#!/usr/bin/env python3
"""take_kept.py CHECKOUT: gives a checkout of this repository the libraries that `rt ci` has proved and kept on this machine.

For each crate whose files, and those of the crates below it, are those of an earlier run, the library is put in place as `rt lib` would
leave it. Then `rt check`, `rt must-fail` and tools/wrong.py (with --keep) there prove nothing below again. Prints which crates it gave
and which are lacking. What is kept stays as it is. It calls the kit's own command, whose parts may have other names in another kit;
`rt ci` alone is the gate.
"""

import importlib.machinery
import importlib.util
import os
import pathlib
import shutil
import sys


def kit():
    """The kit's command, as a module, and its library."""
    path = os.path.realpath(shutil.which("rt"))
    sys.path.insert(0, os.path.dirname(path))
    loader = importlib.machinery.SourceFileLoader("rt", path)
    module = importlib.util.module_from_spec(importlib.util.spec_from_loader("rt", loader))
    loader.exec_module(module)
    return module, importlib.import_module("rtlib")


def lowest_first(crates):
    """The crates of the repository, each behind those that it stands on."""
    order, seen = [], set()

    def add(crate):
        if crate.name not in seen:
            seen.add(crate.name)
            for low in crate.below():
                add(low)
            order.append(crate)

    for crate in crates:
        add(crate)
    names = {crate.name for crate in crates}
    return [crate for crate in order if crate.name in names]


def main():
    if len(sys.argv) != 2:
        sys.exit(__doc__)
    root = os.path.realpath(sys.argv[1])
    os.chdir(root)
    rt, rtlib = kit()
    rt.Crate.allowed = rt.handles_of(root)
    rt.Crate.cuts_libraries = True
    crates = rt.crates_of(root)
    kept = rt.Kept(crates)
    # an entry that doesn't fit stays for others
    kept.drop = lambda place: None
    given, lacking = [], []
    for crate in lowest_first(crates):
        if crate.is_program:
            continue
        shutil.rmtree(f"{crate.folder}/out/rlib", ignore_errors=True)
        if any(low.name in lacking for low in crate.below()) or not kept.give(crate, False, kept.key(crate)):
            lacking.append(crate.name)
            continue
        kept.is_built(crate)
        pathlib.Path(f"{crate.folder}/out/rlib/stamp").write_text(rtlib.Crate.stamp(crate), encoding="utf-8")
        given.append(crate.name)
    print("given:", *given)
    print("lacking:", *lacking)


if __name__ == "__main__":
    main()
