#!/usr/bin/env python3
"""Proves and builds libraries of this repository side by side, each once those below it are built; then `rt run` or `rt check` in a
crate above them has little left to do. For work on the code: `rt ci` alone is the gate.

    python3 tools/build_all.py [NAME ..] [--jobs N]

NAME is a crate of crates.txt: it and those below it are built, programs and crates of tests left out; without names, all. Up to N run
at a time, as many as there are processors without --jobs, those first that most others wait for. The output of each goes to
out/build.log of its crate. No other `rt` command may run in this checkout meanwhile.

It calls the library of the kit's own command, which `rt doc` leads to, since `rt lib` builds what lies below one crate after another.
"""

import argparse
import functools
import importlib.machinery
import importlib.util
import os
import pathlib
import subprocess
import sys
import time

ROOT = pathlib.Path(__file__).resolve().parent.parent


def crates():
    """Each crate with the crates of this repository that it stands on."""
    lines = (line.split("#")[0].split(":") for line in (ROOT / "crates.txt").read_text().splitlines())
    named = {parts[0].split()[0]: parts[1].split() for parts in lines if len(parts) == 2}
    return {name: [dep for dep in deps if dep in named] for name, deps in named.items()}


def with_those_below(names, below):
    wanted = set()
    for name in names:
        if name not in below:
            sys.exit(f"{name} is no crate of crates.txt")
        if name not in wanted:
            wanted |= {name} | with_those_below(below[name], below)
    return wanted


def build_one(name, jobs):
    """Builds one library over those below it. For a process of its own."""
    page = subprocess.run(["rt", "doc"], capture_output=True, text=True, check=True).stdout.strip()
    path = str(pathlib.Path(page).parent / "bin" / "rtlib.py")
    loader = importlib.machinery.SourceFileLoader("rtlib", path)
    library = importlib.util.module_from_spec(importlib.util.spec_from_loader("rtlib", loader))
    sys.modules["rtlib"] = library
    loader.exec_module(library)
    folder = ROOT / "crates" / name
    os.chdir(folder)
    crate = library.Crate(str(folder), str(ROOT), {})
    crate.out = sys.stdout
    return 0 if crate.is_program else crate.build_rlib(["--jobs", str(jobs)], anew=False)


def start(name, jobs):
    out = ROOT / "crates" / name / "out"
    out.mkdir(exist_ok=True)
    with open(out / "build.log", "w", encoding="utf-8") as log:
        return subprocess.Popen([sys.executable, __file__, "--one", name, "--jobs", str(jobs)], stdout=log, stderr=subprocess.STDOUT)


def build(wanted, below, processors):
    above = {name: [other for other in wanted if name in below[other]] for name in wanted}
    height = functools.lru_cache(None)(lambda name: 1 + max(map(height, above[name]), default=0))
    begun, built, failed, running = time.monotonic(), set(), set(), {}
    while True:
        for name, (process, since) in list(running.items()):
            if process.poll() is not None:
                del running[name]
                (failed if process.returncode else built).add(name)
                said = "FAILED" if process.returncode else "built"
                print(f"{time.monotonic() - begun:6.0f} s  {name} {said} in {time.monotonic() - since:.0f} s", flush=True)
        ready = [name for name in wanted - built - failed - set(running) if built.issuperset(below[name])]
        first = sorted(ready, key=lambda name: (-height(name), name))[: processors - len(running)]
        jobs = max(1, processors // max(1, len(first) + len(running)))
        for name in first:
            running[name] = start(name, jobs), time.monotonic()
        if not running:
            return failed
        time.sleep(0.5)


def main():
    parser = argparse.ArgumentParser()
    parser.add_argument("names", nargs="*")
    parser.add_argument("--jobs", type=int, default=len(os.sched_getaffinity(0)))
    parser.add_argument("--one", help=argparse.SUPPRESS)
    options = parser.parse_args()
    if options.one:
        sys.exit(build_one(options.one, options.jobs))
    below = crates()
    sys.exit(1 if build(with_those_below(options.names or below, below), below, options.jobs) else 0)


if __name__ == "__main__":
    main()
