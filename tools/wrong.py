#!/usr/bin/env python3
"""wrong.py: tries wrong bodies that are not tried by the gate; the prover must refuse each.

    python3 tools/wrong.py [NAME ..] [--keep FOLDER] [--alone]

NAME is a crate; without names, all that have a folder crates/NAME/wrong/. The edits there have the form of those in must-fail/. They
are tried in a clone of the last commit, in a folder that is removed behind it, unless --keep names a clone, which is brought up to that
commit and stays, with the libraries that were built there. The libraries below are proved and built first. Those that change the bodies
of different functions are tried together, in one check (wrong_groups.py says when such a one counts as refused), and the others, and what
was not refused so, one by one by `rt must-fail`; with --alone all are. Ends with status 1 where an edit is proved, can't be applied, or
wasn't tried, and prints what became of each.

Run it for a crate whose contracts or bodies change, and write the day into docs/PROOFS.md.
"""

import argparse
import os
import pathlib
import re
import shutil
import subprocess
import sys
import tempfile

import take_kept
import wrong_groups

ROOT = pathlib.Path(__file__).resolve().parent.parent
REFUSED = "refused, as it must be"


def crates_with_edits():
    return sorted(folder.parent.name for folder in ROOT.glob("crates/*/wrong"))


def clone(folder):
    """A clone of the last commit in the folder, or the one that is there brought up to it."""
    if (folder / ".git").exists():
        subprocess.run(["git", "fetch", "-q", "origin", "HEAD"], cwd=folder, check=True)
        subprocess.run(["git", "reset", "-q", "--hard", "FETCH_HEAD"], cwd=folder, check=True)
    else:
        subprocess.run(["git", "clone", "-q", str(ROOT), str(folder)], check=True)


def edits_of(folder, name):
    """The edits of a crate, as CRATE/FILE."""
    return {f"{name}/{path.name}": path for path in sorted((folder / "crates" / name / "wrong").glob("*.edit"))}


def put_edits(folder, edits):
    """These edits in the place of all those that the gate tries."""
    for gate in folder.glob("crates/*/must-fail"):
        shutil.rmtree(gate)
    for path in edits.values():
        gate = path.parent.parent / "must-fail"
        gate.mkdir(exist_ok=True)
        shutil.copy(path, gate)


def check(folder, name):
    """What a check of a crate as it stands says, or None where it isn't proved; it leaves what the wrong bodies are tried over."""
    jobs = ["--jobs", os.environ["RT_JOBS"]] if "RT_JOBS" in os.environ else []
    ran = subprocess.run(["rt", "check", *jobs], cwd=folder / "crates" / name, stdout=subprocess.PIPE, stderr=subprocess.STDOUT, text=True)
    return None if ran.returncode else ran.stdout.splitlines()


def refused_together(folder, name, said):
    """Tries the edits of a crate together, as far as that can be, and gives those that are refused."""
    rt, rtlib = take_kept.kit()
    crate = next(it for it in rtlib.crates_below(str(folder)) if it.name == name)
    crate = wrong_groups.Crate(rt, rtlib, crate, said)
    edits = [crate.edit(path) for path in edits_of(folder, name).values()]
    for edit, why in crate.refused([it for it in edits if it]):
        print(f"together {name}/{edit.name}: {REFUSED}: {why[:160]}", flush=True)
        yield f"{name}/{edit.name}"


def refused_alone(folder, names):
    """Tries the edits in the crates' must-fail/ one by one, and gives those that are refused."""
    unbuffered = {**os.environ, "PYTHONUNBUFFERED": "1"}  # so that what became of an edit is said at once, and not lost where a run ends early
    process = subprocess.Popen(["rt", "must-fail", *names], cwd=folder, env=unbuffered, stdout=subprocess.PIPE, stderr=subprocess.STDOUT, text=True)
    for line in process.stdout:
        tried = re.search(r"must-fail (\S+\.edit): (.*)", line)
        if tried:
            print(line, end="", flush=True)
            if tried.group(2).startswith(REFUSED):
                yield tried.group(1)
    process.wait()


def try_all(folder, names, is_alone):
    """Tries the edits of the crates, and prints what became of each."""
    edits, refused, left = {}, set(), {}
    put_edits(folder, {})
    for name in names:
        edits |= edits_of(folder, name)
        said = check(folder, name)
        if said is None:
            print(f"{name} is not proved as it stands, so its wrong bodies are not tried")
            continue
        refused |= set() if is_alone else set(refused_together(folder, name, said))
        left |= {key: path for key, path in edits_of(folder, name).items() if key not in refused}
    if left:
        put_edits(folder, left)
        refused |= set(refused_alone(folder, sorted({key.split("/")[0] for key in left})))
    print(f"{len(edits.keys() & refused)} of {len(edits)} wrong bodies refused")
    return edits.keys() <= refused


def main():
    reader = argparse.ArgumentParser(description=__doc__.split("\n\n")[0])
    reader.add_argument("names", nargs="*", metavar="NAME")
    reader.add_argument("--keep", type=pathlib.Path, metavar="FOLDER")
    reader.add_argument("--alone", action="store_true", help="each by itself")
    words = reader.parse_args()
    known = crates_with_edits()
    unknown = set(words.names) - set(known)
    if unknown:
        sys.exit(f"no wrong bodies: {', '.join(sorted(unknown))}")
    with tempfile.TemporaryDirectory(prefix="wrong-") as room:
        folder = (words.keep or pathlib.Path(room) / "clone").resolve()
        clone(folder)
        return 0 if try_all(folder, words.names or known, words.alone) else 1


if __name__ == "__main__":
    sys.exit(main())
