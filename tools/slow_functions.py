#!/usr/bin/env python3
"""slow_functions.py CRATE [COUNT]: the functions whose proofs took longest in the last check of a crate, and the part of each that did.

CRATE is a crate's folder, as crates/net_clients, in which `rt check --jobs 1` has run from nothing (remove its out/incremental first; of its
tests with `--test`). The check leaves a file for each module that it has proved; the time between one file and the next is counted for
the function of the second. Beside other checks each second is too long, and with more than one job the times mean nothing. What the
parts are says docs/PROVING.md. Behind the list stand the sums by parts, and what the `drop` of types of crates below took (Destruct).
"""

import collections
import os
import re
import sys

# the parts of a function's proof, each a module of its own
PARTS = "Lts|Symbol|Statement|Reads|Kinds|Carried|Tie|Proof|Named|Layout|Met|TheLaws|TheReach|TheInside|Answers|Invariants|Goals|TheLink|Code"


def modules(folder):
    """(date, name) of each module that was proved, in order."""
    found = []
    for at, _, names in os.walk(folder):
        for name in names:
            if name.endswith(".oantt") and not name.endswith(".decls.oantt"):
                found.append((os.lstat(f"{at}/{name}").st_mtime, name.removesuffix(".oantt")))
    return sorted(found)


def function_of(module):
    """The name of the function, type or lemma file that a module belongs to."""
    inside = re.match(r"Rattle-\w+-(?:proofs|contracts|specs)\.(.*)", module)
    name = inside.group(1) if inside else module
    return re.sub(rf"\.(?:{PARTS})(?:[.-].*)?$", "", name)


def part_of(module):
    found = re.search(rf"\.({PARTS})(?:[.-].*)?$", module)
    return found.group(1) if found else "other"


def main():
    if len(sys.argv) not in (2, 3):
        sys.exit(__doc__)
    found = modules(f"{sys.argv[1]}/out/incremental")
    if not found:
        sys.exit("no check has left its work there")
    sums, parts, kinds, before = collections.Counter(), collections.defaultdict(collections.Counter), collections.Counter(), found[0][0]
    for date, module in found:
        name, part = function_of(module), part_of(module)
        sums[name] += date - before
        parts[name][part] += date - before
        kinds[part] += date - before
        kinds["Destruct"] += date - before if "Destruct" in name else 0
        before = date
    for name, seconds in sums.most_common(int(sys.argv[2]) if len(sys.argv) == 3 else 20):
        part, of_it = parts[name].most_common(1)[0]
        print(f"{seconds:8.1f} s  {name}  ({part} {of_it:.1f})")
    print("  ".join(f"{part} {seconds:.0f}" for part, seconds in kinds.most_common() if seconds >= 1))
    print(f"{found[-1][0] - found[0][0]:8.0f} s  in all, {len(found):,} modules")


if __name__ == "__main__":
    main()
