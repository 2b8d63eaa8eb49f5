#!/usr/bin/env python3
"""quick.py: what a newcomer runs first: builds the program without its proofs, and tries it.

    python3 tools/quick.py

1. `rt try` in crates/rpz builds `rpz` with checks (of bounds, overflows and accesses), and proves nothing.
2. All scenarios of scenarios/ go through it: one run of the program for each.
3. tools/loopback.py tries it over sockets.
4. The checks of documents and tables that the gate has: tools/scenarios.py, chain.py, reading_order.py, model.py, documents.py.

Ends with `N passed, M failed`; the status is 1 if something failed. What proves it is the gate, .ci/run. Wanted: the kit (`rt`), Python 3.
"""
import concurrent.futures
import os
import pathlib
import shlex
import shutil
import signal
import socket
import subprocess
import sys
import tempfile
import time

import scenarios

ROOT = pathlib.Path(__file__).resolve().parent.parent
PORT, BUILD_SECONDS = 23_990, 900
CHECKS = (("scenarios.py", "--check"), ("chain.py",), ("reading_order.py", "--check"), ("model.py", "--check"), ("documents.py",))


def listens(port):
    try:
        socket.create_connection(("127.0.0.1", port), 1).close()
        return True
    except OSError:
        return False


def listener_of(port):
    """The process that listens at a port, by the tables of Linux."""
    wanted = f":{port:04X}"
    inodes = set()
    for line in pathlib.Path("/proc/net/tcp").read_text(encoding="ascii").splitlines()[1:]:
        fields = line.split()
        if fields[1].endswith(wanted) and fields[3] == "0A":
            inodes.add(f"socket:[{fields[9]}]")
    for pid in filter(str.isdigit, os.listdir("/proc")):
        try:
            if any(os.readlink(f"/proc/{pid}/fd/{fd}") in inodes for fd in os.listdir(f"/proc/{pid}/fd")):
                return int(pid)
        except OSError:
            continue
    return None


def copied(process, folder):
    """A script that runs the program of a process as it runs: through the loader of the kit, which its words name."""
    words = pathlib.Path(f"/proc/{process}/cmdline").read_text(encoding="utf-8").split("\0")
    place = words.index("serve") - 1
    shutil.copy(words[place], f"{folder}/rpz.unproved")
    script = pathlib.Path(f"{folder}/rpz")
    script.write_text("#!/bin/sh\nexec " + shlex.join([*words[:place], f"{folder}/rpz.unproved"]) + ' "$@"\n', encoding="utf-8")
    script.chmod(0o755)
    return str(script)


def built(folder):
    """The program, built without its proofs: `rt try` starts it as a server, and keeps no file, so it is copied while it runs."""
    words = ["rt", "try", "--seconds", str(BUILD_SECONDS), "--", "serve", f"127.0.0.1:{PORT}", "127.0.0.1:9", "1", "1", "rpz.example@127.0.0.1:9"]
    process = subprocess.Popen(words, cwd=ROOT / "crates" / "rpz", stdout=subprocess.DEVNULL, stderr=subprocess.PIPE, text=True)
    end, shown = time.monotonic() + BUILD_SECONDS, time.monotonic()
    while not listens(PORT):
        if process.poll() is not None or time.monotonic() > end:
            sys.exit(f"the program wasn't built:\n{process.stderr.read()[-2000:]}")
        if time.monotonic() > shown + 30:
            print("  still building", flush=True)
            shown = time.monotonic()
        time.sleep(0.2)
    program = copied(listener_of(PORT), folder)
    with socket.socket(socket.AF_INET, socket.SOCK_DGRAM) as sock:
        sock.sendto(bytes(12), ("127.0.0.1", PORT))  # the one arrival that ends it
    try:
        process.wait(20)
    except subprocess.TimeoutExpired:
        process.send_signal(signal.SIGTERM)
    return program


def replayed(program, case):
    """Whether the program writes the transcript of a case, and ends as it has to."""
    done = subprocess.run([program, *case.words], input=case.script, capture_output=True, check=False, timeout=300)
    return scenarios.difference(case, done) is None


def tried(program):
    """How many scenarios and checks passed, and how many failed."""
    passed = failed = 0
    cases = scenarios.all_cases()
    with concurrent.futures.ThreadPoolExecutor(os.cpu_count()) as pool:
        for case, is_right in zip(cases, pool.map(lambda case: replayed(program, case), cases), strict=True):
            passed, failed = passed + is_right, failed + (not is_right)
            if not is_right and failed <= 10:
                print(f"scenario {case.name}: python3 tools/scenarios.py --run PROGRAM {case.name} shows the difference")
    print(f"{len(cases)} scenarios", flush=True)
    return passed, failed


def counts(words):
    """What a tool says with `N passed, M failed`; another tool passes if its status is 0."""
    done = subprocess.run([sys.executable, *words], cwd=ROOT, capture_output=True, text=True, check=False)
    last = done.stdout.strip().splitlines()[-1:] or [""]
    print("$ python3", *words[:1], *words[2:], ":", last[0] or done.stderr.strip()[-500:], flush=True)
    if last[0].endswith(" failed"):
        found = last[0].replace(",", "").split()
        print(*done.stdout.strip().splitlines()[:-1], sep="\n")
        return int(found[0]), int(found[2])
    return (1, 0) if done.returncode == 0 else (0, 1)


def main():
    begun = time.monotonic()
    print("builds the program without its proofs: some minutes", flush=True)
    with tempfile.TemporaryDirectory() as folder:
        program = built(folder)
        print(f"built after {time.monotonic() - begun:.0f} s", flush=True)
        found = [tried(program), counts(["tools/loopback.py", program])]
    found += [counts([f"tools/{name}", *words]) for name, *words in CHECKS]
    passed, failed = map(sum, zip(*found, strict=True))
    print(f"took {time.monotonic() - begun:.0f} s")
    print(f"{passed} passed, {failed} failed")
    return 1 if failed else 0


if __name__ == "__main__":
    sys.exit(main())
