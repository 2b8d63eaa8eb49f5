#!/usr/bin/env python3
"""Runs the server on 127.0.0.1 with one policy zone, and asks it for a name that is blocked, one that is rewritten, and one that passes.

    python3 tools/demo.py

The program is crates/rpz/out/rpz, which `rt run` in crates/rpz proves and builds, as does the gate. If there is none yet, `rt try`
builds it without its proofs, in 1.5 to 3 minutes on 4 cores. The zone comes from a primary, and the other answers from an upstream;
both are tools/small_server.py on ports of their own. Queries are asked with dig, or with tools/ask.py if there is no dig.
"""
import pathlib
import shutil
import socket
import subprocess
import sys
import time

ROOT = pathlib.Path(__file__).resolve().parent.parent
CRATE = ROOT / "crates" / "rpz"
LISTEN, PRIMARY, UPSTREAM = 5300, 5301, 5302
QUERIES = (("blocked.example", False, "blocked"), ("walled.example", False, "rewritten"), ("www.example", True, "passed"))
BUILD_SECONDS = 600


def is_open(port):
    try:
        socket.create_connection(("127.0.0.1", port), 1).close()
        return True
    except OSError:
        return False


def wait_for(port, process, seconds):
    """Waits until a process listens at the port; ends if the one that should has ended, or after so many seconds."""
    end = time.monotonic() + seconds
    while not is_open(port):
        if process.poll() is not None or time.monotonic() > end:
            sys.exit(f"nothing listens on port {port}")
        time.sleep(0.05)


def small_server(port, zone):
    words = [sys.executable, ROOT / "tools" / "small_server.py", "127.0.0.1", str(port), ROOT / "tools" / "demo" / zone]
    process = subprocess.Popen(words)
    wait_for(port, process, 10)
    return process


def serve_words():
    """The words of a server that ends after as many queries as are asked here; in service write `forever` for the number."""
    return ["serve", f"127.0.0.1:{LISTEN}", f"127.0.0.1:{UPSTREAM}", str(len(QUERIES)), "2", f"rpz.example@127.0.0.1:{PRIMARY}"]


def start():
    """The server: the proved program if it is built, else one that is built without its proofs."""
    program = CRATE / "out" / "rpz"
    if program.exists():
        print("$ rpz", *serve_words(), flush=True)
        return subprocess.Popen([program, *serve_words()], stdout=subprocess.PIPE, text=True)
    print("This run isn't proved: the program is built without its proofs, in 1.5 to 3 minutes on 4 cores. To prove and build it: .ci/run")
    print("$ rt try --", *serve_words(), flush=True)
    words = ["rt", "try", "--seconds", str(BUILD_SECONDS), "--", *serve_words()]
    return subprocess.Popen(words, cwd=CRATE, stdout=subprocess.PIPE, stderr=subprocess.DEVNULL, text=True)


def ask(name, tcp, outcome):
    if shutil.which("dig"):
        words = ["dig", "@127.0.0.1", "-p", str(LISTEN), name, "A", "+noall", "+comments", "+answer", "+additional", "+nocookie"]
        words += ["+tcp"] if tcp else []
    else:
        words = [sys.executable, str(ROOT / "tools" / "ask.py"), "127.0.0.1", str(LISTEN), name, "A"] + (["tcp"] if tcp else [])
    print(f"\n{name} is {outcome}:\n$", *words, flush=True)
    subprocess.run(words, check=True)


def main():
    helpers = [small_server(PRIMARY, "rpz.example.zone"), small_server(UPSTREAM, "example.zone")]
    try:
        server = start()
        wait_for(LISTEN, server, BUILD_SECONDS)  # a query that comes before the zone is loaded waits for it, 2 seconds at most
        for name, tcp, outcome in QUERIES:
            ask(name, tcp, outcome)
        print()
        print(*(line for line in server.stdout.read().splitlines() if line.startswith(("taken", "served"))), sep="\n")
        return server.wait()
    finally:
        for helper in helpers:
            helper.kill()


if __name__ == "__main__":
    sys.exit(main())
