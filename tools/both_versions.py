#!/usr/bin/env python3
"""Runs a server on both versions of IP beside servers and clients of others, and checks what comes of it.

    python3 tools/both_versions.py PROGRAM

PROGRAM is `rpz`. NSD on `::1` is the primary of the policy zone, and Unbound on `::1` the upstream, which asks NSD. Queries come from `dig`
and `kdig`, over UDP and TCP, to `[::1]` and to addresses of version 4. Servers are started that everyone may ask, that clients of one
version may ask, that listen on all addresses, and that can't listen. A line is printed for each check; the status is 0 where all hold, 1
where one doesn't, and 2 where something isn't here that is wanted. Debian has it all: nsd, unbound, bind9-dnsutils, knot-dnsutils.
"""
import contextlib
import pathlib
import re
import shutil
import socket
import subprocess
import sys
import tempfile
import time

from dns_text import Message, Question, encode, framed, name_of

LISTEN, UPSTREAM, PRIMARY = 5310, 5311, 5312
V4, OTHER_V4, V6 = "127.0.0.1", "127.0.0.2", "::1"
SECONDS = 10
WANTED = ("nsd", "unbound", "dig", "kdig")
WALLED, PASSING = "192.0.2.80", "198.51.100.1"
SOA = "@ 60 SOA ns.example. root.example. {serial} 3600 600 86400 60\n"

NSD = """\
server:
    ip-address: {v6}@{primary}
    username: ""
    database: ""
    zonesdir: "{folder}"
    xfrdir: "{folder}"
    xfrdfile: ""
    zonelistfile: "{folder}/zones.list"
    pidfile: "{folder}/nsd.pid"
    server-count: 1
    do-ip4: no
remote-control:
    control-enable: no
zone:
    name: rpz.example
    zonefile: rpz.example.zone
    provide-xfr: {v6} NOKEY
    notify: {v6}@{listen} NOKEY
zone:
    name: example
    zonefile: example.zone
"""

UNBOUND = """\
server:
    interface: {v6}@{upstream}
    do-ip4: no
    do-daemonize: no
    use-syslog: no
    logfile: "{folder}/unbound.log"
    username: ""
    chroot: ""
    directory: "{folder}"
    pidfile: "{folder}/unbound.pid"
    access-control: {v6}/128 allow
    do-not-query-localhost: no
    module-config: "iterator"
stub-zone:
    name: example
    stub-addr: {v6}@{primary}
"""


class Checks:
    """What was checked, and how often it didn't hold."""

    def __init__(self):
        self.tried = self.failed = 0

    def add(self, said, found, wanted):
        self.tried += 1
        holds = found == wanted
        self.failed += not holds
        print(f"{'holds' if holds else 'FAILS'}  {said}" + ("" if holds else f": {found!r}, and not {wanted!r}"), flush=True)


# ---- servers of others


def is_open(host, port):
    with contextlib.suppress(OSError), socket.create_connection((host, port), 1):
        return True
    return False


def wait_until(holds, said):
    end = time.monotonic() + SECONDS
    while not holds():
        if time.monotonic() > end:
            sys.exit(f"within {SECONDS} seconds {said}")
        time.sleep(0.05)


def end(process):
    process.terminate()
    try:
        process.wait(SECONDS)
    except subprocess.TimeoutExpired:
        process.kill()
        process.wait()


def write_policy(folder, serial, more=""):
    rows = f"blocked CNAME .\nwalled A {WALLED}\n" + more
    text = "$ORIGIN rpz.example.\n$TTL 60\n" + SOA.format(serial=serial) + "@ NS ns.example.\n"
    text += "".join(re.sub(r"^(\S+)", r"\1.example", row) + "\n" for row in rows.splitlines())
    (folder / "rpz.example.zone").write_text(text)


def start_others(folder, ends):
    """NSD and Unbound; gives NSD's process."""
    write_policy(folder, 1)
    text = "$ORIGIN example.\n$TTL 300\n" + SOA.format(serial=1) + f"@ NS ns\nns AAAA {V6}\n* A {PASSING}\n"
    (folder / "example.zone").write_text(text)
    numbers = {"folder": folder, "v6": V6, "listen": LISTEN, "upstream": UPSTREAM, "primary": PRIMARY}
    (folder / "nsd.conf").write_text(NSD.format(**numbers))
    (folder / "unbound.conf").write_text(UNBOUND.format(**numbers))
    log = ends.enter_context(open(folder / "others.log", "wb"))
    nsd = subprocess.Popen(["nsd", "-d", "-c", folder / "nsd.conf"], stdout=log, stderr=log)
    ends.callback(end, nsd)
    unbound = subprocess.Popen(["unbound", "-d", "-c", folder / "unbound.conf"], stdout=log, stderr=log)
    ends.callback(end, unbound)
    for port, name in ((PRIMARY, "NSD"), (UPSTREAM, "Unbound")):
        wait_until(lambda port=port: is_open(V6, port), f"{name} doesn't listen: {folder}/others.log")
    return nsd


# ---- the server


class Server:
    """`rpz serve` at these addresses, with its lines and what it says on standard error in files."""

    def __init__(self, program, folder, hosts, options=()):
        self.folder = folder
        listen = ",".join(f"[{host}]:{LISTEN}" if ":" in host else f"{host}:{LISTEN}" for host in hosts)
        words = ["serve", *options, listen, f"[{V6}]:{UPSTREAM}", "forever", "2", f"rpz.example@[{V6}]:{PRIMARY}"]
        print("$ rpz", *words, flush=True)
        with open(folder / "out", "wb") as out, open(folder / "errors", "wb") as errors:
            self.process = subprocess.Popen([program, *words], stdout=out, stderr=errors)

    def lines(self):
        return (self.folder / "out").read_text().splitlines()

    def complaints(self):
        return (self.folder / "errors").read_text().splitlines()

    def status(self):
        """With which it ends by itself."""
        try:
            return self.process.wait(SECONDS)
        except subprocess.TimeoutExpired:
            return None


@contextlib.contextmanager
def serving(program, folder, hosts, options=()):
    server = Server(program, folder, hosts, options)
    try:
        wait_until(lambda: any(line.startswith("taken 1 ") for line in server.lines()), "the zone isn't taken")
        yield server
    finally:
        end(server.process)


# ---- clients of others


def answer_of(tool, host, name, over_tcp):
    """The rcode, whether there is an OPT record, and the addresses, as dig or kdig shows them; None where they show no reply."""
    version = "-6" if ":" in host else "-4"
    words = [tool, version, f"@{host}", "-p", str(LISTEN), name, "A", "+time=3", "+tries=1"] if tool == "dig" else [
        tool, version, f"@{host}", "-p", str(LISTEN), name, "A", "+timeout=3", "+retry=0", "+edns"]
    ran = subprocess.run([*words, "+tcp"] if over_tcp else words, capture_output=True, text=True, check=False)
    found = re.search(r"status: (\w+)", ran.stdout)
    if not found or "unexpected source" in ran.stdout + ran.stderr:
        return None
    addresses = re.findall(rf"^{re.escape(name)}\.\s+\d+\s+IN\s+A\s+(\S+)", ran.stdout, re.MULTILINE)
    return found[1], "EDNS" in ran.stdout, addresses


ANSWERS = {"blocked.example": ("NXDOMAIN", True, []), "walled.example": ("NOERROR", True, [WALLED]),
           "www.example": ("NOERROR", True, [PASSING])}
REFUSED = {name: ("REFUSED", False, []) for name in ANSWERS}


def ask_all(checks, host, wanted):
    for tool in ("dig", "kdig"):
        for over_tcp in (False, True):
            for name, answer in wanted.items():
                said = f"{tool} at {host} over {'TCP' if over_tcp else 'UDP'}: {name} gets {answer[0]}"
                checks.add(said, answer_of(tool, host, name, over_tcp), answer)


def notified(checks, nsd, server, serial, host):
    """NSD has a further rule, and tells of it."""
    name = f"new{serial}"
    write_policy(server.folder, serial, "".join(f"new{each} CNAME .\n" for each in range(2, serial + 1)))
    nsd.send_signal(1)  # SIGHUP: it reads its zones again
    end = time.monotonic() + SECONDS
    while (found := answer_of("dig", host, f"{name}.example", False)) != ("NXDOMAIN", True, []) or not any(
            line.startswith(f"taken 1 {serial} ") for line in server.lines()):
        if time.monotonic() > end:
            break
        time.sleep(0.1)
    checks.add(f"behind a NOTIFY of NSD at {V6} a new rule is in force", found, ("NXDOMAIN", True, []))


def query(number):
    return framed(encode(Message(number, ("rd",), 0, 0, [Question(name_of("blocked.example"), 1)])))


def connect_from(source, host):
    sock = socket.socket()
    sock.setsockopt(socket.SOL_SOCKET, socket.SO_REUSEADDR, 1)
    sock.settimeout(SECONDS)
    sock.bind(source)
    sock.connect((host, LISTEN))
    return sock


def same_port(checks):
    """One port of a client may have connections to two addresses of the server, and each goes on."""
    with contextlib.ExitStack() as ends:
        first = ends.enter_context(connect_from((V4, 0), V4))
        second = ends.enter_context(connect_from(first.getsockname(), OTHER_V4))
        replies = []
        for number, sock in enumerate((first, second, first, second)):
            sock.sendall(query(number))
            replies.append(sock.recv(512)[2:4])
    checks.add("one port of a client has two connections", replies, [bytes([0, number]) for number in range(4)])


# ---- what is checked


def everyone(checks, program, folder, nsd):
    with serving(program, folder, (V6, V4, OTHER_V4)) as server:
        for host in (V6, V4, OTHER_V4):
            ask_all(checks, host, ANSWERS)
        same_port(checks)
        notified(checks, nsd, server, 2, V6)
        checks.add("nothing is said on standard error", server.complaints(), [])


def some(checks, program, folder, nsd):
    with serving(program, folder, (V6, V4), ("--allow", f"{V4}/32,2001:db8::/32")) as server:
        ask_all(checks, V4, ANSWERS)
        ask_all(checks, V6, REFUSED)
        notified(checks, nsd, server, 3, V4)
    with serving(program, folder, (V6, V4), ("--allow", f"{V6}/128,192.0.2.0/24")):
        ask_all(checks, V6, ANSWERS)
        ask_all(checks, V4, REFUSED)


def all_addresses(checks, program, folder):
    with serving(program, folder, ("::", "0.0.0.0")) as server:
        ask_all(checks, V6, ANSWERS)
        ask_all(checks, V4, ANSWERS)
        told = [line.split(" is all addresses")[0] for line in server.complaints()]
        checks.add("it says which of them are all addresses", told, [f"rpz: [::]:{LISTEN}", f"rpz: 0.0.0.0:{LISTEN}"])
    with serving(program, folder, ("::",)):
        ask_all(checks, V6, ANSWERS)
        checks.add("all addresses of version 6 hear nothing of version 4", answer_of("dig", V4, "blocked.example", False), None)
        checks.add("nor do they over TCP", is_open(V4, LISTEN), False)


def not_bound(checks, program, folder):
    server = Server(program, folder, (V6, "192.0.2.1", V4))
    checks.add("with an address that isn't this host's it ends with status 6", server.status(), 6)
    checks.add("and says which", server.complaints()[:1], [f"rpz: 192.0.2.1:{LISTEN} could not be bound"])
    end(server.process)


def main():
    if len(sys.argv) != 2:
        sys.exit(__doc__)
    missing = [tool for tool in WANTED if shutil.which(tool) is None]
    if missing:
        print(f"not here: {', '.join(missing)}")
        return 2
    program, checks = str(pathlib.Path(sys.argv[1]).resolve()), Checks()
    with contextlib.ExitStack() as ends:
        folder = pathlib.Path(ends.enter_context(tempfile.TemporaryDirectory()))
        nsd = start_others(folder, ends)
        everyone(checks, program, folder, nsd)
        some(checks, program, folder, nsd)
        all_addresses(checks, program, folder)
        not_bound(checks, program, folder)
    print(f"{checks.tried - checks.failed} hold, {checks.failed} don't")
    return 1 if checks.failed else 0


if __name__ == "__main__":
    sys.exit(main())
