#!/usr/bin/env python3
"""How fast `rpz serve` answers over UDP, beside other servers on the same machine, with the same policy zone.

    python3 bench/serve.py RPZ [--seconds N] [--rounds N] [--rules N,N] [--servers NAME,NAME] [--workers N,N]

RPZ is the built program. Wanted: nsd, the primary of the policy zone and the upstream, dnsperf, dig, and cc. Of unbound, pdns_recursor and
named those that are installed are measured beside; `echo` is bench/udp_echo.c, as many threads as workers that send each datagram back,
which bounds what these can receive and send.

Half of the rules are hK.gJ.example CNAME . and half *.wK.gJ.example CNAME . Queries are for names of the first kind (hits), for 4,000
names that no rule is about and that are in each server's cache (cached passes), or for both by turns (mix). dnsperf has two cores and
the server the others. The servers take turns, round by round, each at the greatest rate that dnsperf reaches, and of each row the
greatest rate and the least CPU of all rounds count; CPU is that of all threads of the server, user and system. In the last round
comes a run at half of the rate, of which come the lost queries and the latency of which 99 of 100 queries stay below.

Up to version 0.2.0 `rpz` polled its zone after each 64th arrival. What that costs is measured at a fixed rate, without and with eight more
zones, which are empty: an eighth of the difference in CPU for a query is the share of one zone's polls, which is printed, and the last
column is the CPU without it. Since then zones are polled by their own times, and the share is noise about 0.
"""

import argparse
import os
import pathlib
import random
import re
import shutil
import signal
import subprocess
import sys
import tempfile
import time

ROOT = pathlib.Path(__file__).resolve().parent
sys.path.insert(0, str(ROOT.parent / "tools"))
SECONDS = 5
ROUNDS = 3
RULES = (1_000, 1_000_000)
WORKERS = (1, 4)
GROUP = 100  # names of one gJ.example
PASSES = 4_000  # of the 4,096 that a cache of rpz keeps
NAMES = 100_000  # lines of a file of queries
POLL_RATE = 20_000  # queries a second at which the cost of polls is measured
MORE_ZONES = [f"more{number}.example" for number in range(8)]
KINDS = ("hits", "cached passes", "mix")
SERVERS = ("echo", "rpz", "unbound", "pdns_recursor", "named")
PRIMARY, PORT = 5301, 5310
TICKS = os.sysconf("SC_CLK_TCK")


def host(letter, number):
    return f"{letter}{number % GROUP}.g{number // GROUP}.example"


def write_zones(folder, count):
    head = "$TTL 60\n@ SOA localhost. root.localhost. 1 3600 600 86400 60\n@ NS localhost.\n"
    with open(folder / "rpz.zone", "w", encoding="ascii") as out:
        out.write("$ORIGIN rpz.example.\n" + head)
        for number in range(count // 2):
            out.write(f"{host('h', number)} CNAME .\n*.{host('w', number)} CNAME .\n")
    (folder / "more.zone").write_text(head)
    with open(folder / "example.zone", "w", encoding="ascii") as out:
        out.write("$ORIGIN example.\n" + head)
        for number in range(PASSES):
            out.write(f"{host('p', number)}. 86400 A 192.0.2.1\n")


def write_queries(folder, kind, count):
    numbers = random.Random(1)
    path = folder / f"{kind.replace(' ', '-')}.queries"
    with open(path, "w", encoding="ascii") as out:
        for turn in range(NAMES):
            hit = kind == "hits" or (kind == "mix" and turn % 2 == 0)
            out.write((host("h", numbers.randrange(count // 2)) if hit else host("p", numbers.randrange(PASSES))) + " A\n")
    return path


def write_configurations(folder, workers):
    (folder / "nsd.conf").write_text(f"""server:
  ip-address: 127.0.0.1@{PRIMARY}
  zonesdir: "{folder}"
  database: ""
  username: ""
  pidfile: ""
  xfrdfile: ""
  zonelistfile: "{folder}/nsd.list"
  xfrdir: "{folder}"
  logfile: "{folder}/nsd.log"
  tcp-count: 512
  server-count: 1
remote-control:
  control-enable: no
""" + "".join(f"""zone:
  name: {name}
  zonefile: {file}
  provide-xfr: 127.0.0.1 NOKEY
""" for name, file in (("rpz.example", "rpz.zone"), ("example", "example.zone"), *((zone, "more.zone") for zone in MORE_ZONES))))
    (folder / "unbound.conf").write_text(f"""server:
  interface: 127.0.0.1@{PORT}
  num-threads: {workers}
  so-reuseport: yes
  so-rcvbuf: 4m
  do-not-query-localhost: no
  module-config: "respip iterator"
  username: ""
  chroot: ""
  directory: "{folder}"
  pidfile: ""
  use-syslog: no
  logfile: "{folder}/unbound.log"
  do-ip6: no
rpz:
  name: rpz.example
  zonefile: "{folder}/rpz.zone"
stub-zone:
  name: example
  stub-addr: 127.0.0.1@{PRIMARY}
remote-control:
  control-enable: no
""")
    (folder / "recursor.conf").write_text(f"""local-address=127.0.0.1
local-port={PORT}
threads={workers}
forward-zones=example=127.0.0.1:{PRIMARY}
lua-config-file={folder}/rpz.lua
dnssec=off
daemon=no
disable-syslog=yes
loglevel=0
quiet=yes
write-pid=no
socket-dir={folder}
security-poll-suffix=
""")
    (folder / "rpz.lua").write_text(f'rpzFile("{folder}/rpz.zone", {{policyName="rpz.example"}})\n')
    (folder / "named.conf").write_text(f"""options {{
  listen-on port {PORT} {{ 127.0.0.1; }};
  listen-on-v6 {{ none; }};
  directory "{folder}";
  pid-file none;
  session-keyfile none;
  recursion yes;
  dnssec-validation no;
  response-policy {{ zone "rpz.example"; }};
}};
controls {{ }};
zone "rpz.example" {{ type primary; file "{folder}/rpz.zone"; }};
zone "example" {{ type forward; forward only; forwarders {{ 127.0.0.1 port {PRIMARY}; }}; }};
""")


def words_of(server, folder, program, workers, zones):
    if server == "rpz":
        return [program, "serve", f"127.0.0.1:{PORT}", f"127.0.0.1:{PRIMARY}", "4294967295", str(workers),
                *(f"{zone}@127.0.0.1:{PRIMARY}" for zone in zones)]
    if server == "unbound":
        return ["unbound", "-d", "-c", str(folder / "unbound.conf")]
    if server == "pdns_recursor":
        return ["pdns_recursor", f"--config-dir={folder}"]
    if server == "named":
        return ["named", "-f", "-n", str(workers), "-c", str(folder / "named.conf")]
    return [str(folder / "udp_echo"), str(PORT), str(workers)]


class Running:
    """A process on the cores of the server, until the block ends."""

    def __init__(self, words, cores):
        self.words, self.cores = words, cores

    def __enter__(self):
        self.process = subprocess.Popen(["taskset", "-c", self.cores, *self.words], stdout=subprocess.DEVNULL,
                                        stderr=subprocess.DEVNULL, env={**os.environ, "PATH": os.environ["PATH"] + ":/usr/sbin"})
        return self.process.pid

    def __exit__(self, *_):
        self.process.send_signal(signal.SIGKILL)
        self.process.wait()
        time.sleep(0.5)


def cpu_seconds(pid):
    fields = pathlib.Path(f"/proc/{pid}/stat").read_text().rsplit(")", 1)[1].split()
    return (int(fields[11]) + int(fields[12])) / TICKS


def answers(name):
    words = ["dig", "@127.0.0.1", "-p", str(PORT), name, "A", "+tries=1", "+time=1", "+noall", "+comments"]
    return subprocess.run(words, capture_output=True, text=True, check=False).stdout


def wait_until_loaded(server, seconds=300):
    if server == "echo":
        time.sleep(0.5)
        return
    for _ in range(seconds):
        if "NXDOMAIN" in answers(host("h", 0)) and "NOERROR" in answers(host("p", 0)):
            return
        time.sleep(1)
    raise SystemExit(f"{server} doesn't answer by the policy")


def dnsperf(path, cores, seconds, rate=None, verbose=False):
    words = ["taskset", "-c", cores, "dnsperf", "-s", "127.0.0.1", "-p", str(PORT), "-d", str(path), "-l", str(seconds), "-c", "8",
             "-T", "2", "-q", "400", "-t", "1"]
    words += ["-Q", str(rate)] if rate else []
    words += ["-v"] if verbose else []
    return subprocess.run(words, capture_output=True, text=True, check=True).stdout


def number(text, label):
    return float(re.search(rf"{label}:\s+([0-9.]+)", text)[1])


def p99(text):
    """In microseconds."""
    times = sorted(float(line.split()[-1]) for line in text.splitlines() if line.startswith("> NOERROR") or line.startswith("> NXDOMAIN"))
    return 1_000_000 * times[len(times) * 99 // 100] if times else float("nan")


def measure(pid, path, cores, seconds):
    """Queries a second, and CPU seconds for a million of them."""
    dnsperf(path, cores, 1)
    before = cpu_seconds(pid)
    text = dnsperf(path, cores, seconds)
    used = cpu_seconds(pid) - before
    return number(text, "Queries per second"), 1e6 * used / number(text, "Queries completed")


def at_half_rate(path, cores, seconds, rate):
    """Lost queries, those sent, and the latency of which 99 of 100 stay below."""
    half = dnsperf(path, cores, seconds, rate=int(rate / 2), verbose=True)
    return number(half, "Queries lost"), number(half, "Queries sent"), p99(half)


def show(rules, workers, figures, share):
    for (server, kind), (rate, cpu, (lost, sent, latency)) in figures.items():
        without = f"{cpu - share:8.2f}" if server == "rpz" else ""
        print(f"{rules:>9,} {kind:<14} {server:<14} {workers:>7} {rate / 1000:8.1f} {cpu:8.2f} {latency:8.0f} {lost:6.0f} of {sent:9.0f} {without}", flush=True)


def main():
    parser = argparse.ArgumentParser()
    parser.add_argument("rpz")
    parser.add_argument("--seconds", type=int, default=SECONDS)
    parser.add_argument("--rounds", type=int, default=ROUNDS)
    parser.add_argument("--rules", default=",".join(map(str, RULES)))
    parser.add_argument("--workers", default=",".join(map(str, WORKERS)))
    parser.add_argument("--servers", default=",".join(SERVERS))
    options = parser.parse_args()
    os.environ["PATH"] += ":/usr/sbin"
    program = str(pathlib.Path(options.rpz).resolve())
    cores = sorted(os.sched_getaffinity(0))
    mine, servers_cores = ",".join(map(str, cores[-2:])), ",".join(map(str, cores[:-2] or cores))
    servers = [one for one in options.servers.split(",") if one == "echo" or one == "rpz" or shutil.which(one)]
    print("    rules queries        server         workers     kq/s cpu s/Mq   p99 us   lost at half the rate   cpu without polls")
    with tempfile.TemporaryDirectory() as name:
        folder = pathlib.Path(name)
        subprocess.run(["cc", "-O2", "-pthread", "-o", folder / "udp_echo", ROOT / "udp_echo.c"], check=True)
        for rules in map(int, options.rules.split(",")):
            write_zones(folder, rules)
            paths = {kind: write_queries(folder, kind, rules) for kind in KINDS}
            for workers in map(int, options.workers.split(",")):
                write_configurations(folder, workers)
                compare(servers, folder, program, rules, workers, paths, (servers_cores, mine), options)


def compare(servers, folder, program, rules, workers, paths, cores, options):
    figures, share = {}, 0.0
    with Running(["nsd", "-d", "-c", str(folder / "nsd.conf")], cores[1]):
        time.sleep(1 + rules / 200_000)
        if "rpz" in servers:
            share = poll_share(folder, program, workers, paths["hits"], cores, options.seconds)
            print(f"{'':>9} polls of a zone cost rpz {share:.2f} CPU seconds for a million queries", flush=True)
        for turn in range(options.rounds):
            for server in servers:
                take_turn(server, folder, program, workers, paths, cores, options.seconds, figures, turn == options.rounds - 1)
    show(rules, workers, figures, share)


def take_turn(server, folder, program, workers, paths, cores, seconds, figures, is_last):
    with Running(words_of(server, folder, program, workers, ["rpz.example"]), cores[0]) as pid:
        wait_until_loaded(server)
        for kind, path in paths.items():
            if server == "echo" and kind != "hits":
                continue
            rate, cpu = measure(pid, path, cores[1], seconds)
            best, least, _ = figures.get((server, kind), (rate, cpu, None))
            rate, cpu = max(rate, best), min(cpu, least)
            figures[server, kind] = rate, cpu, at_half_rate(path, cores[1], seconds, rate) if is_last else None


def poll_share(folder, program, workers, path, cores, seconds):
    costs = []
    for zones in (["rpz.example"], ["rpz.example", *MORE_ZONES]):
        with Running(words_of("rpz", folder, program, workers, zones), cores[0]) as pid:
            wait_until_loaded("rpz")
            before = cpu_seconds(pid)
            done = number(dnsperf(path, cores[1], 2 * seconds, rate=POLL_RATE), "Queries completed")
            costs.append(1e6 * (cpu_seconds(pid) - before) / done)
    return max(0.0, (costs[1] - costs[0]) / len(MORE_ZONES))


if __name__ == "__main__":
    main()
