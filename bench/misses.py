#!/usr/bin/env python3
"""What cache misses cost `rpz serve`, beside Unbound as a forwarder, with an upstream that takes its time.

    python3 bench/misses.py RPZ [--seconds N] [--rounds N] [--latency MS] [--workers N] [--askers N,N] [--rate N]

RPZ is the built program. Wanted: nsd, the primary of the policy zone, dnsperf, dig, unbound, and cc. The upstream is bench/slow_upstream.c,
which answers each question after so many milliseconds (20), over UDP and over TCP, with a TTL of 0, so that every query is a miss. Each
server has a policy zone of 1,000 rules, and no query is for a name of a rule. dnsperf and the upstream have two cores, and the server
the others. The servers take turns, and of each row the greatest rate and the least CPU of all rounds count.

A row says how many misses a server answers a second where up to 1,000 wait at once, how many of them got SERVFAIL or were lost, the CPU
of all its threads for a million misses at that rate, and at a fixed rate (5,000 a second), and its resident memory in the end.
"""

import argparse
import os
import pathlib
import re
import shutil
import subprocess
import tempfile
import time

import serve

UPSTREAM = 5302
NAMES = 500_000
OUTSTANDING = 1_000


def write_configuration(folder, workers):
    (folder / "unbound.conf").write_text(f"""server:
  interface: 127.0.0.1@{serve.PORT}
  num-threads: {workers}
  so-reuseport: yes
  so-rcvbuf: 4m
  do-not-query-localhost: no
  outgoing-range: 4096
  num-queries-per-thread: 2048
  module-config: "respip iterator"
  username: ""
  chroot: ""
  directory: "{folder}"
  pidfile: ""
  use-syslog: no
  logfile: "{folder}/unbound.log"
  do-ip6: no
rpz:
  name: rpz.example
  zonefile: "{folder}/rpz.zone"
forward-zone:
  name: "."
  forward-addr: 127.0.0.1@{UPSTREAM}
remote-control:
  control-enable: no
""")


def words_of(server, folder, program, workers):
    if server == "unbound":
        return ["unbound", "-d", "-c", str(folder / "unbound.conf")]
    askers = server.split()[1]
    return [program, "serve", "--askers", askers, f"127.0.0.1:{serve.PORT}", f"127.0.0.1:{UPSTREAM}", "forever", str(workers),
            f"rpz.example@127.0.0.1:{serve.PRIMARY}"]


def dnsperf(path, cores, seconds, rate=None):
    words = ["taskset", "-c", cores, "dnsperf", "-s", "127.0.0.1", "-p", str(serve.PORT), "-d", str(path), "-l", str(seconds), "-c", "8",
             "-T", "2", "-q", str(OUTSTANDING), "-t", "2"]
    words += ["-Q", str(rate)] if rate else []
    return subprocess.run(words, capture_output=True, text=True, check=True).stdout


def failures(text):
    found = re.search(r"SERVFAIL (\d+)", text)
    return int(found[1]) if found else 0


def resident_mib(pid):
    return int(pathlib.Path(f"/proc/{pid}/statm").read_text().split()[1]) * os.sysconf("SC_PAGESIZE") / (1 << 20)


def wait_until_loaded():
    for _ in range(60):
        if "NXDOMAIN" in serve.answers(serve.host("h", 0)) and "NOERROR" in serve.answers("first.miss.example"):
            return
        time.sleep(0.5)
    raise SystemExit("a server doesn't answer by the policy")


def measure(pid, path, cores, seconds, rate=None):
    """Misses a second, CPU seconds for a million, SERVFAIL, lost."""
    before = serve.cpu_seconds(pid)
    text = dnsperf(path, cores, seconds, rate)
    used = serve.cpu_seconds(pid) - before
    done = serve.number(text, "Queries completed")
    return serve.number(text, "Queries per second"), 1e6 * used / done, failures(text), serve.number(text, "Queries lost")


def take_turn(server, folder, program, path, cores, options, rows):
    with serve.Running(words_of(server, folder, program, options.workers), cores[0]) as pid:
        wait_until_loaded()
        dnsperf(path, cores[1], 1)
        rate, cpu, failed, lost = measure(pid, path, cores[1], options.seconds)
        _, fixed, more_failed, more_lost = measure(pid, path, cores[1], options.seconds, options.rate)
        row = rows.setdefault(server, [0.0, float("inf"), float("inf"), 0, 0, 0.0])
        row[0], row[1], row[2] = max(row[0], rate), min(row[1], cpu), min(row[2], fixed)
        row[3], row[4], row[5] = row[3] + failed + more_failed, row[4] + lost + more_lost, max(row[5], resident_mib(pid))


def main():
    parser = argparse.ArgumentParser()
    parser.add_argument("rpz")
    parser.add_argument("--seconds", type=int, default=5)
    parser.add_argument("--rounds", type=int, default=3)
    parser.add_argument("--latency", type=int, default=20)
    parser.add_argument("--workers", type=int, default=4)
    parser.add_argument("--askers", default="256,512")
    parser.add_argument("--rate", type=int, default=5_000)
    options = parser.parse_args()
    os.environ["PATH"] += ":/usr/sbin"
    program = str(pathlib.Path(options.rpz).resolve())
    cores = sorted(os.sched_getaffinity(0))
    theirs, mine = ",".join(map(str, cores[:-2] or cores)), ",".join(map(str, cores[-2:]))
    servers = [f"rpz {askers}" for askers in options.askers.split(",")] + ["unbound"] * bool(shutil.which("unbound"))
    rows = {}
    with tempfile.TemporaryDirectory() as name:
        folder = pathlib.Path(name)
        subprocess.run(["cc", "-O2", "-o", folder / "slow_upstream", serve.ROOT / "slow_upstream.c"], check=True)
        serve.write_zones(folder, 1_000)
        serve.write_configurations(folder, options.workers)
        write_configuration(folder, options.workers)
        path = folder / "misses"
        path.write_text("".join(f"m{number}.g{number // 100}.miss.example A\n" for number in range(NAMES)))
        with serve.Running(["nsd", "-d", "-c", str(folder / "nsd.conf")], mine), \
                serve.Running([str(folder / "slow_upstream"), str(UPSTREAM), str(options.latency)], mine):
            time.sleep(1)
            for _ in range(options.rounds):
                for server in servers:
                    take_turn(server, folder, program, path, (theirs, mine), options, rows)
    print(f"server         misses/s  cpu s/M  cpu s/M at {options.rate:,}/s  SERVFAIL  lost  MiB resident")
    for server, (rate, cpu, fixed, failed, lost, mib) in rows.items():
        print(f"{server:<14} {rate:8.0f} {cpu:8.2f} {fixed:22.2f} {failed:9.0f} {lost:5.0f} {mib:13.1f}")


if __name__ == "__main__":
    main()
