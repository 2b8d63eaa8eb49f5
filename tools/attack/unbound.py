"""Unbound with the policy zone of the server, as what a case is tried on beside it; and as an upstream."""

import os
import shutil
import socket
import subprocess
import tempfile

from harness import RULED
from peers import LOOPBACK, ZONE, Program

PROGRAM = "/usr/sbin/unbound"
CLIENTS = 1_000  # connections over TCP, as the server has them without an option

COMMON = """server:
  username: ""
  chroot: ""
  pidfile: ""
  directory: "{folder}"
  use-syslog: no
  logfile: ""
  do-daemonize: no
  do-not-query-localhost: no
  interface: {host}@{port}
"""

FILTERING = """  num-threads: {workers}
  incoming-num-tcp: {clients}
  module-config: "respip iterator"
  local-zone: "test." nodefault
rpz:
  name: "{zone}."
  zonefile: "{folder}/zone"
forward-zone:
  name: "."
  forward-addr: {loopback}@{upstream}
  forward-tcp-upstream: yes
"""

ANSWERING = """  module-config: "iterator"
  local-zone: "example." redirect
  local-data: "example. 60 A 192.0.2.5"
  local-zone: "test." redirect
  local-data: "test. 60 A 192.0.2.5"
stub-zone:
  name: "{silent}"
  stub-addr: {loopback}@{hole}
"""

SILENT = "hung.net"  # names below it are asked of an address that says nothing


def is_there():
    return os.path.exists(PROGRAM)


def zone_text():
    """The policy zone as the primary of a scene has it at first."""
    rules = [f"{name}.{ZONE}. 60 IN CNAME ." for name in [*RULED, "first.example"]]
    return "\n".join([f"{ZONE}. 60 IN SOA . . 1 3600 600 86400 60", f"{ZONE}. 60 IN NS localhost.", *rules, ""])


class Unbound(Program):
    """Unbound in the place of the server: what its primaries have is in a file, and options of `serve` say nothing to it."""

    def __init__(self, _program, port, upstream, _primaries, workers, _options=(), stdout=None, host=LOOPBACK, **_started):
        self.folder = tempfile.mkdtemp(prefix="attack-unbound-")
        with open(f"{self.folder}/zone", "w", encoding="ascii") as file:
            file.write(zone_text())
        values = {"folder": self.folder, "host": host, "port": port, "workers": workers, "clients": CLIENTS}
        values |= {"zone": ZONE, "loopback": LOOPBACK, "upstream": upstream}
        path = written(self.folder, COMMON + FILTERING, values)
        super().__init__([PROGRAM, "-d", "-c", path], port, host, subprocess.DEVNULL if stdout is None else stdout)

    def remove_files(self):
        shutil.rmtree(self.folder, ignore_errors=True)


class DefaultUnbound(Program):
    """Unbound with its defaults as the upstream, which answers all names below `example` and `test`, and waits for those below SILENT."""

    def __init__(self, port, _delay):
        self.folder = tempfile.mkdtemp(prefix="attack-unbound-")
        self.hole = socket.socket(socket.AF_INET, socket.SOCK_DGRAM)
        self.hole.bind((LOOPBACK, 0))
        values = {"folder": self.folder, "host": LOOPBACK, "port": port, "silent": SILENT, "loopback": LOOPBACK}
        path = written(self.folder, COMMON + ANSWERING, values | {"hole": self.hole.getsockname()[1]})
        super().__init__([PROGRAM, "-d", "-c", path], port, LOOPBACK, subprocess.DEVNULL)
        self.wait_for("there.example", 0)

    def was_asked(self):
        """Whether it has asked for a name below SILENT."""
        self.hole.setblocking(False)
        try:
            return len(self.hole.recv(512)) > 0
        except BlockingIOError:
            return False

    def end(self):
        super().end()
        self.hole.close()
        shutil.rmtree(self.folder, ignore_errors=True)


def written(folder, text, values):
    path = f"{folder}/conf"
    with open(path, "w", encoding="ascii") as file:
        file.write(text.format(**values))
    return path
