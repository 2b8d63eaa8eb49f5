"""The readers: each asks questions, and tells of each what it reads in the reply (a `Reply`), or, in words, why nothing."""

import contextlib
import shutil
import subprocess
import tempfile
import types

import dns.exception
import dns.flags
import dns.message
import dns.rdata
import dns.rdatatype
import dns.rdtypes.ANY.NS
import dns.rdtypes.ANY.RP

import ask
import dns_text
import peers
import printed
import unbound
from world import Reply

PROGRAMS = ("dig", "kdig", unbound.PROGRAM)
SECONDS = 7  # for a reply of the server
PATIENCE = 100  # for one of Unbound, which may ask the server a dozen questions, twice each
OVER = {"udp": ask.over_udp, "tcp": ask.over_tcp}
WORDS = {"udp": "+notcp", "tcp": "+tcp"}
SHOWN = ("+noall", "+comments", "+question", "+answer", "+authority", "+additional", "+ignore", f"+time={SECONDS}")
DIG = ("+nocmd", "+nocookie", "+tries=1")
KDIG = ("+header", "+noidn", "+retry=0")
# Types of which dnspython knows the name alone. With one of its classes whose data have the same form it reads the names in them.
FORMS = {name: dns.rdtypes.ANY.NS.NS for name in ("MD", "MF", "MB", "MG", "MR")} | {"MINFO": dns.rdtypes.ANY.RP.RP}
FORWARDING = """  module-config: "iterator"
  num-threads: 1
  unknown-server-time-limit: 4000
  infra-cache-min-rtt: 4000
  tcp-idle-timeout: 120000
  discard-timeout: 0
forward-zone:
  name: "."
  forward-addr: {host}@{server}
"""


def received(port, question, transport, number, seconds=SECONDS):
    """The octets of the reply to a query; None where none comes."""
    with contextlib.suppress(OSError, dns_text.Refused):
        return OVER[transport](peers.LOOPBACK, port, question.octets(number), seconds)
    return None


# ---- dnspython


def know_forms():
    for name, form in FORMS.items():
        dns.rdata.register_type(types.SimpleNamespace(**{name: form}), dns.rdatatype.RdataType[name], name)


def row_of(rrset):
    return rrset.name.labels[:-1], int(rrset.rdtype), int(rrset.rdclass), rrset.ttl, rrset[0].to_wire()


def read_by_dnspython(octets, number):
    if octets is None:
        return "no reply"
    try:
        message = dns.message.from_wire(octets, one_rr_per_rrset=True)
    except dns.exception.DNSException as why:
        return f"{type(why).__name__}: {why}"
    if message.id != number or len(message.question) != 1:
        return "another ID, or not one question"
    question, is_truncated = message.question[0], bool(message.flags & dns.flags.TC)
    rows = [list(map(row_of, section)) for section in message.sections[1:]]
    return Reply(int(message.rcode()), is_truncated, question.name.labels[:-1], int(question.rdtype), rows)


def by_dnspython(port, questions, transport):
    return [read_by_dnspython(received(port, question, transport, number), number) for number, question in enumerate(questions)]


# ---- dig and kdig


def words_of(question):
    size = f"+bufsize={question.size}" if question.size else "+noedns"
    return ["-q", f"{dns_text.text_of_name(question.name)}.", "-t", f"TYPE{question.qtype}", size]


def by_dig(port, questions, transport):
    with tempfile.NamedTemporaryFile("w", encoding="ascii") as file:
        file.writelines(f"{' '.join(words_of(question))}\n" for question in questions)
        file.flush()
        return printed_by(["dig", "-r"], port, [*DIG, WORDS[transport], "-f", file.name], questions)


def by_kdig(port, questions, transport):
    words = [word for question in questions for word in words_of(question)]
    return printed_by(["kdig"], port, [*KDIG, WORDS[transport], *words], questions)


def printed_by(program, port, words, questions):
    if not questions:
        return []
    words = [*program, f"@{peers.LOOPBACK}", "-p", str(port), *SHOWN, *words]
    run = subprocess.run(words, stdin=subprocess.DEVNULL, stdout=subprocess.PIPE, encoding="latin-1", check=False)
    return printed.replies_of(run.stdout, questions)


# ---- Unbound


def behind_unbound(port, question):
    return read_by_dnspython(received(port, question, "tcp", 1, PATIENCE), 1)


class Forwarder(peers.Program):
    """Unbound, which asks the server whatever it is asked: over UDP with room for 1,232 octets, and over TCP where a reply is truncated."""

    def __init__(self, port, server):
        self.folder = tempfile.mkdtemp(prefix="readers-unbound-")
        values = {"folder": self.folder, "host": peers.LOOPBACK, "port": port, "server": server}
        path = unbound.written(self.folder, unbound.COMMON + FORWARDING, values)
        super().__init__([unbound.PROGRAM, "-d", "-c", path], port, peers.LOOPBACK, subprocess.DEVNULL)

    def end(self):
        super().end()
        shutil.rmtree(self.folder, ignore_errors=True)
