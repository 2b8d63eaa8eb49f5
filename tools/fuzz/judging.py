"""What must hold of every reply, whatever it was asked by.

`fault_of` takes a request and its reply. It asks dnspython, a reader of messages by others, for a second reading. Three things that may
stand in a reply dnspython refuses, though the standard doesn't; they are changed in a copy before it reads that, and counted:

- `opcode`: an opcode that dnspython has no name for (RFC 6895, section 2.2) becomes 0, and so does that of an update, whose question
  dnspython takes only as a zone of type SOA (RFC 2136, section 2.3). The reply is a header alone or, to a client that may not ask, a
  header and the question.
- `data TYPEn`: the data of a record that passes as octets (RFC 3597, section 3), of a type and class whose form dnspython knows and this
  data doesn't have. The record gets the type 65280, which has no form (RFC 6895, section 3.1). Never of a type that `rpz` reads itself:
  A and AAAA of class IN, NS, MD, MF, CNAME, SOA, MB, MG, MR, PTR, MINFO, MX, SRV and DNAME.
- `place TYPEn`: an OPT or TSIG record that the upstream has put into the answer or the authority section, or the primary into a zone, and
  that passes as a record like others; it gets the type 65280, too.
"""

import struct

import dns.exception
import dns.message
import dns.opcode
import dns.rdata

import reading
from dns_text import LAYOUTS, TYPES

UNKNOWN = 65_280
TSIG = 250
PLACED = (TYPES["OPT"], TSIG)
RCODES = {reading.NOERROR, reading.SERVFAIL, reading.NXDOMAIN}
Z_BITS = 0x0070
READ_OPCODES = set(dns.opcode.Opcode) - {dns.opcode.UPDATE}


class Wrong(Exception):
    """The reply isn't what it must be."""


def wrong_if(is_wrong, said):
    if is_wrong:
        raise Wrong(said)


def fault_of(octets, reply, transport, way, figures, is_heard=True):
    """What is wrong with a reply to a request, or None."""
    try:
        judge(octets, reply, transport, way, figures, is_heard)
    except Wrong as why:
        return str(why)
    return None


def judge(octets, reply, transport, way, figures, is_heard):
    kind, request = reading.triage(octets, way, is_heard)
    wrong_if(kind == "silence", "a reply to a response, or to less than a header")
    wrong_if(len(reply) < reading.HEADER, "less than a header")
    wrong_if(reply[:2] != octets[:2], "another ID")
    judge_header(octets, reply)
    wrong_if(len(reply) > reading.limit_of(request, transport), "longer than its limit")
    wrong_if(kind == "outside" and len(reply) > len(octets), "longer than its request, to a client outside")
    wanted = reading.exact(octets, way, is_heard)
    wrong_if(wanted is not None and reply != wanted, f"not the reply to what is {kind}")
    message = reading.readable(reply)
    wrong_if(message is None, "it can't be read")
    if kind in ("query", "notify"):
        judge_sections(kind, request, reply, message)
    judge_elsewhere(reply, message, figures)


def judge_header(octets, reply):
    """QR and RA are 1, AA, AD, CD and Z are 0, and opcode and RD are those of the request."""
    wrong_if(not reply[2] & 0x80, "QR isn't set")
    wrong_if((reply[2] ^ octets[2]) & 0x78, "another opcode")
    wrong_if((reply[2] ^ octets[2]) & 0x01, "another RD")
    wrong_if(reply[2] & 0x04, "AA is set")
    wrong_if(reply[3] & (0x80 | Z_BITS) != 0x80, "RA isn't set, or a bit Z, AD or CD is")


def judge_sections(kind, request, reply, message):
    """It has the question octet for octet, an OPT record exactly where the request has one, and nothing if truncated; pointers stand
    where they must, and nowhere else."""
    wrong_if(message.name is None, "no question: out of memory" if message.rcode() == reading.SERVFAIL else "no question")
    wrong_if(message.question() != request.question(), "another question")
    wrong_if(reading.with_records(reply[:reading.HEADER], request.question(), message.records()) != reply, "names written in another way")
    wrong_if(len(message.opts) != len(request.opts), "an OPT record that the request has not, or none though it has one")
    for opt in message.opts:
        wrong_if((opt.rclass, opt.ttl, opt.octets) != (reading.OUR_SIZE, 0, b""), "another OPT record")
        wrong_if(opt.end != max(record.end for record in message.records()), "records behind the OPT record")
    if message.bit(0x0200):
        wrong_if(message.answer or message.authority or message.additional, "truncated, with records")
    wrong_if(kind == "query" and message.rcode() not in RCODES, f"the rcode {message.rcode()} to a query")
    wrong_if(kind == "notify" and message.rcode() not in (reading.NOERROR, reading.REFUSED), "another rcode to a NOTIFY")
    wrong_if(any(record.rclass != reading.IN for record in message.records() if record not in message.opts), "a class other than IN")
    wrong_if(len(message.authority) > 1 or len(message.additional) > 1, "more than one record behind the answer section")


# ---- the second reader


def judge_elsewhere(reply, message, figures):
    """dnspython reads the same ID, rcode, question and owners."""
    parsed = elsewhere(reply, message, figures)
    figures.count("read by dnspython", "replies")
    found = (parsed.id, int(parsed.flags) & 0xFFFF & ~0x7800)
    wrong_if(found != (message.number, message.flags & ~0x7800), "dnspython: another header")
    question = [(one.name.labels[:-1], int(one.rdtype), int(one.rdclass)) for one in parsed.question]
    ours = [] if message.name is None else [(message.name, message.qtype, message.qclass)]
    wrong_if(question != ours, "dnspython: another question")
    for theirs, section in zip(parsed.sections[1:], (message.answer, message.authority, message.additional), strict=True):
        names = [one.name.labels[:-1] for one in theirs]
        wrong_if(names != [record.owner for record in section], "dnspython: other records")


def elsewhere(reply, message, figures):
    """The reply as dnspython reads it."""
    copy = bytearray(reply)
    if message.opcode() not in READ_OPCODES:
        copy[2] &= 0x87
        figures.count("exempt", "opcode")
    try:
        return dns.message.from_wire(bytes(copy), one_rr_per_rrset=True)
    except dns.exception.DNSException:
        for record in message.records():
            make_unknown(copy, record, message, figures)
    try:
        return dns.message.from_wire(bytes(copy), one_rr_per_rrset=True)
    except dns.exception.DNSException as why:
        raise Wrong(f"dnspython: {type(why).__name__}") from why


def make_unknown(copy, record, message, figures):
    """Gives the record another type where dnspython refuses what may stand there."""
    if record.rtype in PLACED and record not in message.opts:
        said = f"place TYPE{record.rtype}"
    elif record.rtype in LAYOUTS or (record.rtype, record.rclass) in reading.FIXED or is_read(copy, record):
        return
    else:
        said = f"data TYPE{record.rtype}"
    figures.count("exempt", said)
    copy[record.place: record.place + 2] = struct.pack("!H", UNKNOWN)


def is_read(copy, record):
    """Whether dnspython reads the data of a record."""
    try:
        dns.rdata.from_wire(record.rclass, record.rtype, bytes(copy), record.start, record.end - record.start)
    except dns.exception.DNSException:
        return False
    return True
