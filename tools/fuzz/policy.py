"""The policy zone that no transfer changes: its rules are about names below `fixed.test`, and it precedes all others."""

import struct

import reading
import rules
import taking
from dns_text import TYPES, Message, Question, Record, encode, framed

ZONE = (b"fixed", b"rpz")
BASE = (b"fixed", b"test")
ADDRESS, OTHER = b"\xc0\x00\x02\x2a", b"\xc0\x00\x02\x2b"
SOA_DATA = [(), (), *(number.to_bytes(4, "big") for number in (1, 86_400, 86_400, 86_400, 60))]
SOA = Record(ZONE, 60, 1, TYPES["SOA"], SOA_DATA)
ACTIONS = {b"nx": (), b"nodata": (b"*",), b"tcponly": (b"rpz-tcp-only",), b"dropped": (b"rpz-drop",)}
TEXT = b"\xff" + b"w" * 255  # of a rule whose reply is longer than some limits
TEXTS = 4


def rows_of_zone():
    """The rows of the zone."""
    made = [Record((label, *BASE, *ZONE), 60, 1, TYPES["CNAME"], [target]) for label, target in ACTIONS.items()]
    made += [Record((b"walled", *BASE, *ZONE), 60, 1, TYPES["A"], [data]) for data in (ADDRESS, OTHER)]
    made += [Record((b"wide", *BASE, *ZONE), 60, 1, TYPES["TXT"], [TEXT[:-1] + bytes([turn])]) for turn in range(TEXTS)]
    return made


def transfer(number, qtype):
    """The stream of its whole transfer."""
    message = Message(number, ("qr", "aa"), 0, 0, [Question(ZONE, qtype)], [SOA, *rows_of_zone(), SOA])
    return framed(encode(message))


def name_of(label):
    return (label, *BASE)


RULES = rules.rules_of(1, ZONE, taking.taken(taking.Version(ZONE), transfer(0, TYPES["AXFR"]), 0)[1])
PROBE = name_of(b"walled")
NAMES = [name_of(label) for label in (*ACTIONS, b"walled", b"wide")]


def probe(number):
    """A query that a rule answers."""
    return struct.pack("!6H", number, 0x0100, 1, 0, 0, 0) + reading.written(PROBE) + struct.pack("!HH", TYPES["A"], 1)
