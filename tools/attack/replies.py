"""Replies of a server, read strictly: every octet of one belongs to its header, its question or a record, and pointers lead back."""

import socket
import struct
import time
from typing import NamedTuple

import wire
from peers import LOOPBACK


HEADER = 12
# Of the data whose names are compressed (docs/PROFILE.md), by type: how many octets stand before its names, how many names there are, and
# how many octets stand behind them.
NAMES = {2: (0, 1, 0), 3: (0, 1, 0), 4: (0, 1, 0), 5: (0, 1, 0), 6: (0, 2, 20), 7: (0, 1, 0), 8: (0, 1, 0), 9: (0, 1, 0), 12: (0, 1, 0),
         14: (0, 2, 0), 15: (2, 1, 0)}


class Record(NamedTuple):
    """The data is as it stands in the message."""

    owner: str
    rtype: int
    ttl: int
    data: bytes


class Reply(NamedTuple):
    rcode: int
    is_truncated: bool
    answers: list
    authority: list
    additional: list


class Malformed(Exception):
    pass


def name_at(message, at):
    """The name that begins there, and the place behind it. A pointer leads to a place before the labels in front of it, and not into the
    header (RFC 1035, section 4.1.4)."""
    labels, begun, behind = [], at, None
    while message[at]:
        if message[at] >= 0xC0:
            target = (message[at] & 0x3F) << 8 | message[at + 1]
            if not HEADER <= target < begun:
                raise Malformed(f"a pointer at {at} to {target}")
            behind = at + 2 if behind is None else behind
            at = begun = target
        elif message[at] > 63:
            raise Malformed("a label of over 63 octets")
        else:
            labels.append(message[at + 1: at + 1 + message[at]].decode("ascii", "replace").lower())
            at += message[at] + 1
    return ".".join(labels), at + 1 if behind is None else behind


def data_end(message, rtype, at, end):
    """Where the data ends by its names, if its type has such."""
    if rtype not in NAMES:
        return end
    before, count, after = NAMES[rtype]
    at += before
    for _ in range(count):
        _, at = name_at(message, at)
    return at + after


def record_at(message, at):
    owner, at = name_at(message, at)
    rtype, _, ttl, size = struct.unpack("!HHIH", message[at: at + 10])
    end = at + 10 + size
    if end > len(message):
        raise Malformed("a record that isn't whole")
    if data_end(message, rtype, at + 10, end) != end:
        raise Malformed("data that are longer or shorter than their names")
    return Record(owner, rtype, ttl, message[at + 10: end]), end


def read(message, query):
    """The reply to a query, whose ID, opcode and question it has; `Malformed` where it isn't one."""
    try:
        return read_on(message, query)
    except (IndexError, struct.error) as why:
        raise Malformed(f"it ends early: {message.hex()}") from why


def read_on(message, query):
    number, flags, questions, *counts = struct.unpack("!HHHHHH", message[:12])
    if number != wire.number_of(query) or flags & 0xF880 != 0x8080 or questions != 1:
        raise Malformed(f"a header that doesn't fit: {message[:12].hex()}")
    at = wire.question_end(message)
    if message[12:at] != query[12:wire.question_end(query)]:
        raise Malformed("another question")
    sections = []
    for count in counts:
        section = []
        for _ in range(count):
            record, at = record_at(message, at)
            section.append(record)
        sections.append(section)
    if at != len(message):
        raise Malformed("octets behind the last record")
    return Reply(flags & 15, bool(flags & 0x0200), *sections)


def over_udp(port, name, seconds, qtype=wire.A):
    """The reply to a query over UDP and the seconds that it took; None where none comes in time."""
    query = wire.query(int(time.monotonic() * 1000) & 0xFFFF, name, qtype)
    with socket.socket(socket.AF_INET, socket.SOCK_DGRAM) as sock:
        sock.settimeout(seconds)
        begun = time.monotonic()
        sock.sendto(query, (LOOPBACK, port))
        try:
            message = sock.recv(4096)
        except (TimeoutError, OSError):
            return None, seconds
        return read(message, query), time.monotonic() - begun


def over_tcp(port, name, seconds, qtype=wire.A):
    """The same over TCP, on a connection of its own."""
    query = wire.query(int(time.monotonic() * 1000) & 0xFFFF, name, qtype)
    begun = time.monotonic()
    try:
        with socket.create_connection((LOOPBACK, port), seconds) as sock:
            sock.sendall(wire.frame(query))
            message = wire.read_frame(sock)
    except (TimeoutError, OSError):
        return None, seconds
    if message is None:
        return None, time.monotonic() - begun
    return read(message, query), time.monotonic() - begun
