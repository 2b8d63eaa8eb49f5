"""What comes of a transfer by docs/FORMATS.md and the faults of docs/OPERATING.md, written from these pages: the line of it, and what the
zone is behind it."""

from dataclasses import dataclass, field, replace

import reading
from dns_text import TYPES

SERIALS = 1 << 32


class Fault(Exception):
    """The transfer is refused for this."""


class Current(Exception):
    """The zone stays; this is the serial of the primary."""


def fault_if(is_wrong, said):
    if is_wrong:
        raise Fault(said)


def is_newer(ours, theirs):
    """Whether theirs is newer (RFC 1982, section 3.2)."""
    return 0 < (theirs - ours) % SERIALS < SERIALS // 2


@dataclass
class Version:
    """A zone: its name, the serial (None where nothing is loaded), the rows (owner, type and data, in lower case) with their TTLs, whether
    it is marked, and the SOA record of its version."""
    name: tuple
    serial: int = None
    rows: dict = field(default_factory=dict)
    is_marked: bool = False
    soa: reading.Record = None

    def asks_for_steps(self):
        return self.serial is not None and not self.is_marked


@dataclass
class Incoming:
    """What was read of a transfer. `steps`: of each the rows that go and those that come, None where the zone comes whole. `soa`: that of
    the version to which it leads."""
    version: Version
    soa: reading.Record = None
    first: int = None
    rows: list = field(default_factory=list)
    steps: list = None
    at: int = None  # the serial of the last SOA of a step
    is_closed: bool = False
    records: int = 0

    def take(self, message, record):
        """Takes in an answer record; `Fault` and `Current` as it shows one."""
        fault_if(self.is_closed, "TrailingRecord")
        is_soa = record.rtype == TYPES["SOA"]
        fault_if(self.records == 0 and not is_soa, "NoLeadingSoa")
        self.records += 1
        fault_if(record.rclass != reading.IN, "WrongClass")
        owner, zone = reading.lower(record.owner), self.version.name
        if not is_soa:
            fault_if(owner[max(0, len(owner) - len(zone)):] != zone, "OutOfZone")
            rows = self.rows if self.steps is None else self.steps[-1][-1]
            rows.append(((owner, record.rtype, record.low), record.ttl))
            return
        fault_if(owner != zone, "WrongSoaOwner")
        self.take_soa(message, record)

    def take_soa(self, message, record):
        serial = int.from_bytes(record.octets[-20:-16], "big")
        if self.records == 1:
            self.soa = record
            self.take_first(message, serial)
        elif self.records == 2 and self.version.asks_for_steps() and serial != self.first:
            fault_if(serial != self.version.serial, f"Gap {self.version.serial} {serial}")
            self.steps, self.at = [([],)], serial
        elif self.steps is None or self.at == self.first and len(self.steps[-1]) == 2:
            fault_if(serial != self.first, f"SoaDiffers {self.first} {serial}")
            self.is_closed = True
        elif len(self.steps[-1]) == 1:
            fault_if(not is_newer(self.at, serial), f"SerialNotNewer {self.at} {serial}")
            self.steps[-1], self.at, self.soa = (*self.steps[-1], []), serial, record
        else:
            fault_if(serial != self.at, f"Gap {self.at} {serial}")
            self.steps.append(([],))

    def take_first(self, message, serial):
        ours, self.first = self.version.serial, serial
        if ours is None:
            return
        is_alone = self.version.asks_for_steps() and len(message.answer) == 1
        if serial == ours or is_alone and not is_newer(ours, serial):
            raise Current(serial)
        fault_if(not is_newer(ours, serial), f"SerialNotNewer {ours} {serial}")


def check_message(octets, version, number, is_first):
    """The message, without the faults that it may have as a whole."""
    message = reading.readable(octets)
    fault_if(message is None, "BadMessage")
    fault_if(message.number != number, "WrongId")
    fault_if(not message.bit(0x8000) or message.opcode() != 0, "NotResponse")
    fault_if(message.bit(0x0200), "Truncated")
    fault_if(message.rcode() != 0, f"Rcode {message.rcode()}")
    types = ("AXFR", "IXFR") if version.asks_for_steps() else ("AXFR",)
    fits = any(message.asks(version.name, TYPES[name], reading.IN) for name in types)
    fault_if(not fits and (is_first or message.name is not None), "WrongQuestion")
    return message


def read_stream(version, octets, number):
    """What a stream brings, read up to the message in which the transfer is closed."""
    incoming, at = Incoming(version), 0
    while not incoming.is_closed:
        fault_if(at == len(octets), "EndedEarly")
        end = at + 2 + int.from_bytes(octets[at: at + 2], "big")
        fault_if(at + 2 > len(octets) or end > len(octets), "Cut")
        message = check_message(octets[at + 2: end], version, number, at == 0)
        for record in message.answer:
            incoming.take(message, record)
        at = end
    return incoming


def applied(version, incoming):
    """The rows behind a transfer; of equal ones the first is kept."""
    if incoming.steps is None:
        return dict(reversed(incoming.rows))
    rows = dict(version.rows)
    for step, (gone, come) in enumerate(incoming.steps, 1):
        for number, (row, _) in enumerate(gone, 1):
            fault_if(row not in rows, f"DeleteAbsent {step} {number}")
            del rows[row]
        for number, (row, ttl) in enumerate(come, 1):
            fault_if(row in rows, f"AddPresent {step} {number}")
            rows[row] = ttl
    return rows


def taken(version, octets, number):
    """What comes of a transfer, as a line without the number of the zone, and the version behind it."""
    try:
        incoming = read_stream(version, octets, number)
        rows = applied(version, incoming)
    except Current as current:
        return f"current {current}", replace(version, is_marked=False)
    except Fault as fault:
        return f"refused {fault}", replace(version, is_marked=version.is_marked or version.asks_for_steps())
    return f"taken {incoming.first} {len(rows)}", Version(version.name, incoming.first, rows, False, incoming.soa)
