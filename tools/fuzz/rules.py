"""The rules of policy zones by docs/PROFILE.md: which rows make them, what they do, also under an override, where they match, and which
precedes."""

import functools
import re
from typing import NamedTuple

import reading
from dns_text import TYPES

CLIENT_IP, QNAME, RESPONSE_IP, NSDNAME, NSIP = range(5)
NAMES = ("client-ip", "qname", "response-ip", "nsdname", "nsip")
KINDS = {b"rpz-client-ip": CLIENT_IP, b"rpz-ip": RESPONSE_IP, b"rpz-nsip": NSIP, b"rpz-nsdname": NSDNAME}
NEVER_LIVE = {TYPES[name] for name in ("NS", "SOA", "DNAME", "DS", "RRSIG", "NSEC", "DNSKEY", "NSEC3", "NSEC3PARAM")}
CNAME = TYPES["CNAME"]
MAPPED = 0xFFFF << 32  # the address of version 6 into which 0.0.0.0 is mapped
NXDOMAIN, NODATA, PASSTHRU, DROP, TCP_ONLY, LOCAL = range(6)
WORDS = {(): NXDOMAIN, (b"*",): NODATA, (b"rpz-passthru",): PASSTHRU, (b"rpz-drop",): DROP, (b"rpz-tcp-only",): TCP_ONLY}
OVERRIDES = {  # the words that stand alone, with the action that they give to all rules, if they do
    b"given": None, b"disabled": None, b"nxdomain": NXDOMAIN, b"nodata": NODATA, b"passthru": PASSTHRU, b"drop": DROP,
    b"tcp-only": TCP_ONLY,
}


class Override(NamedTuple):
    """What the operator says of a zone. `target`: of `cname` alone, as it is spelled."""
    word: bytes = b"given"
    target: tuple = None


class Pattern(NamedTuple):
    """A name, or all below it."""
    base: tuple
    is_wild: bool

    def matches(self, name):
        """Whether it is one for a name in lower case."""
        if not self.is_wild:
            return name == self.base
        return len(name) > len(self.base) and name[len(name) - len(self.base):] == self.base

    def labels(self):
        return (b"*", *self.base) if self.is_wild else self.base


class Prefix(NamedTuple):
    bits: int
    number: int
    length: int

    def contains(self, address):
        left = self.bits - self.length
        return 8 * len(address) == self.bits and int.from_bytes(address, "big") >> left == self.number >> left

    def order(self):
        """The longer precedes, then the smaller address, then that of version 4, which counts as mapped into version 6."""
        is_four = self.bits == 32
        return -(self.length + (96 if is_four else 0)), self.number + (MAPPED if is_four else 0), self.bits


class Rule(NamedTuple):
    """`origin`: of its zone as it was given, `soa`: its SOA record. `rows`: type, data and TTL of its local data."""
    zone: int
    kind: int
    trigger: object
    action: int
    rows: tuple
    origin: tuple
    soa: object

    def place(self):
        return self.zone, self.kind, *self.order()

    def order(self):
        if self.kind == QNAME:
            return self.trigger.is_wild, -len(self.trigger.base)
        if self.kind == NSDNAME:
            return -len(self.trigger.base), self.trigger.is_wild, canonical(self.trigger.base)
        return self.trigger.order()


def canonical(name):
    """What names compare by in canonical order (RFC 4034, section 6.1)."""
    return tuple(reversed(reading.lower(name)))


# ---- triggers


def trigger_of(labels):
    """The kind and the trigger that the labels in front of a zone's name say; None where they are inert."""
    if not labels:
        return None
    last = labels[-1]
    if not last.startswith(b"rpz-"):
        return QNAME, pattern_of(labels)
    kind = KINDS.get(last)
    if kind is None or len(labels) == 1:
        return None
    trigger = pattern_of(labels[:-1]) if kind == NSDNAME else prefix_of(labels[:-1])
    return None if trigger is None else (kind, trigger)


def pattern_of(labels):
    return Pattern(labels[1:], True) if labels[0] == b"*" else Pattern(labels, False)


def prefix_of(labels):
    """The prefix of a length and an address reversed; None where they make none."""
    first, address = labels[0], labels[1:]
    zeros = address.count(b"zz")
    if zeros == 1 and len(address) <= 8:
        at = address.index(b"zz")
        address = (*address[:at], *[b"0"] * (9 - len(address)), *address[at + 1:])
    if not re.fullmatch(rb"[0-9]{1,3}", first) or zeros > 1 or len(address) not in (4, 8) or zeros and len(address) != 8:
        return None
    is_four = len(address) == 4
    if not all(re.fullmatch(rb"[0-9]{1,3}" if is_four else rb"[0-9a-f]{1,4}", label) for label in address):
        return None
    parts = [int(label, 10 if is_four else 16) for label in reversed(address)]
    width, bits, length = (8, 32, int(first)) if is_four else (16, 128, int(first))
    if max(parts) >> width or not 1 <= length <= bits:
        return None
    number = functools.reduce(lambda high, low: high << width | low, parts)
    return None if number & (1 << bits - length) - 1 else Prefix(bits, number, length)


# ---- rules


def action_of(kind, trigger, rows):
    """What the live rows of a rule do, and its local data; None where it is inert."""
    aliases = [data for rtype, data, _ in rows if rtype == CNAME]
    if not aliases:
        return LOCAL, tuple(rows)
    if len(rows) > 1:
        return None
    name = reading.Reader(bytes(reading.HEADER) + aliases[0]).name()
    if name in WORDS:
        return WORDS[name], ()
    if len(name) == 1 and name[0].startswith(b"rpz-"):
        return None
    if kind == QNAME and name == trigger.labels():
        return PASSTHRU, ()
    return LOCAL, tuple(rows)


def overridden(rule, override):
    """The rule as it is under the override of its zone; None where it is none."""
    if override.target is not None:
        row = CNAME, reading.written(override.target), rule.soa.ttl
        return rule._replace(action=LOCAL, rows=(row,))
    if override.word == b"disabled":
        return None
    action = OVERRIDES[override.word]
    return rule if action is None else rule._replace(action=action, rows=())


def rules_of(number, origin, version, override=Override()):
    """The rules of one zone under its override."""
    made = [overridden(rule, override) for rule in rules_given(number, origin, version)]
    return [rule for rule in made if rule is not None]


def rules_given(number, origin, version):
    """The rules of one zone as its rows say them."""
    gathered = {}
    zone = reading.lower(origin)
    for (owner, rtype, data), ttl in version.rows.items():
        found = trigger_of(owner[:len(owner) - len(zone)])
        if found is not None and rtype not in NEVER_LIVE:
            gathered.setdefault(found, []).append((canonical(owner), rtype, data, ttl))
    out = []
    for (kind, trigger), rows in gathered.items():
        ttls = {}
        for _, rtype, data, ttl in sorted(rows):
            ttls.setdefault((rtype, data), ttl)
        made = action_of(kind, trigger, [(*row, ttls[row]) for row in sorted(ttls)])
        if made is not None:
            out.append(Rule(number, kind, trigger, *made, origin, version.soa))
    return sorted(out, key=Rule.place)
