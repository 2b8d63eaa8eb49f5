"""Networks of clients, and who may ask, by docs/FORMATS.md, written from that page; and texts of networks, drawn by chance. Addresses are
octets, 4 or 16 of them."""

import ipaddress
import re
from typing import NamedTuple

MOST = 64
LENGTH = re.compile(r"[0-9]{1,3}")
DECIMALS = re.compile(r"([0-9]{1,3})\.([0-9]{1,3})\.([0-9]{1,3})\.([0-9]{1,3})")
GROUP = re.compile(r"[0-9A-Fa-f]{1,4}")
NO_TEXTS = ("10.0.0.0", "/8", "10.0.0.0/", "10.0.0.0/33", "10.0.0.1/8", "::/129", "::1/127", "1::2::/64", "1:2:3:4:5:6:7/64", ":::/0",
            "::1.2.3.04/128", "1.2.3.4::/128", "fe80::%1/128", "[::]/0", "10.0.0.0/0008", "10.0.0.0/+8", "300.0.0.0/8", "any")
ODD_TEXTS = (*NO_TEXTS, "010.0.0.0/08", "0.0.0.0/0", "::/0", "::/000", "1:2:3:4:5:6:7::/112", "ABCD::/16", "::1.2.3.4/128")
CHARACTERS = "019aFg:./%[-"


class Network(NamedTuple):
    address: bytes
    length: int

    def contains(self, address):
        behind = 8 * len(address) - self.length
        return len(address) == len(self.address) and number_of(address) >> behind == number_of(self.address) >> behind


def number_of(address):
    return int.from_bytes(address, "big")


def may_ask(networks, address):
    """Whether a client may ask: everyone may, where there are no networks."""
    return not networks or any(network.contains(address) for network in networks)


# ---- reading texts


def read(text):
    """The network that a text is, or None."""
    address, slash, length = text.partition("/")
    packed = read_v6(address) if ":" in address else read_v4(address)
    if not slash or packed is None or not LENGTH.fullmatch(length) or int(length) > 8 * len(packed):
        return None
    has_bits_behind = number_of(packed) % (1 << 8 * len(packed) - int(length)) != 0
    return None if has_bits_behind else Network(packed, int(length))


def read_v4(text):
    """Four decimals of up to three digits, with leading zeros or without."""
    found = DECIMALS.fullmatch(text)
    return bytes(map(int, found.groups())) if found and all(int(part) < 256 for part in found.groups()) else None


def read_v6(text):
    """RFC 4291, section 2.2, without a zone index. A library of others has to read the same."""
    packed = packed_of(text)
    try:
        theirs = ipaddress.IPv6Address(text).packed
    except ValueError:
        theirs = None
    if "%" not in text and packed != theirs:
        raise RuntimeError(f"ipaddress reads {theirs} in {text}, and not {packed}")
    return packed


def packed_of(text):
    head, elision, tail = text.partition("::")
    if not elision:
        groups = groups_of(text, True)
        return octets_of(groups) if groups is not None and len(groups) == 8 else None
    before = groups_of(head, False) if head else []
    after = groups_of(tail, True) if tail else []
    if before is None or after is None or len(before) + len(after) > 7:
        return None
    return octets_of([*before, *[0] * (8 - len(before) - len(after)), *after])


def groups_of(text, may_end_in_decimals):
    """The groups that colons separate, of which the last may be four decimals without leading zeros; None where one is none."""
    *first, last = text.split(":")
    end = [last]
    if may_end_in_decimals and "." in last:
        packed = read_v4(last)
        if packed is None or any(len(part) > 1 and part[0] == "0" for part in last.split(".")):
            return None
        end = [packed[:2].hex(), packed[2:].hex()]
    groups = [*first, *end]
    return [int(group, 16) for group in groups] if all(map(GROUP.fullmatch, groups)) else None


def octets_of(groups):
    return b"".join(group.to_bytes(2, "big") for group in groups)


# ---- drawing texts


def drawn(chance, addresses):
    """Texts of different networks, most of which have one of these addresses in them."""
    networks = {}
    for _ in range(chance.choice((2, 3, 5, 8, MOST))):
        address = chance.choice(addresses) if chance.random() < 0.85 else chance.randbytes(chance.choice((4, 16)))
        width = 8 * len(address)
        length = chance.choice((width, width, width - 1, width // 2, chance.randrange(width + 1), chance.randrange(2)))
        behind = width - length
        network = Network((number_of(address) >> behind << behind).to_bytes(len(address), "big"), length)
        networks.setdefault(network, spelled(chance, network))
    return list(networks.values())


def spelled(chance, network):
    """A text of the network."""
    length = f"{network.length:0{chance.choice((1, 1, 2, 3))}}"
    if len(network.address) == 4:
        return ".".join(f"{part:0{chance.choice((1, 1, 1, 2, 3))}}" for part in network.address) + f"/{length}"
    address = ipaddress.IPv6Address(network.address)
    text = chance.choice((str(address), str(address), address.exploded, decimals_of(network.address)))
    return f"{text.upper() if chance.random() < 0.2 else text}/{length}"


def decimals_of(address):
    """Six groups and four decimals; four groups in front that are 0 are left out."""
    groups = [address[at: at + 2].hex() for at in range(0, 12, 2)]
    text = ":".join([*groups, ".".join(map(str, address[12:]))])
    return "::" + text.removeprefix("0000:" * 4) if text.startswith("0000:" * 4) else text


def odd(chance, text):
    """A text with a character changed, put in or left out; or another text, which mostly is no network."""
    if chance.random() < 0.3 or not text:
        return chance.choice(ODD_TEXTS)
    at, more = chance.randrange(len(text)), chance.choice(CHARACTERS)
    return text[:at] + chance.choice((more, more + text[at], "")) + text[at + 1:]
