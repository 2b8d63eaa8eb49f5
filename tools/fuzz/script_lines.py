"""The lines of a script by docs/FORMATS.md: which is the first that is refused, and why; written from that page."""

import re
from dataclasses import dataclass, field

import networks
import rules

MOST_LINE, MOST_MESSAGE, MOST_ZONES, MOST_NUMBER, WORKERS = 200_000, 65_535, 64, 4_294_967_295, 16
FORMS = {
    b"zone": ("name",), b"primary": ("zone", "address"), b"allow": ("network",), b"xfer": ("zone", "octets"), b"full": ("zone",),
    b"query": ("worker", "transport", "address", "message"), b"give": ("worker", "message"), b"fail": ("worker",),
    b"notify": ("address", "octets"), b"due": (), b"clock": ("number",),
}
TARGET = b"cname"  # the override that is followed by a name
ANSWERED = (b"xfer", b"query", b"give", b"fail", b"notify", b"due")
LABEL = re.compile(rb"[-A-Za-z0-9_*]{1,63}")


class Refused(Exception):
    """The line is refused for this."""


def refuse_if(is_wrong, why):
    if is_wrong:
        raise Refused(why)


def form_of(word, texts):
    """The kinds that the fields behind a word must have; those of `zone` may have an override, too."""
    if word != b"zone" or len(texts) < 2:
        return FORMS[word]
    return ("name", "override", "name") if texts[1] == TARGET else ("name", "override")


@dataclass
class State:
    """What a line is read by: the zones by their names in lower case, and as they are spelled; their overrides, each a word and a target;
    their primaries; the networks of clients that may ask; and the workers with a pending query."""
    zones: list = field(default_factory=list)
    spelled: list = field(default_factory=list)
    overrides: list = field(default_factory=list)
    primaries: dict = field(default_factory=dict)
    allowed: list = field(default_factory=list)
    is_running: bool = False
    pending: dict = field(default_factory=dict)

    def read(self, line):
        """The word of a line and its fields as values, or None where it is skipped. Zones, primaries and networks are taken in."""
        refuse_if(len(line) > MOST_LINE, "TooLong")
        refuse_if(any(not 32 <= value <= 126 for value in line), "Char")
        if not line or line.startswith(b"#"):
            return None
        word, *texts = line.split(b" ")
        refuse_if(word not in FORMS, "Word")
        form = form_of(word, texts)
        refuse_if(len(texts) != len(form) or b"" in texts, "Fields")
        values = [getattr(self, kind)(text) for kind, text in zip(form, texts, strict=True)]
        self.take(word, values)
        return word, values

    def take(self, word, values):
        if word == b"zone":
            refuse_if(self.is_running, "Late")
            refuse_if(len(self.zones) >= MOST_ZONES, "Many")
            low = tuple(label.lower() for label in values[0])
            refuse_if(low in self.zones, "Repeated")
            self.zones.append(low)
            self.spelled.append(values[0])
            self.overrides.append(rules.Override(*values[1:]))
        elif word == b"primary":
            refuse_if(self.is_running, "Late")
            refuse_if(values[0] in self.primaries, "Repeated")
            self.primaries[values[0]] = values[1]
        elif word == b"allow":
            refuse_if(self.is_running, "Late")
            refuse_if(len(self.allowed) >= networks.MOST, "Many")
            refuse_if(values[0] in self.allowed, "Repeated")
            self.allowed.append(values[0])
        else:
            self.is_running = True
            refuse_if(word == b"query" and values[0] in self.pending, "Busy")
            refuse_if(word in (b"give", b"fail") and values[0] not in self.pending, "Idle")

    # -- fields

    def name(self, text):
        labels = text.removesuffix(b".").split(b".")
        refuse_if(not all(LABEL.fullmatch(label) for label in labels), "Name")
        refuse_if(sum(len(label) + 1 for label in labels) + 1 > 255, "Name")
        return tuple(labels)

    def override(self, text):
        refuse_if(text != TARGET and text not in rules.OVERRIDES, "Override")
        return text

    def number(self, text):
        refuse_if(not re.fullmatch(rb"[0-9]{1,10}", text) or int(text) > MOST_NUMBER, "Number")
        return int(text)

    def zone(self, text):
        number = self.number(text)
        refuse_if(not 1 <= number <= len(self.zones), "NoZone")
        return number

    def worker(self, text):
        number = self.number(text)
        refuse_if(number >= WORKERS, "NoWorker")
        return number

    def transport(self, text):
        refuse_if(text not in (b"udp", b"tcp"), "Transport")
        return text.decode()

    def address(self, text):
        if re.fullmatch(rb"[0-9A-Fa-f]{32}", text):
            return bytes.fromhex(text.decode())
        is_four = re.fullmatch(rb"([0-9]{1,3})\.([0-9]{1,3})\.([0-9]{1,3})\.([0-9]{1,3})", text)
        refuse_if(not is_four or any(int(number) > 255 for number in is_four.groups()), "Address")
        return bytes(map(int, is_four.groups()))

    def network(self, text):
        network = networks.read(text.decode())
        refuse_if(network is None, "Prefix")
        return network

    def octets(self, text):
        if text == b"-":
            return b""
        refuse_if(len(text) % 2 or not re.fullmatch(rb"[0-9A-Fa-f]*", text), "Hex")
        return bytes.fromhex(text.decode())

    def message(self, text):
        octets = self.octets(text)
        refuse_if(len(octets) > MOST_MESSAGE, "Long")
        return octets
