"""What dig and kdig print of replies, read as records: names and strings with their escapes (RFC 1035, section 5.1), and data that are
printed as octets (RFC 3597, section 5). The OPT record stands apart in what they print, and must be the one that replies have."""

import re
from dataclasses import dataclass, field

import dns_text
import reading
from dns_text import LAYOUTS, TYPES
from world import Reply

HEADER = re.compile(r";; ->>HEADER<<- opcode: QUERY[,;] status: ([A-Z]+)[,;] id: \d+")
FLAGS = re.compile(r";; [Ff]lags: ([a-z ]+); QUERY: 1[,;] ANSWER: \d+[,;] AUTHORITY: \d+[,;] ADDITIONAL: \d+")
SECTION = re.compile(r";; (OPT|EDNS|QUESTION|ANSWER|AUTHORITY|ADDITIONAL) (PSEUDO)?SECTION:")
SECTIONS = ("ANSWER", "AUTHORITY", "ADDITIONAL")
OPT = re.compile(r"; EDNS: version: 0, flags:; udp: 1232|;; Version: 0; flags: ; UDP size: 1232 B; ext-rcode: NOERROR")
QUESTION = re.compile(r";+ ?(\S+)\s+IN\s+(\S+)")
WORD = re.compile(r'"(?:[^"\\]|\\.)*"|(?:[^\s"\\]|\\.)+')
ESCAPED = re.compile(rb"\\(\d{3}|.)")


class Unread(Exception):
    """A line that isn't known."""


def name_of(text):
    if not text.endswith("."):
        raise Unread(text)
    return dns_text.name_of(text)


def string_of(word):
    """The octets of a character string in quotes, behind their length."""
    octets = ESCAPED.sub(lambda found: found[1] if len(found[1]) == 1 else bytes([int(found[1])]), word[1:-1].encode("latin-1"))
    return bytes([len(octets)]) + octets


def octets_of(rtype, words):
    """Data with names in full."""
    if words[:1] != ["\\#"]:
        if rtype == TYPES["TXT"]:
            return b"".join(map(string_of, words))
        if any(kind == "n" and not word.endswith(".") for kind, word in zip(LAYOUTS.get(rtype, ""), words)):
            raise Unread(" ".join(words))
    return b"".join(reading.written(part) if isinstance(part, tuple) else part for part in dns_text.data_of(rtype, words))


def row_of(line):
    owner, ttl, rclass, rtype, *words = WORD.findall(line)
    rtype = dns_text.type_of(rtype)
    return name_of(owner), rtype, dns_text.class_of(rclass), int(ttl), octets_of(rtype, words)


@dataclass
class Block:
    """The lines of one reply so far, or others, without an rcode. `unread`: the first that isn't known."""
    rcode: int = None
    flags: list = field(default_factory=list)
    name: tuple = None
    qtype: int = None
    rows: dict = field(default_factory=lambda: {word: [] for word in SECTIONS})
    section: str = None
    unread: str = None

    def take(self, line):
        if found := FLAGS.fullmatch(line):
            self.flags = found[1].split()
        elif found := SECTION.fullmatch(line):
            self.section = found[1]
        elif self.section in SECTIONS and not line.startswith(";"):
            self.rows[self.section].append(row_of(line))
        elif self.section == "QUESTION" and (found := QUESTION.fullmatch(line.rstrip())):
            self.name, self.qtype = name_of(found[1]), dns_text.type_of(found[2])
        elif not OPT.fullmatch(line):
            raise Unread(line)

    def answers(self, question):
        return self.name is not None and (reading.lower(self.name), self.qtype) == (reading.lower(question.name), question.qtype)

    def reply(self):
        """What it says, or, in words, why it can't be read."""
        if self.unread is not None:
            return f"a line that isn't known: {self.unread}"
        return Reply(self.rcode, "tc" in self.flags, self.name, self.qtype, list(self.rows.values()))


def blocks_of(text):
    """Lines that aren't known stand in the block of the reply that they are in, or in one of their own in front of the next."""
    blocks = []
    for line in text.splitlines():
        if found := HEADER.fullmatch(line):
            blocks.append(Block(dns_text.rcode_of(found[1])))
        elif line not in ("", ";; Got answer:"):
            try:
                blocks[-1].take(line)
            except (Unread, dns_text.Refused, ValueError, IndexError):
                if not blocks or line.startswith(";") and blocks[-1].name is not None:
                    blocks.append(Block())
                blocks[-1].unread = blocks[-1].unread or line
    return blocks


def replies_of(text, questions):
    """Of each of these questions, which were asked in this order, what its reply says, or why there is none, in words."""
    blocks, replies = blocks_of(text), []
    for question in questions:
        said = None
        while blocks and blocks[0].rcode is None:
            said = blocks.pop(0).reply()
        reply = blocks.pop(0).reply() if blocks and blocks[0].answers(question) else "no reply is printed"
        replies.append(reply if said is None else said)
    if blocks:
        replies[-1] = "lines that belong to no question"
    return replies
