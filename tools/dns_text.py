"""DNS messages as bytes and as text (RFC 1035, RFC 3597, RFC 6891). It knows no rule of policy.

Names are tuples of labels in bytes. Text is that of zone files: `\\.` and `\\065` are escapes, `@` is the origin where
there is one, and unknown types are TYPE65 with data `\\# 2 0102`.
"""
import ipaddress
import re
import shlex
from dataclasses import dataclass, field

TYPES = {
    "A": 1, "NS": 2, "MD": 3, "MF": 4, "CNAME": 5, "SOA": 6, "MB": 7, "MG": 8, "MR": 9, "NULL": 10, "PTR": 12,
    "HINFO": 13, "MINFO": 14, "MX": 15, "TXT": 16, "AAAA": 28, "SRV": 33, "DNAME": 39, "OPT": 41, "DS": 43,
    "RRSIG": 46, "NSEC": 47, "DNSKEY": 48, "NSEC3": 50, "NSEC3PARAM": 51, "IXFR": 251, "AXFR": 252, "ANY": 255,
}
CLASSES = {"IN": 1, "CH": 3, "HS": 4, "NONE": 254}
RCODES = {"NOERROR": 0, "FORMERR": 1, "SERVFAIL": 2, "NXDOMAIN": 3, "NOTIMP": 4, "REFUSED": 5}
# What stands in the data of a type: names, numbers of so many bytes, and `rest`.
LAYOUTS = {2: "n", 3: "n", 4: "n", 5: "n", 6: "nn44444", 7: "n", 8: "n", 9: "n", 12: "n", 14: "nn", 15: "2n",
           33: "222n", 39: "n"}
# The types whose names are compressed in replies: those of RFC 1035, and not SRV and DNAME (RFC 3597, section 4).
REPLY_TYPES = LAYOUTS.keys() - {33, 39}
# The bits of the second line of a header, from the highest on; the opcode and the rcode have places of their own.
FLAGS = {"qr": 0x8000, "aa": 0x0400, "tc": 0x0200, "rd": 0x0100, "ra": 0x0080, "z": 0x0040, "ad": 0x0020, "cd": 0x0010}


class Refused(Exception):
    """The text or the bytes are not what is wanted there."""


@dataclass
class Record:
    owner: tuple
    ttl: int
    rclass: int
    rtype: int
    parts: list  # of the data: bytes, and tuples for names
    # of one that was read from bytes: the ends of its names for which a pointer stands, each with the place to which that leads
    pointers: list = field(default_factory=list, compare=False)


@dataclass
class Question:
    name: tuple
    qtype: int
    qclass: int = 1


@dataclass
class Message:
    id: int = 0
    flags: tuple = ()
    opcode: int = 0
    rcode: int = 0
    questions: list = field(default_factory=list)
    answer: list = field(default_factory=list)
    authority: list = field(default_factory=list)
    additional: list = field(default_factory=list)

    def sections(self):
        return (("answer", self.answer), ("authority", self.authority), ("additional", self.additional))


# ---- names, types and numbers as text

def name_of(text, origin=None):
    """Labels of a name. With an origin a name without a last dot is relative to it, as in a zone file."""
    if text == "@" and origin is not None:
        return origin
    if text == ".":
        return ()
    labels, label, place = [], b"", 0
    absolute = False
    while place < len(text):
        c = text[place]
        if c == "\\" and re.match(r"\d{3}", text[place + 1:]):
            label += bytes([int(text[place + 1:place + 4])])
            place += 4
        elif c == "\\":
            label += text[place + 1].encode()
            place += 2
        elif c == ".":
            labels.append(label)
            label, place = b"", place + 1
            absolute = place == len(text)
        else:
            label += c.encode()
            place += 1
    if not absolute:
        labels.append(label)
    if any(not 0 < len(one) < 64 for one in labels):
        raise Refused(f"no name: {text}")
    if not absolute and origin is not None:
        labels += origin
    return tuple(labels)


def text_of_label(label):
    plain = re.compile(rb"[-_*A-Za-z0-9/=+]")
    out = ""
    for value in label:
        one = bytes([value])
        out += one.decode() if plain.fullmatch(one) else f"\\{value:03}"
    return out


def text_of_name(name, origin=None):
    """Without a last dot; relative to the origin, if there is one and the name is below it, else with a last dot."""
    if origin is None:
        return ".".join(map(text_of_label, name)) or "."
    if name == origin:
        return "@"
    if len(name) > len(origin) and name[len(name) - len(origin):] == origin:
        return ".".join(map(text_of_label, name[:len(name) - len(origin)]))
    return ".".join(map(text_of_label, name)) + "."


def number_of(text, most):
    if not text.isdigit() or int(text) > most:
        raise Refused(f"no number up to {most}: {text}")
    return int(text)


def type_of(text):
    if text in TYPES:
        return TYPES[text]
    if re.fullmatch(r"TYPE\d{1,5}", text):
        return number_of(text[4:], 65535)
    raise Refused(f"no type: {text}")


def class_of(text):
    if text in CLASSES:
        return CLASSES[text]
    if re.fullmatch(r"CLASS\d{1,5}", text):
        return number_of(text[5:], 65535)
    raise Refused(f"no class: {text}")


def is_class(text):
    return text in CLASSES or text.startswith("CLASS")


def text_of_type(number):
    return next((name for name, value in TYPES.items() if value == number), f"TYPE{number}")


def text_of_class(number):
    return next((name for name, value in CLASSES.items() if value == number), f"CLASS{number}")


def text_of_rcode(number):
    return next((name for name, value in RCODES.items() if value == number), f"RCODE{number}")


def rcode_of(text):
    if text in RCODES:
        return RCODES[text]
    if re.fullmatch(r"RCODE\d{1,2}", text):
        return number_of(text[5:], 15)
    raise Refused(f"no rcode: {text}")


# ---- records as text

def text_of_data(record, origin=None):
    data = b"".join(part for part in record.parts if isinstance(part, bytes))
    whole = all(isinstance(part, bytes) for part in record.parts)
    if record.rtype == 1 and record.rclass == 1 and whole and len(data) == 4:
        return str(ipaddress.IPv4Address(data))
    if record.rtype == 28 and record.rclass == 1 and whole and len(data) == 16:
        return str(ipaddress.IPv6Address(data))
    if record.rtype == 16 and whole and data and strings_of(data) is not None:
        return " ".join('"' + "".join(chr(c) if 32 <= c < 127 and c not in b'"\\' else f"\\{c:03}" for c in one) + '"'
                        for one in strings_of(data))
    if record.rtype == 6 and origin is not None and record.parts[:2] == [(), ()] and record.parts[3:] == usual_soa(b"")[3:]:
        return f"serial {int.from_bytes(record.parts[2], 'big')}"
    if record.rtype in LAYOUTS and not whole:
        return " ".join(text_of_name(part, origin) if isinstance(part, tuple) else str(int.from_bytes(part, "big"))
                        for part in record.parts)
    return f"\\# {len(data)} {data.hex()}".rstrip()


def usual_soa(serial):
    """The data that `SOA serial N` stands for: both names the root, 3600, 600, 86400 and 60 seconds."""
    return [(), (), serial, *(number.to_bytes(4, "big") for number in (3600, 600, 86400, 60))]


def strings_of(data):
    """The character strings of a TXT record (RFC 1035, section 3.3.14), if it has such."""
    out, place = [], 0
    while place < len(data):
        end = place + 1 + data[place]
        if end > len(data):
            return None
        out.append(data[place + 1:end])
        place = end
    return out


def data_of(rtype, words, origin=None):
    if words[:1] == ["\\#"]:
        data = bytes.fromhex("".join(words[2:]))
        if len(data) != number_of(words[1], 65535):
            raise Refused("the data isn't as long as it says")
        return [data]
    if rtype == 1:
        return [ipaddress.IPv4Address(words[0]).packed]
    if rtype == 28:
        return [ipaddress.IPv6Address(words[0]).packed]
    if rtype == 16:
        texts = [re.sub(rb"\\(\d{3})", lambda m: bytes([int(m[1])]), word.encode()) for word in words]
        return [b"".join(bytes([len(one)]) + one for one in texts)]
    if rtype == 6 and words[:1] == ["serial"]:
        return usual_soa(number_of(words[1], 2 ** 32 - 1).to_bytes(4, "big"))
    if rtype not in LAYOUTS or len(words) != len(LAYOUTS[rtype]):
        raise Refused(f"no data of the type {text_of_type(rtype)}: {' '.join(words)}")
    return [name_of(word, origin) if kind == "n" else number_of(word, 2 ** (8 * int(kind)) - 1).to_bytes(int(kind), "big")
            for kind, word in zip(LAYOUTS[rtype], words)]


def text_of_record(record, origin=None, ttl=None):
    words = [text_of_name(record.owner, origin)]
    if record.ttl != ttl:
        words.append(str(record.ttl))
    if record.rclass != 1:
        words.append(text_of_class(record.rclass))
    return " ".join([*words, text_of_type(record.rtype), text_of_data(record, origin)])


def record_of(text, origin=None, ttl=None):
    """`OWNER [TTL] [CLASS] TYPE DATA`; the TTL may be left out where there is one to take."""
    try:
        words = shlex.split(text, posix=False)
    except ValueError as error:
        raise Refused(f"{error}: {text}") from None
    words = [word[1:-1] if len(word) > 1 and word[0] == word[-1] == '"' else word for word in words]
    if len(words) < 3:
        raise Refused(f"no record: {text}")
    owner = name_of(words.pop(0), origin)
    if words[0].isdigit():
        ttl = number_of(words.pop(0), 2 ** 32 - 1)
    if ttl is None:
        raise Refused(f"no TTL: {text}")
    rclass = class_of(words.pop(0)) if is_class(words[0]) else 1
    rtype = type_of(words.pop(0))
    return Record(owner, ttl, rclass, rtype, data_of(rtype, words, origin))


# ---- messages as bytes

class Writer:
    """Bytes of a message. A compressed name ends in a pointer to the first place where its longest rest stands (RFC 1035, section
    4.1.4); such places are in compressed names alone. `types`: those whose data have compressed names; None: no name is compressed."""

    def __init__(self, types):
        self.out, self.places, self.types = bytearray(), {}, types

    def name(self, name, rtype=None):
        """The name of a question or of an owner, or in data of a type."""
        compressed = self.types is not None and (rtype is None or rtype in self.types)
        for place, label in enumerate(name):
            rest = name[place:]
            if compressed and rest in self.places:
                self.number(0xC000 | self.places[rest], 2)
                return
            if compressed and len(self.out) < 0x4000:
                self.places[rest] = len(self.out)
            self.out += bytes([len(label)]) + label
        self.out.append(0)

    def number(self, value, width):
        self.out += value.to_bytes(width, "big")

    def record(self, record):
        self.name(record.owner)
        self.number(record.rtype, 2)
        self.number(record.rclass, 2)
        self.number(record.ttl, 4)
        place = len(self.out)
        self.number(0, 2)
        for part in record.parts:
            if isinstance(part, tuple):
                self.name(part, record.rtype)
            else:
                self.out += part
        self.out[place:place + 2] = (len(self.out) - place - 2).to_bytes(2, "big")

    def message(self, message):
        bits = message.opcode << 11 | message.rcode | sum(FLAGS[flag] for flag in message.flags)
        self.number(message.id, 2)
        self.number(bits, 2)
        for part in (message.questions, message.answer, message.authority, message.additional):
            self.number(len(part), 2)
        for question in message.questions:
            self.name(question.name)
            self.number(question.qtype, 2)
            self.number(question.qclass, 2)
        for _, records in message.sections():
            for record in records:
                self.record(record)
        return bytes(self.out)


def encode(message, compressed=False):
    """The message with its names in full, or with all of them compressed."""
    return Writer(LAYOUTS.keys() if compressed else None).message(message)


def encode_reply(message):
    """The message as a reply is written."""
    return Writer(REPLY_TYPES).message(message)


def read_name(octets, place, pointers=None):
    """The labels of a name, and the place behind it. Puts behind `pointers` what its first pointer stands for, and where that leads."""
    labels, after, pointer = [], None, None
    for _ in range(len(octets) + 1):
        if place >= len(octets):
            raise Refused("the name reaches past the end")
        length = octets[place]
        if length == 0:
            if pointer is not None and pointers is not None:
                pointers.append((tuple(labels[pointer[0]:]), pointer[1]))
            return tuple(labels), place + 1 if after is None else after
        if length >= 0xC0:
            if place + 1 >= len(octets):
                raise Refused("the pointer reaches past the end")
            target = (length & 0x3F) << 8 | octets[place + 1]
            if after is None:
                after, pointer = place + 2, (len(labels), target)
            place = target
        elif length > 63 or place + 1 + length > len(octets):
            raise Refused("no label")
        else:
            labels.append(octets[place + 1:place + 1 + length])
            place += 1 + length
    raise Refused("the pointers lead in a circle")


def read_number(octets, place, width):
    if place + width > len(octets):
        raise Refused("the number reaches past the end")
    return int.from_bytes(octets[place:place + width], "big"), place + width


def read_record(octets, place):
    pointers = []
    owner, place = read_name(octets, place, pointers)
    rtype, place = read_number(octets, place, 2)
    rclass, place = read_number(octets, place, 2)
    ttl, place = read_number(octets, place, 4)
    length, place = read_number(octets, place, 2)
    end = place + length
    if end > len(octets):
        raise Refused("the data reaches past the end")
    parts = []
    for kind in LAYOUTS.get(rtype, ""):
        if kind == "n":
            part, place = read_name(octets, place, pointers)
        else:
            part, place = octets[place:place + int(kind)], place + int(kind)
        parts.append(part)
    if not parts:
        parts, place = [octets[place:end]], end
    if place != end:
        raise Refused("the data isn't as long as it says")
    return Record(owner, ttl, rclass, rtype, parts, pointers), end


def decode(octets):
    numbers = []
    place = 0
    for _ in range(6):
        number, place = read_number(octets, place, 2)
        numbers.append(number)
    bits = numbers[1]
    message = Message(numbers[0], tuple(flag for flag, bit in FLAGS.items() if bits & bit), bits >> 11 & 15, bits & 15)
    for _ in range(numbers[2]):
        name, place = read_name(octets, place)
        qtype, place = read_number(octets, place, 2)
        qclass, place = read_number(octets, place, 2)
        message.questions.append(Question(name, qtype, qclass))
    for (_, records), count in zip(message.sections(), numbers[3:]):
        for _ in range(count):
            record, place = read_record(octets, place)
            records.append(record)
    if place != len(octets):
        raise Refused("bytes behind the last record")
    return message


def frames(stream):
    """The messages of a stream, each behind its length, and what is left where the last is cut."""
    out, place = [], 0
    while place + 2 <= len(stream):
        end = place + 2 + int.from_bytes(stream[place:place + 2], "big")
        if end > len(stream):
            break
        out.append(stream[place + 2:end])
        place = end
    return out, stream[place:]


def framed(message):
    if len(message) > 65535:
        raise Refused(f"a message of over 65,535 bytes: {len(message)}")
    return len(message).to_bytes(2, "big") + message


# ---- the OPT record (RFC 6891): size, version, extended rcode, DO and options

def opt_of(size, version=0, extended=0, dnssec_ok=False, options=b""):
    return Record((), extended << 24 | version << 16 | (0x8000 if dnssec_ok else 0), size, 41, [options])


def is_opt(record):
    return record.rtype == 41 and record.owner == () and not record.ttl & 0x7FFF and len(record.parts) == 1


def text_of_opt(record):
    text = f"edns {record.rclass}"
    if record.ttl >> 16 & 255:
        text += f" version {record.ttl >> 16 & 255}"
    if record.ttl >> 24:
        text += f" extended {record.ttl >> 24}"
    if record.ttl & 0x8000:
        text += " do"
    return text + (f" options {record.parts[0].hex()}" if record.parts[0] else "")


def opt_of_words(words):
    """Takes the words of an OPT record from the front of a list, behind the word `edns`."""
    values = {"version": 0, "extended": 0}
    size = number_of(words.pop(0), 65535)
    dnssec_ok, options = False, b""
    while words and words[0] in ("version", "extended", "do", "options"):
        word = words.pop(0)
        if word == "do":
            dnssec_ok = True
        elif word == "options":
            options = bytes.fromhex(words.pop(0))
        else:
            values[word] = number_of(words.pop(0), 255)
    return opt_of(size, values["version"], values["extended"], dnssec_ok, options)
