"""Steps of scenarios, as text, and the lines of scripts and transcripts that they stand for. It knows no rule of policy.

scenarios/README says what a step may be. `Reader` turns steps into lines; `Shower` turns lines into steps. Both keep what
later lines leave unsaid: the zones, for each worker its query and what was asked upstream, and the last NOTIFY.
"""
import ipaddress
import re
from dataclasses import replace

from dns_text import (
    FLAGS, Message, Question, Refused, decode, encode, encode_reply, name_of, rcode_of, text_of_name, text_of_rcode,
)
from message_text import (
    digits_of, octets_of, read_sections, read_words, shown, take, take_number, take_question, text_of_question, with_notes,
)
from transfer_text import streams_of, text_of_stream

RANGE = re.compile(r"\{(\d+)\.\.(\d+)\}")
ZONE_OUTPUTS = ("taken", "current", "refused")
NOTIFY_OUTPUTS = ("notified", "hush")
OUTPUTS = (*ZONE_OUTPUTS, *NOTIFY_OUTPUTS, "due", "ask", "reply", "silent")
NOTIFY, SOA = 4, 6  # an opcode, a type of records


# ---- what a worker waits with

class Worker:
    """Its query, if one is known, and the question that was asked upstream for it."""

    def __init__(self):
        self.query, self.asked = None, None

    def takes(self, octets):
        """Keeps what a reply to these bytes has in common with them."""
        try:
            self.query = decode(octets)
        except Refused:
            bits = int.from_bytes(octets[2:4], "big")
            flags = ("rd",) if bits & FLAGS["rd"] else ()
            self.query = Message(int.from_bytes(octets[:2], "big"), flags, bits >> 11 & 15) if len(octets) >= 12 else None

    def usual_reply(self):
        query = self.query or Message()
        flags = ("qr", "rd", "ra") if "rd" in query.flags else ("qr", "ra")
        questions = query.questions if len(query.questions) == 1 else []
        return Message(query.id, flags if self.query else (), query.opcode, 0, questions)

    def usual_answer(self):
        number, question = self.asked or (0, None)
        return Message(number, ("qr", "rd", "ra"), 0, 0, [question] if question else [])


def question_octets(number, question):
    return encode(Message(number, ("rd",), 0, 0, [question]))


class Reader:
    """Turns the steps of one scenario into the lines of its script, and what is expected into those of its transcript."""

    def __init__(self, captures):
        self.captures, self.zones, self.workers = captures, [], {}
        self.offered = 1  # the zone of the last transfer
        self.notifier = Worker()  # what the last NOTIFY is answered like

    def worker(self, number):
        return self.workers.setdefault(number, Worker())

    def zone(self, text):
        name = name_of(text)
        lower = [[label.lower() for label in zone] for zone in self.zones]
        wanted = [label.lower() for label in name]
        if wanted not in lower:
            raise Refused(f"the zone isn't opened: {text}")
        return lower.index(wanted) + 1, name

    # -- steps: each gives the lines of the script

    def step(self, worker, text, block):
        words = text.replace(",", " ").split()
        kind = words.pop(0)
        if kind == "line":
            return [line_of(text[4:].removeprefix(" "))]
        if kind == "zone":
            self.zones.append(name_of(words[0]))
        if kind in ("zone", "clock", "allow"):
            return [" ".join([kind, *words]).encode() + b"\n"]
        if kind == "full":
            return [f"full {self.zone(words[0])[0]}\n".encode()]
        if kind == "transfer":
            self.offered, name = self.zone(words.pop(0))
            return [f"xfer {self.offered} {digits_of(one)}\n".encode() for one in streams_of(words, name, block, self.captures)]
        if kind == "primary":
            return [f"primary {self.zone(words[0])[0]} {script_address(words[1])}\n".encode()]
        if kind == "notify":
            return [self.notify(words, block)]
        if kind == "due":
            return [b"due\n"]
        if kind == "query":
            return [self.query(worker, words, block)]
        if kind == "upstream":
            return [self.answer(worker, words, block)]
        raise Refused(f"no step: {text}")

    def query(self, worker, words, block):
        if take(words, "bytes"):
            octets = octets_of(words.pop(0))
            transport, client = take_client(words)
        else:
            question = take_question(words)
            transport, client = take_client(words)
            message, compressed, opt = read_words(words, Message(questions=[question]))
            octets = encode(read_sections(message, block, opt), compressed)
        self.worker(worker).takes(octets)
        return f"query {worker} {transport} {client} {digits_of(octets)}\n".encode()

    def notify(self, words, block):
        if take(words, "bytes"):
            octets, client = octets_of(words.pop(0)), take_source(words)
        else:
            question, client = Question(name_of(words.pop(0)), SOA, 1), take_source(words)
            message, compressed, opt = read_words(words, usual_notify(question))
            octets = encode(read_sections(message, block, opt), compressed)
        self.notifier.takes(octets)
        return f"notify {client} {digits_of(octets)}\n".encode()

    def answer(self, worker, words, block):
        if take(words, "fails"):
            return f"fail {worker}\n".encode()
        if not take(words, "gives"):
            raise Refused("upstream gives .. or upstream fails")
        if take(words, "bytes"):
            return f"give {worker} {words[0]}\n".encode()
        rcode = rcode_of(words.pop(0))
        message, compressed, opt = read_words(words, replace(self.worker(worker).usual_answer(), rcode=rcode))
        return f"give {worker} {digits_of(encode(read_sections(message, block, opt), compressed))}\n".encode()

    # -- what is expected: each gives a line of the transcript

    def output(self, worker, text, block):
        if text == "writes" or text.startswith("writes "):
            return text[7:] + "\n"
        words = text.replace(",", " ").split()
        if words[0] in ("taken", "current"):
            if words[1] != "serial":
                raise Refused(f"no serial: {text}")
            rows = [words[3]] if words[0] == "taken" else []
            return " ".join([words[0], str(self.offered), words[2], *rows]) + "\n"
        if words[0] == "refused":
            return " ".join(["refused", str(self.offered), *words[1:]]) + "\n"
        if words == ["hush"]:
            return "hush\n"
        if take(words, "due"):
            return f"due {0 if words == ['none'] else self.zone(words[0])[0]}\n"
        if words == ["silent"]:
            return f"silent {worker}\n"
        if take(words, "asks"):
            return self.asks(worker, words)
        if take(words, "notified bytes"):
            return f"notified {words[0]}\n"
        if take(words, "notified"):
            return f"notified {self.reply(self.notifier, words, block)}\n"
        if take(words, "reply bytes"):
            return f"reply {worker} {words[0]}\n"
        return f"reply {worker} {self.reply(self.worker(worker), words, block)}\n"

    def reply(self, worker, words, block):
        rcode = rcode_of(words.pop(0))
        message, compressed, opt = read_words(words, replace(worker.usual_reply(), rcode=rcode))
        if compressed:
            raise Refused("the names of all replies are compressed")
        return digits_of(encode_reply(read_sections(message, block, opt)))

    def asks(self, worker, words):
        if take(words, "bytes"):
            return f"ask {worker} {words[0]}\n"
        question = take_question(words)
        number = take_number(words, "id", 65535)
        if number is None or words:
            raise Refused("asks NAME TYPE, id NUMBER")
        self.worker(worker).asked = (number, question)
        return f"ask {worker} {digits_of(question_octets(number, question))}\n"


def line_of(text):
    """A line of the script as it stands: `\\x09` is a byte, `{a}*9` is repeated; `\\` at the end leaves out the line feed."""
    feed = b"\n"
    if text.endswith("\\"):
        text, feed = text[:-1], b""
    return re.sub(rb"\\x([0-9a-f]{2})", lambda match: bytes.fromhex(match[1].decode()), repeated(text).encode()) + feed


def take_client(words):
    transport = words.pop(0)
    if transport not in ("udp", "tcp"):
        raise Refused("udp or tcp, and `from ADDRESS`")
    return transport, take_source(words)


def take_source(words):
    if not take(words, "from"):
        raise Refused("from ADDRESS")
    return script_address(words.pop(0))


def script_address(text):
    address = ipaddress.ip_address(text)
    return str(address) if address.version == 4 else address.packed.hex()


def text_of_address(text):
    return str(ipaddress.IPv6Address(bytes.fromhex(text)) if len(text) == 32 else ipaddress.IPv4Address(text))


def usual_notify(question):
    return Message(0, ("aa",), NOTIFY, 0, [question])


def each_of(text):
    """The texts that a text with `{1..3}` stands for: one for each number. Several of these go along with one another."""
    counts = {int(last) + 1 - int(first) for first, last in RANGE.findall(text)} or {1}
    if len(counts) > 1 or min(counts) < 1:
        raise Refused(f"no numbers, or not equally many: {text}")
    return [repeated(RANGE.sub(lambda match: str(int(match[1]) + turn), text)) for turn in range(*counts)]


def repeated(text):
    """`{a.}*3` is `a.a.a.`."""
    return re.sub(r"\{([^{}]*)\}\*(\d+)", lambda match: match[1] * int(match[2]), text)


class Shower:
    """Turns lines of scripts and of transcripts into text. It says nothing in words that a `Reader` doesn't turn back into
    the same bytes; all else it gives as it stands."""

    def __init__(self):
        self.reader = Reader({})
        self.waits = None  # the worker, or the zone, of the last step, whose output comes next

    def worker(self, number):
        return self.reader.worker(number)

    def line(self, line):
        """A line, without its line feed, as lines of text. An output begins with `=>`, or, where it isn't that of the last
        step, with whose it is."""
        words = line.decode("latin-1").split(" ")
        if is_output(words):
            whose = whose_output(words)
            return self.shown(self.output, words, line, "=> " if whose == self.waits else " ".join([whose[0], *whose[1]]) + ": ")
        if words[0] in ("xfer", "query", "give", "fail"):
            self.waits = ("zone" if words[0] == "xfer" else "worker", [words[1].lstrip("0") or "0"] if words[1:] else [])
        if words[0] in ("notify", "due"):
            self.waits = (words[0], [])
        return self.shown(self.step, words, line, "")

    def shown(self, way, words, line, mark):
        for compressed in (False, True):
            try:
                text, block = way(words, compressed)
                if self.read_back(text, block, words) == line + b"\n":
                    lines = [mark + text, *block]
                    return with_notes(octets_of(words[2]), lines) if words[0] == "reply" else lines
            except (Refused, ValueError, IndexError):
                pass
        return [mark + self.raw(line)]

    def read_back(self, text, block, words):
        """The line that the text stands for; the reader keeps what later lines leave unsaid."""
        lines = [one.strip() for one in block if not one.strip().startswith(";")]
        if words[0] in ZONE_OUTPUTS:
            self.reader.offered = int(words[1])
        if is_output(words):
            worker = words[1] if whose_output(words)[0] == "worker" else 0
            return self.reader.output(int(worker), text, lines).encode()
        worker, text = split_worker(text)
        return self.reader.step(worker, text, lines)[0]

    def raw(self, line):
        text = "".join(chr(value) if 32 <= value < 127 and value != 92 else f"\\x{value:02x}" for value in line)
        if len(text) > 3000:
            return f"line {text[:60]}.. ({len(line)} bytes)"
        if text.endswith(" "):
            text = text[:-1] + "\\x20"
        worker = re.match(r"(query|give|fail) 0*(\d+) ", text)
        at = f"worker {worker[2]}: " if worker and worker[2] != "0" else ""
        return f"{at}line {text}" if text else "line"

    # -- steps: the text of a line, and what belongs below it

    def step(self, words, compressed):
        kind = words[0]
        if kind in ("zone", "clock", "allow"):
            return " ".join(words), []
        if kind == "full":
            return f"full {text_of_name(self.zone(words[1]))}", []
        if kind == "primary":
            return f"primary {text_of_name(self.zone(words[1]))} {text_of_address(words[2])}", []
        if kind == "notify":
            return self.notify(words, compressed)
        if kind == "due":
            return "due", []
        if kind == "xfer":
            zone = self.zone(words[1])
            text, block = text_of_stream(zone, octets_of(words[2]), compressed)
            return f"transfer {text_of_name(zone)}{text}", block
        if kind not in ("query", "give", "fail"):
            raise Refused(f"no step: {kind}")
        text, block = self.query(words, compressed) if kind == "query" else self.answer(words, compressed)
        return (text if int(words[1]) == 0 else f"worker {int(words[1])}: {text}"), block

    def zone(self, text):
        return self.reader.zones[int(text) - 1]

    def query(self, words, compressed):
        octets = octets_of(words[4])
        way = f"{words[2]} from {text_of_address(words[3])}"
        try:
            message = decode(octets)
            if message.rcode or encode(message, compressed) != octets:
                raise Refused("not in words")
            question, = message.questions
            found, block = shown(message, Message(0 if message.id else 1, (), 0, 0, [question]))
        except (Refused, ValueError):
            if compressed:
                return f"query bytes {digits_of(octets)} {way}", []
            raise
        found += ["compressed"] if compressed else []
        return " ".join(["query", text_of_question(question), way, *found]).replace(" flags ", " "), block

    def notify(self, words, compressed):
        octets, way = octets_of(words[2]), f"from {text_of_address(words[1])}"
        try:
            message = decode(octets)
            if message.rcode or encode(message, compressed) != octets:
                raise Refused("not in words")
            question, = message.questions
            found, block = shown(message, usual_notify(Question(question.name, SOA, 1)))
        except (Refused, ValueError):
            if compressed:
                return f"notify bytes {digits_of(octets)} {way}", []
            raise
        found += ["compressed"] if compressed else []
        return " ".join([f"notify {text_of_name(question.name)}", way, *found]).replace(" flags ", " "), block

    def answer(self, words, compressed):
        if words[0] == "fail":
            return "upstream fails", []
        octets = octets_of(words[2])
        try:
            message = decode(octets)
            found, block = shown(message, self.worker(int(words[1])).usual_answer())
            if encode(message, compressed) != octets:
                raise Refused("not in words")
        except Refused:
            if compressed:
                return f"upstream gives bytes {words[2]}", []
            raise
        found += ["compressed"] if compressed else []
        return ", ".join([f"upstream gives {text_of_rcode(message.rcode)}", *found]), block

    # -- what is written

    def output(self, words, compressed):
        kind = words[0]
        if kind == "rows":
            return " ".join(["writes", *words]), []
        if kind == "taken":
            return f"taken serial {words[2]}, {words[3]} row{'' if words[3] == '1' else 's'}", []
        if kind == "current":
            return f"current serial {words[2]}", []
        if kind == "refused":
            return " ".join(["refused", *words[2:]]), []
        if kind in ("silent", "hush"):
            return kind, []
        if kind == "due":
            return f"due {'none' if words[1] == '0' else text_of_name(self.zone(words[1]))}", []
        if compressed and kind == "ask":
            return f"asks bytes {words[2]}", []
        if kind == "ask":
            message = decode(octets_of(words[2]))
            question, = message.questions
            return f"asks {text_of_question(question)}, id {message.id}", []
        if kind == "notified":
            text, block = self.reply(self.reader.notifier, words[1], compressed, "bytes")
            return f"notified {text}", block
        return self.reply(self.worker(int(words[1])), words[2], compressed, "reply bytes")

    def reply(self, worker, digits, in_bytes, raw):
        """The rcode, words and records of a reply, or its bytes, where it isn't written as replies are or that is wanted."""
        message = decode(octets_of(digits))
        found, block = shown(message, worker.usual_reply())
        if in_bytes or encode_reply(message) != octets_of(digits):
            return f"{raw} {digits}", [f"    ; {line.strip()}" for line in block]
        if not message.questions and not block:
            found = ["header alone"] + [word for word in found if word != "no question"]
        return ", ".join([text_of_rcode(message.rcode), *found]), block


def is_output(words):
    return words[0] in OUTPUTS and words != ["due"]


def whose_output(words):
    """The worker, or the zone, whose output it is; or the kind of step."""
    if words[0] in ZONE_OUTPUTS:
        return "zone", words[1:2]
    if words[0] in NOTIFY_OUTPUTS:
        return "notify", []
    return ("due", []) if words[0] == "due" else ("worker", words[1:2])


def split_worker(text):
    worker = re.match(r"worker (\d+): ", text)
    return (int(worker[1]), text[worker.end():]) if worker else (0, text)
