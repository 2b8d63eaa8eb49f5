"""Zone transfers as text, and the streams of messages that they stand for; scenarios/README says what the text may be. It
knows no rule of policy.

A transfer is of one of these kinds: `whole`, the SOA, the rows, and the SOA again; `steps`, the newest SOA, then for each step
the old SOA, the rows that it deletes, the new SOA, and the rows that it adds, and the newest SOA again (RFC 1995, section 4);
`current`, the SOA alone; or `messages`, all of which are written out.
"""
import re
from dataclasses import dataclass, field, replace

from dns_text import (
    TYPES, Message, Question, Refused, decode, encode, framed, frames, is_opt, number_of, rcode_of, record_of, text_of_name,
    text_of_opt, text_of_rcode, text_of_record, text_of_type, type_of, usual_soa,
)
from message_text import octets_of, read_sections, read_words, take, words_of

TTL = 60  # of the rows that say none
ASKED_BY = {"messages": TYPES["AXFR"], "whole": TYPES["AXFR"], "current": TYPES["IXFR"], "steps": TYPES["IXFR"]}


@dataclass
class Form:
    """What the line of a transfer says."""
    kind: str = "messages"
    serial: int = 0  # that of a whole zone, or the one from which the steps lead
    to: int = None  # the serial to which a single step leads
    soa: list = field(default_factory=list)  # the TTL, or none, and the data without the serial, of another SOA than the usual
    qtype: int = None
    count: int = 1  # of the messages
    splits: list = field(default_factory=list)  # the numbers of the records behind which a message ends
    compressed: bool = False

    def asked_by(self):
        return ASKED_BY[self.kind] if self.qtype is None else self.qtype

    def line_of_soa(self, serial):
        if not self.soa:
            return f"@ SOA serial {serial}"
        *ttl, mname, rname, refresh, retry, expire, minimum = self.soa
        return " ".join(["@", *ttl, "SOA", mname, rname, str(serial), refresh, retry, expire, minimum])


def usual_message(zone, qtype):
    return Message(0, ("qr", "aa"), 0, 0, [Question(zone, qtype)])


# ---- text to streams

def streams_of(words, zone, block, captures):
    """The bytes of a transfer, or of several where it is cut after every byte."""
    form, stream, cuts = Form(), None, None
    while words:
        if take(words, "empty"):
            stream = b""
        elif take(words, "bytes"):
            stream = octets_of(words.pop(0))
        elif take(words, "as captured"):
            stream = captures[words.pop(0)]
        elif take(words, "cut"):
            cuts, words = words, []
        else:
            take_option(form, words)
    if form.kind == "messages" and (form.count > 1 or form.splits or form.soa):
        raise Refused("messages that are written out say all of it themselves")
    if stream is None:
        parts = messages_of(block) if form.kind == "messages" else split(form, records_of(form, block))
        stream = b"".join(framed(message_of(form, zone, text, lines)) for text, lines in parts)
    return cut(stream, cuts) if cuts else [stream]


def take_option(form, words):
    for kind, wanted in (("whole", "serial"), ("current", "is current at serial"), ("steps", "from serial")):
        if take(words, wanted):
            form.kind, form.serial = kind, take_serial(words)
            return
    if take(words, "to serial"):
        form.to = take_serial(words)
    elif take(words, "SOA"):
        form.soa = [words.pop(0) for _ in range(7 if words[0].isdigit() else 6)]
    elif take(words, "asked by"):
        form.qtype = type_of(words.pop(0))
    elif take(words, "in"):
        form.count = number_of(words.pop(0), 65535)
        words.pop(0)
    elif take(words, "split after"):
        form.splits = take_splits(words)
    elif take(words, "compressed"):
        form.compressed = True
    else:
        raise Refused(f"not understood: {' '.join(words)}")


def take_serial(words):
    return number_of(words.pop(0), 2 ** 32 - 1)


def take_splits(words):
    """`1 3 and 5 records`."""
    splits = []
    while not words[0].startswith("record"):
        if not take(words, "and"):
            splits.append(number_of(words.pop(0), 65535))
    words.pop(0)
    return splits


def records_of(form, block):
    """The records of a transfer that isn't written out, as lines."""
    if form.kind == "whole":
        return [form.line_of_soa(form.serial), *block, form.line_of_soa(form.serial)]
    if form.kind == "current":
        if block:
            raise Refused(f"the SOA stands alone: {block[0]}")
        return [form.line_of_soa(form.serial)]
    steps = steps_of(form, block)
    old, newest = form.serial, form.line_of_soa(steps[-1][0])
    records = [newest]
    for new, deleted, added in steps:
        records += [form.line_of_soa(old), *deleted, form.line_of_soa(new), *added]
        old = new
    return [*records, newest]


def steps_of(form, block):
    """The steps that lines say: for each the serial to which it leads, the rows that it deletes, and those that it adds."""
    steps = [] if form.to is None else [(form.to, [], [])]
    for line in block:
        words = line.split()
        if form.to is None and take(words, "step to serial"):
            steps.append((take_serial(words), [], []))
        elif words[0] not in ("delete", "add") or not steps:
            raise Refused(f"no row that a step deletes or adds: {line}")
        else:
            steps[-1][1 if words[0] == "delete" else 2].append(line.split(None, 1)[1])
    if not steps:
        raise Refused("a serial to which a step leads is missing")
    return steps


def split(form, records):
    """The records of each message; nothing is said of how a message differs."""
    size = -(-len(records) // form.count)
    ends = [*(form.splits or range(size, len(records), size)), len(records)]
    return [("", records[start:end]) for start, end in zip([0, *ends], ends)]


def messages_of(block):
    """The messages that are written out: what is said of each, and its records."""
    parts = []
    for line in block:
        if line == "message" or line.startswith("message "):
            parts.append((line[7:], []))
        elif not parts:
            raise Refused(f"a serial, or `message` before the records: {line}")
        else:
            parts[-1][1].append(line)
    return parts


def message_of(form, zone, text, lines):
    words = text.replace(",", " ").split()
    rcode = rcode_of(words.pop(0)) if words and re.fullmatch(r"[A-Z]{5}[A-Z]*|RCODE\d+", words[0]) else 0
    message, compressed, opt = read_words(words, replace(usual_message(zone, form.asked_by()), rcode=rcode))
    message.answer = [record_of(line, zone, TTL) for line in lines]
    return encode(read_sections(message, [], opt), form.compressed or compressed)


def cut(stream, words):
    """`10 bytes before its end`, `to 10 bytes`, or `after every byte`."""
    if words == ["after", "every", "byte"]:
        return [stream[:count] for count in range(1, len(stream))]
    if words[1:] == ["bytes", "before", "its", "end"]:
        return [stream[:len(stream) - number_of(words[0], len(stream))]]
    if words[:1] == ["to"] and words[2:] == ["bytes"]:
        return [stream[:number_of(words[1], len(stream))]]
    raise Refused(f"not understood: cut {' '.join(words)}")


# ---- streams to text

def text_of_stream(zone, stream, compressed):
    """The words of a transfer, and the lines that belong below, where they stand for the same bytes; `compressed` is whether
    the words may say so. With it the bytes themselves are the last way."""
    if not stream:
        return " empty", []
    messages = messages_in(stream)
    for text, lines in ways(zone, messages, compressed):
        if says(text, lines, zone, stream):
            return text, lines
    if not compressed:
        raise Refused("not in words")
    *_, (_, lines) = [("", []), *ways(zone, messages, True)]
    return f" bytes {stream.hex()}", [f"    ; {line.strip()}" for line in lines]


def messages_in(stream):
    """The messages of a stream; none where it isn't whole messages."""
    whole, rest = frames(stream)
    try:
        return [] if rest else [decode(octets) for octets in whole]
    except Refused:
        return []


def says(text, lines, zone, stream):
    try:
        return streams_of(text.replace(",", " ").split(), zone, [line.strip() for line in lines], {}) == [stream]
    except (Refused, ValueError, IndexError):
        return False


def ways(zone, messages, compressed):
    """Ways to say these messages, the shortest first: the words of the transfer, and the lines below."""
    if not messages:
        return
    asked = messages[0].questions == [Question(zone, TYPES["IXFR"])]
    form = Form(qtype=TYPES["IXFR" if asked else "AXFR"], compressed=compressed)
    try:
        parts = [(words_of_message(zone, form.qtype, message), message.answer) for message in messages]
    except Refused:
        return
    if not any(words for words, _ in parts):
        sizes = [len(records) for _, records in parts]
        yield from short_ways(zone, form, [record for _, records in parts for record in records], sizes)
    lines = [line for text, records in parts for line in (
        f"    message {text}".rstrip(), *(f"        {text_of_record(record, zone, TTL)}" for record in records))]
    yield text_of_form(form), lines


def words_of_message(zone, qtype, message):
    """What is said of a message that is written out."""
    opt = [text_of_opt(message.additional[-1])] if message.additional and is_opt(message.additional[-1]) else []
    rcode = [text_of_rcode(message.rcode)] if message.rcode else []
    return ", ".join(rcode + words_of(message, usual_message(zone, qtype)) + opt)


def short_ways(zone, form, records, sizes):
    """The same where the messages, of so many records each, aren't written out."""
    if not records or not is_soa(zone, records[0]):
        return
    soa = words_of_soa(zone, records[0])
    ends = [sum(sizes[:count]) for count in range(1, len(sizes))]
    size = -(-len(records) // len(sizes))
    even = ends == list(range(size, len(records), size))
    form = replace(form, serial=serial_of(records[0]), soa=soa, count=len(sizes) if even else 1, splits=[] if even else ends)
    for kind, way in (("steps", way_of_steps), ("whole", way_of_whole), ("current", way_of_current)):
        found = way(zone, replace(form, kind=kind), records)
        if found:
            yield text_of_form(found[0]), found[1]


def is_soa(zone, record):
    return record.rtype == TYPES["SOA"] and record.rclass == 1 and record.owner == zone and len(record.parts) == 7


def serial_of(record):
    return int.from_bytes(record.parts[2], "big")


def words_of_soa(zone, record):
    """What `Form.soa` has of a SOA: nothing of the usual one."""
    if record.ttl == TTL and record.parts == usual_soa(record.parts[2]):
        return []
    names = [text_of_name(part, zone) for part in record.parts[:2]]
    numbers = [str(int.from_bytes(part, "big")) for part in record.parts[3:]]
    return [*([str(record.ttl)] if record.ttl != TTL else []), *names, *numbers]


def way_of_steps(zone, form, records):
    """The form, and the lines of the steps; None where the records aren't those of steps."""
    places = [place for place, record in enumerate(records) if is_soa(zone, record)]
    serials = [serial_of(records[place]) for place in places]
    blocks = [[text_of_record(record, zone, TTL) for record in records[place + 1:after]]
              for place, after in zip(places, [*places[1:], len(records)])]
    if len(serials) < 4 or len(serials) % 2 or blocks[0] or blocks[-1]:
        return None
    newest, *pairs, last = serials
    if [*pairs[2::2], last] != pairs[1::2] or newest != last:
        return None
    steps = list(zip(pairs[1::2], blocks[1::2], blocks[2::2]))
    alone = len(steps) == 1
    lines = []
    for serial, deleted, added in steps:
        lines += [] if alone else [f"    step to serial {serial}"]
        lines += [f"    {'' if alone else '    '}{row}" for row in [
            *(f"delete {row}" for row in deleted), *(f"add {row}" for row in added)]]
    return replace(form, serial=pairs[0], to=newest if alone else None), lines


def way_of_whole(zone, form, records):
    if len(records) < 2 or records[0] != records[-1]:
        return None
    return form, [f"    {text_of_record(record, zone, TTL)}" for record in records[1:-1]]


def way_of_current(_, form, records):
    return (form, []) if len(records) == 1 else None


def text_of_form(form):
    """What `take_option` reads, behind `transfer ZONE`."""
    words = {"messages": "", "whole": f" serial {form.serial}", "current": f" is current at serial {form.serial}",
             "steps": f" from serial {form.serial}"}[form.kind]
    words += "" if form.to is None else f" to serial {form.to}"
    options = [f"SOA {' '.join(form.soa)}"] if form.soa else []
    options += [f"asked by {text_of_type(form.qtype)}"] if form.qtype != ASKED_BY[form.kind] else []
    options += [f"in {form.count} messages"] if form.count > 1 else []
    options += [f"split after {text_of_splits(form.splits)}"] if form.splits else []
    options += ["compressed"] if form.compressed else []
    return ", ".join([words, *options])


def text_of_splits(splits):
    *front, last = map(str, splits)
    return (f"{', '.join(front)} and " if front else "") + last + (" record" if last == "1" else " records")
