"""DNS messages as text, where one is expected: what differs from that one is said in words, and its records in lines.

Words are taken from the front of a list, as the functions here that begin with `take`. It knows no rule of policy.
"""
from dataclasses import replace

from dns_text import (
    FLAGS, Question, Refused, class_of, decode, is_class, is_opt, name_of, number_of, opt_of_words, record_of, text_of_class,
    text_of_name, text_of_opt, text_of_record, text_of_type, type_of,
)


def take(words, wanted):
    """Takes a word, or words, from the front of a list, if they stand there."""
    wanted = wanted.split()
    if words[:len(wanted)] != wanted:
        return False
    del words[:len(wanted)]
    return True


def take_number(words, wanted, most):
    return number_of(words.pop(0), most) if take(words, wanted) else None


def octets_of(text):
    if text == "-":
        return b""
    try:
        return bytes.fromhex(text)
    except ValueError:
        raise Refused(f"no hexadecimal digits: {text}") from None


def digits_of(octets):
    return octets.hex() or "-"


def take_question(words):
    name, qtype = name_of(words.pop(0)), type_of(words.pop(0))
    qclass = class_of(words.pop(0)) if words and is_class(words[0]) else 1
    return Question(name, qtype, qclass)


def text_of_question(question):
    text = f"{text_of_name(question.name)} {text_of_type(question.qtype)}"
    return text if question.qclass == 1 else f"{text} {text_of_class(question.qclass)}"


def read_words(words, usual):
    """A message like the usual one but for what the words say, and whether its names are compressed."""
    message = replace(usual, answer=[], authority=[], additional=[])
    flags, compressed, opt = [], False, None
    while words:
        if take(words, "id"):
            message.id = number_of(words.pop(0), 65535)
        elif take(words, "opcode"):
            message.opcode = number_of(words.pop(0), 15)
        elif take(words, "no question") or take(words, "header alone"):
            message.questions = []
        elif take(words, "question"):
            message.questions = [take_question(words)]
        elif take(words, "edns"):
            opt = opt_of_words(words)
        elif take(words, "compressed"):
            compressed = True
        elif words[0] in FLAGS:
            flags.append(words.pop(0))
        elif not take(words, "flags"):
            raise Refused(f"not understood: {' '.join(words)}")
    if flags:
        message.flags = tuple(flag for flag in FLAGS if flag in flags)
    return message, compressed, opt


def read_sections(message, block, opt, origin=None, ttl=None):
    sections = dict(message.sections())
    for line in block:
        section, _, text = line.partition(" ")
        if section not in sections:
            raise Refused(f"no section: {line}")
        sections[section].append(record_of(text.strip(), origin, ttl))
    if opt is not None:
        message.additional.append(opt)
    return message


def words_of(message, usual):
    """What `read_words` reads; nothing where the message is the usual one."""
    words = []
    if message.id != usual.id:
        words.append(f"id {message.id}")
    if message.opcode != usual.opcode:
        words.append(f"opcode {message.opcode}")
    if message.questions != usual.questions:
        if len(message.questions) > 1:
            raise Refused("two questions")
        words += [f"question {text_of_question(one)}" for one in message.questions] or ["no question"]
    if message.flags != usual.flags:
        words.append("flags " + " ".join(message.flags))
    return words


def block_of(message):
    """The sections as lines, and the OPT record at their end as words."""
    opt = None
    if message.additional and is_opt(message.additional[-1]):
        opt = text_of_opt(message.additional[-1])
        message = replace(message, additional=message.additional[:-1])
    return [f"    {section:<11} {text_of_record(record)}" for section, records in message.sections() for record in records], opt


def shown(message, usual):
    """Words and lines of a message."""
    block, opt = block_of(message)
    return words_of(message, usual) + ([opt] if opt else []), block


def with_notes(octets, lines):
    """The lines of a message, of which the first is about it and each other about a record, with comments: how many bytes it has, and for
    each name that ends in a pointer the end for which that stands, and the place to which it leads."""
    records = [record for _, records in decode(octets).sections() for record in records]
    notes = [f"{len(octets)} bytes", *(text_of_pointers(record) for record in records)]
    return [f"{line} ; {note}" if note else line for line, note in zip(lines, notes)]


def text_of_pointers(record):
    return ", ".join(f"{text_of_name(name)} at {place}" for name, place in record.pointers)
