#!/usr/bin/env python3
"""How much longer the program takes for messages made to hurt than for a plain one of the same size.

    python3 bench/worst_message.py PROGRAM [WORD] [--before OLD_PROGRAM]

PROGRAM is the built program. Each script asks one worker the same query many times; every message has
65,535 bytes. The plain one is a question and records with short names in full. The others have octets made
to hurt in the data of their first record, and behind it records of type MINFO, whose three names are one
pointer each to a place in those octets. They are tried in three kinds:

  pointers   chains of bare pointers, entered at the last and at each place
  labels     names of 127 labels through one pointer, and runs of labels entered at many places
  mixed      labels and pointers by turns

Times are those of the processor, the least of several rounds in which all scripts run by turns; that of a
script whose messages are refused at their first record is taken off all. Prints for each message its time
and the ratio of it to the plain one's, and the greatest ratio. With a WORD only the messages are tried
whose name has it; with an earlier program its time for the plain message is measured beside.
"""

import argparse
import random
import resource
import struct
import subprocess

SIZE = 65_535
TIMES = 200
ROUNDS = 7


def header(additional):
    return struct.pack(">HHHHHH", 1, 0x0100, 1, 0, 0, additional)


QUESTION = b"\x01a\x00" + struct.pack(">HH", 1, 3)  # class 3: refused once it is read
START = 12 + len(QUESTION) + 11  # where the data of the first record begins
POINTED = 0x4000  # no pointer leads here or behind
LABEL = b"\x01a"


def record(owner, rtype, data):
    return owner + struct.pack(">HHIH", rtype, 1, 0, len(data)) + data


def filled(body, count, size=SIZE):
    """The message, filled up with one record of a type without names."""
    rest = size - 12 - len(QUESTION) - len(body) - 11
    body += record(b"\x00", 65280, b"\x00" * rest)
    message = header(count + 1) + QUESTION + body
    assert len(message) == size
    return message


def plain():
    one = record(b"\x01a\x00", 1, b"\x7f\x00\x00\x01")
    count = (SIZE - 12 - len(QUESTION) - 11) // len(one)
    return filled(one * count, count)


def refused():
    message = bytearray(plain())
    message[12 + len(QUESTION)] = 0x40  # no label begins so
    return bytes(message)


class Octets:
    """Octets that begin the data of the first record, and the places in them where names are entered."""

    def __init__(self):
        self.data = b""
        self.places = []

    def here(self):
        return START + len(self.data)

    def has_room(self, size):
        return self.here() + size <= POINTED

    def enter(self):
        self.places.append(self.here())

    def add(self, octets):
        self.data += octets

    def point(self, place):
        self.add(struct.pack(">H", 0xC000 | place))

    def message(self, order="rising"):
        """Records whose names are entered at the places in this order, over and over."""
        places = {
            "rising": self.places,
            "falling": self.places[::-1],
            "shuffled": random.Random(1).sample(self.places, len(self.places)),
            "last": self.places[-1:],
        }[order]
        first = record(b"\x00", 65280, self.data)
        count = (SIZE - 12 - len(QUESTION) - len(first) - 11) // 16
        names = [struct.pack(">H", 0xC000 | places[i % len(places)]) for i in range(3 * count)]
        body = first
        for i in range(count):
            body += record(names[3 * i], 14, names[3 * i + 1] + names[3 * i + 2])
        return filled(body, count + 1)


def bare_pointers():
    """A chain of pointers, each to the one before it."""
    octets = Octets()
    before = 12 + 2  # the zero at the end of the question's name
    while octets.has_room(2):
        octets.enter()
        octets.point(before)
        before = octets.places[-1]
    return octets


def one_run():
    """One name of 127 labels."""
    octets = Octets()
    octets.enter()
    octets.add(LABEL * 127 + b"\x00")
    return octets


def runs():
    """Names of 127 labels, one behind another, which are entered at each label."""
    octets = Octets()
    while octets.has_room(255):
        for _ in range(127):
            octets.enter()
            octets.add(LABEL)
        octets.add(b"\x00")
    return octets


def fans(most):
    """Labels of all lengths up to this one that end at one place, and a run of labels behind it."""
    octets = Octets()
    behind = (255 - most - 2) // 2
    while octets.has_room(most + 2 * behind + 2):
        for length in range(most, 0, -1):
            octets.enter()
            octets.add(bytes([length]))
        octets.add(b"a" + LABEL * behind + b"\x00")
    return octets


def ladders(pointers, whole):
    """Names of 127 labels, each with so many pointers behind it; one name, or as many as there is room for."""
    octets = Octets()
    while octets.has_room(3):
        target = octets.here()
        octets.add(LABEL + b"\x00")
        for _ in range(126):
            if not octets.has_room(2 + 2 * pointers):
                break
            octets.enter()
            first = octets.here()
            octets.add(LABEL)
            octets.point(target)
            for _ in range(pointers - 1):
                target = octets.here()
                octets.enter()
                octets.point(first)
                first = target
            target = first
        if not whole:
            break
    return octets


def run_behind(pointers):
    """A run of 127 labels, and chains of so many pointers to each label of it."""
    octets = Octets()
    octets.add(LABEL * 127 + b"\x00")
    label = 0
    while octets.has_room(2 * pointers):
        before = START + 2 * (label % 127)
        for _ in range(pointers):
            octets.enter()
            octets.point(before)
            before = octets.places[-1]
        label += 1
    return octets


def messages():
    chain = bare_pointers()
    for order in ("last", "rising", "falling", "shuffled"):
        yield f"pointers, {order}", chain.message(order)
    yield "labels, one name of 127", one_run().message()
    for order in ("rising", "falling", "shuffled"):
        yield f"labels, runs of 127, {order}", runs().message(order)
    for most in (63, 31):
        yield f"labels, of all lengths up to {most}, then a run", fans(most).message("shuffled")
    yield "mixed, label and pointer by turns, one name", ladders(1, False).message("last")
    for order in ("rising", "falling", "shuffled"):
        yield f"mixed, label and pointer by turns, {order}", ladders(1, True).message(order)
    yield "mixed, label and 60 pointers by turns, one name", ladders(60, False).message("last")
    yield "mixed, label and 60 pointers by turns, shuffled", ladders(60, True).message("shuffled")
    for pointers in (1000, 50):
        yield f"mixed, runs behind {pointers} pointers", run_behind(pointers).message("shuffled")


def script_of(message, times):
    return ("query 0 tcp 192.0.2.7 " + message.hex() + "\n").encode() * times


def processor_seconds(program, script):
    """The processor time of one run."""
    before = resource.getrusage(resource.RUSAGE_CHILDREN)
    subprocess.run([program, "replay"], input=script, stdout=subprocess.DEVNULL, check=True)
    after = resource.getrusage(resource.RUSAGE_CHILDREN)
    return after.ru_utime + after.ru_stime - before.ru_utime - before.ru_stime


def least_by_turns(runs):
    """The least time a message of each run, all of them by turns so that a slow while of the machine meets all alike."""
    scripts = {key: script_of(message, TIMES) for key, (_program, message) in runs.items()}
    least = {}
    for _ in range(ROUNDS):
        for key, (program, _message) in runs.items():
            took = processor_seconds(program, scripts[key]) / TIMES
            least[key] = min(took, least.get(key, took))
    return least


def main():
    parser = argparse.ArgumentParser()
    parser.add_argument("program")
    parser.add_argument("word", nargs="?", default="")
    parser.add_argument("--before", help="an earlier program: its time for the plain message is measured beside")
    wanted = parser.parse_args()
    runs = {"refused": (wanted.program, refused()), "plain": (wanted.program, plain())}
    if wanted.before:
        runs["refused before"] = (wanted.before, refused())
        runs["plain before"] = (wanted.before, plain())
    hostile = {name: (wanted.program, message) for name, message in messages() if wanted.word in name}
    least = least_by_turns({**runs, **hostile})
    base = least["refused"]
    plain_time = least["plain"] - base
    print(f"refused at once: {base * 1e3:.3f} ms, taken off all others")
    print(f"plain: {plain_time * 1e3:.3f} ms")
    if wanted.before:
        before = least["plain before"] - least["refused before"]
        print(f"plain before: {before * 1e3:.3f} ms, so that now is {plain_time / before:.2f} times that")
    greatest = 0
    for name in hostile:
        ratio = (least[name] - base) / plain_time
        greatest = max(greatest, ratio)
        print(f"{name}: {ratio * plain_time * 1e3:.3f} ms, ratio {ratio:.1f}")
    print(f"greatest ratio {greatest:.1f}")


if __name__ == "__main__":
    main()
