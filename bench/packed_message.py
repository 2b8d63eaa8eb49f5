#!/usr/bin/env python3
"""How long it takes to write a message whose names are compressed, by what its names are.

    python3 bench/packed_message.py PROGRAM [--times 200]

PROGRAM is the built program `bench`. Each message has up to 65,535 bytes before its names are compressed:

  question   a question and one address of its name
  addresses  addresses of the question's name
  hosts      addresses of different names of one domain
  long       addresses of names of 127 labels, all of which are different
  minfo      records of type MINFO whose three names have 127 labels, behind SRV records with the same names, to which no pointer leads
  ends       addresses of names of 127 labels that differ in the last two
  beyond     like hosts, behind so much text that no pointer leads to these names

They are written with a key of the hash of names that is drawn for this run. Two more are written with the key 0, for which all names
that end in a label of so many zeros have one hash: what somebody could do who knew the key.

  chain      addresses of different names under such a label
  labels     addresses of names of 114 different labels under such a label

Prints the bytes that were read and written, and the least times in microseconds.
"""

import argparse
import random
import struct
import subprocess

SIZE = 65_535
ADDRESS = b"\xc0\x00\x02\x09"


def name(*labels):
    return b"".join(bytes([len(label)]) + label for label in labels) + b"\x00"


def record(owner, rtype, data):
    return owner + struct.pack(">HHIH", rtype, 1, 60, len(data)) + data


def message(question, records):
    """As many of the records as there is room for."""
    head = question + struct.pack(">HH", 1, 1)
    room, body, count = SIZE - 12 - len(head), bytearray(), 0
    for one in records:
        if len(body) + len(one) > room:
            break
        body += one
        count += 1
    return struct.pack(">HHHHHH", 1, 0x8180, 1, count, 0, 0) + head + body


def letters(number, count):
    """So many labels of one octet that are different for each number."""
    draw = random.Random(number)
    return [bytes([draw.randrange(256)]) for _ in range(count)]


SHORT = name(b"x", b"example")


def srv(target):
    return record(SHORT, 33, struct.pack(">HHH", 0, 0, 53) + target)


def many(count, make):
    return (make(number) for number in range(count))


def shapes():
    host = lambda number: name(b"h%d" % number, b"hosts", b"example")
    long = lambda number: name(*letters(number, 127))
    ends = lambda number: name(*[b"a"] * 125, bytes([number // 256]), bytes([number % 256]))
    yield "question", message(SHORT, many(1, lambda n: record(SHORT, 1, ADDRESS)))
    yield "addresses", message(SHORT, many(9999, lambda n: record(SHORT, 1, ADDRESS)))
    yield "hosts", message(SHORT, many(9999, lambda n: record(host(n), 1, ADDRESS)))
    yield "long", message(SHORT, many(9999, lambda n: record(long(n), 1, ADDRESS)))
    targets = [long(number) for number in range(60)]
    minfo = [record(SHORT, 14, target + target) for target in targets * 9]
    yield "minfo", message(SHORT, [srv(target) for target in targets] + minfo)
    yield "ends", message(SHORT, many(9999, lambda n: record(ends(n), 1, ADDRESS)))
    filler = [record(SHORT, 16, b"\xff" + b"x" * 255)] * 70
    yield "beyond", message(SHORT, filler + [record(host(n), 1, ADDRESS) for n in range(9999)])


ZEROS = bytes(24)


def chains():
    """Names that have one hash with the key 0."""
    yield "chain", message(SHORT, many(9999, lambda n: record(name(b"h%d" % n, ZEROS), 1, ADDRESS)))
    yield "labels", message(SHORT, many(9999, lambda n: record(name(*letters(n, 114), ZEROS), 1, ADDRESS)))


def written(program, key, times, octets):
    """What the program prints of a message: its bytes, those that are written, and microseconds."""
    framed = struct.pack(">H", len(octets)) + octets
    done = subprocess.run([program, "messages", str(key), str(times)], input=framed, stdout=subprocess.PIPE, check=True)
    words = done.stdout.split()
    return int(words[1]), int(words[3]), int(words[5]) / 1000


def main():
    parser = argparse.ArgumentParser(description=__doc__, formatter_class=argparse.RawDescriptionHelpFormatter)
    parser.add_argument("program")
    parser.add_argument("--times", type=int, default=200)
    words = parser.parse_args()
    drawn = random.SystemRandom().randrange(1, 2**64)
    print(f"{'message':<10} {'read':>6} {'written':>7} {'us':>9}")
    for key, messages in ((drawn, shapes()), (0, chains())):
        for shape, octets in messages:
            read, bytes_written, micros = written(words.program, key, words.times if key else 3, octets)
            print(f"{shape:<10} {read:>6} {bytes_written:>7} {micros:>9.1f}")


if __name__ == "__main__":
    main()
