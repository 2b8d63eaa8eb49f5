#!/usr/bin/env python3
"""Asks a server one question and shows the reply, where dig isn't at hand: its length, its records, and where pointers stand in them.

    python3 tools/ask.py ADDRESS PORT NAME [TYPE] [tcp] [edns SIZE]

ADDRESS is one of either version of IP, without brackets.
"""
import random
import socket
import sys

from dns_text import Message, Question, Refused, decode, encode, framed, name_of, number_of, opt_of, text_of_rcode, type_of
from message_text import block_of, text_of_question, with_notes

SECONDS = 5


def read_all(stream, count):
    octets = b""
    while len(octets) < count:
        more = stream.recv(count - len(octets))
        if not more:
            raise Refused("the connection ended")
        octets += more
    return octets


def over_tcp(address, port, message, seconds=SECONDS):
    with socket.create_connection((address, port), seconds) as stream:
        stream.sendall(framed(message))
        return read_all(stream, int.from_bytes(read_all(stream, 2), "big"))


def over_udp(address, port, message, seconds=SECONDS):
    with socket.socket(socket.AF_INET6 if ":" in address else socket.AF_INET, socket.SOCK_DGRAM) as sock:
        sock.settimeout(seconds)
        sock.connect((address, port))
        sock.send(message)
        return sock.recv(65535)


def query_of(words):
    """The query, and whether it is asked over TCP."""
    query = Message(random.randrange(65536), ("rd",), 0, 0, [Question(name_of(words.pop(0)), 1)])
    tcp = False
    while words:
        word = words.pop(0)
        if word == "tcp":
            tcp = True
        elif word == "edns":
            query.additional = [opt_of(number_of(words.pop(0), 65535))]
        else:
            query.questions[0].qtype = type_of(word)
    return query, tcp


def main():
    address, port, *words = sys.argv[1:]
    query, tcp = query_of(words)
    octets = (over_tcp if tcp else over_udp)(address, int(port), encode(query))
    reply = decode(octets)
    if reply.id != query.id:
        raise Refused("a reply to another query")
    block, opt = block_of(reply)
    words = [text_of_rcode(reply.rcode), *map(text_of_question, reply.questions), "flags", *reply.flags, *([opt] if opt else [])]
    print(*with_notes(octets, [" ".join(words), *block]), sep="\n")


if __name__ == "__main__":
    main()
