#!/usr/bin/env python3
"""A small server of one zone over TCP, for trying things out: a primary (RFC 5936; RFC 1995), and an upstream.

    python3 tools/small_server.py ADDRESS PORT ZONE_FILE

The zone file has `$ORIGIN NAME.` and `$TTL SECONDS`, then one record a line (`OWNER [TTL] TYPE DATA`), the SOA first; a line that
begins with `;` is a comment. AXFR gives the zone. IXFR gives it too, or its SOA alone where the client's serial isn't older. Any
other question gets the records of its name and type, with the CNAMEs that lead there, NXDOMAIN with the SOA where the name isn't
in the zone, and REFUSED outside the zone. It reads the file at each question, so that a changed serial shows at the next poll.
"""
import socket
import socketserver
import sys

from dns_text import TYPES, Message, Refused, decode, encode, framed, name_of, number_of, record_of

MESSAGE_ROWS = 200  # of a transfer, in one message


def lower(name):
    return tuple(label.lower() for label in name)


def read_zone(path):
    """The origin and the records, of which the first is the SOA."""
    origin, ttl, records = None, None, []
    with open(path, encoding="ascii") as file:
        for line in file:
            line = line.strip()
            if not line or line.startswith(";"):
                continue
            if line.startswith("$ORIGIN "):
                origin = name_of(line.split()[1])
            elif line.startswith("$TTL "):
                ttl = number_of(line.split()[1], 2 ** 31 - 1)
            else:
                records.append(record_of(line, origin, ttl))
    if not records or records[0].rtype != TYPES["SOA"]:
        raise Refused(f"no SOA at the head of {path}")
    return origin, records


def serial_of(soa):
    return int.from_bytes(soa.parts[2], "big")


def is_newer(ours, theirs):
    """RFC 1982."""
    return ours != theirs and (ours - theirs) % 2 ** 32 < 2 ** 31


def transfer(query, records):
    question = query.questions[0]
    soa = records[0]
    if question.qtype == TYPES["IXFR"] and query.authority and not is_newer(serial_of(soa), serial_of(query.authority[0])):
        rows = [soa]
    else:
        rows = [*records, soa]
    for start in range(0, len(rows), MESSAGE_ROWS):
        yield Message(query.id, ("qr", "aa"), 0, 0, [question], rows[start:start + MESSAGE_ROWS])


def answer(query, origin, records):
    question = query.questions[0]
    reply = Message(query.id, ("qr", "aa", "rd", "ra"), 0, 0, [question])
    name = lower(question.name)
    if name[max(0, len(name) - len(origin)):] != lower(origin):
        reply.rcode = 5
        return reply
    for _ in range(len(records)):
        here = [record for record in records if lower(record.owner) == name]
        wanted = [record for record in here if record.rtype == question.qtype]
        alias = [record for record in here if record.rtype == TYPES["CNAME"]]
        if wanted or not alias:
            reply.answer += wanted
            if not wanted:
                reply.authority = [records[0]]
                reply.rcode = 0 if here else 3
            return reply
        reply.answer += alias[:1]
        name = lower(alias[0].parts[0])
    return reply


class Connection(socketserver.StreamRequestHandler):
    def handle(self):
        self.request.settimeout(10)
        while len(size := self.rfile.read(2)) == 2:
            query = decode(self.rfile.read(int.from_bytes(size, "big")))
            if len(query.questions) != 1:
                return
            origin, records = read_zone(self.server.path)
            if query.questions[0].qtype in (TYPES["AXFR"], TYPES["IXFR"]):
                for message in transfer(query, records):
                    self.wfile.write(framed(encode(message, compressed=True)))
            else:
                self.wfile.write(framed(encode(answer(query, origin, records), compressed=True)))


class Server(socketserver.ThreadingTCPServer):
    allow_reuse_address = True
    daemon_threads = True
    request_queue_size = 128

    def __init__(self, address, port):
        self.address_family = socket.AF_INET6 if ":" in address else socket.AF_INET
        super().__init__((address, port), Connection)


def main():
    address, port, path = sys.argv[1:4]
    read_zone(path)
    with Server(address, int(port)) as server:
        server.path = path
        server.serve_forever()


if __name__ == "__main__":
    main()
