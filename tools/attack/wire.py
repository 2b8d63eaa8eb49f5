"""DNS messages as bytes, for the scripts beside this one (RFC 1035, section 4.1)."""

import struct

A, NS, SOA, TXT, AXFR, IXFR = 1, 2, 6, 16, 252, 251


def name_octets(name):
    labels = [label for label in name.split(".") if label]
    return b"".join(bytes([len(label)]) + label.encode() for label in labels) + b"\0"


def query(number, name, qtype=A, opcode=0, desired=True):
    flags = opcode << 11 | (0x0100 if desired else 0)
    return struct.pack("!HHHHHH", number, flags, 1, 0, 0, 0) + name_octets(name) + struct.pack("!HH", qtype, 1)


def notify(number, zone):
    """A NOTIFY for the SOA of a zone (RFC 1996, section 3.7)."""
    return struct.pack("!HHHHHH", number, 4 << 11 | 0x0400, 1, 0, 0, 0) + name_octets(zone) + struct.pack("!HH", SOA, 1)


def frame(message):
    return struct.pack("!H", len(message)) + message


def question_end(message):
    at = 12
    while message[at]:
        at += message[at] + 1
    return at + 5


def question_name(message):
    at, labels = 12, []
    while message[at]:
        labels.append(message[at + 1: at + 1 + message[at]].decode("ascii", "replace").lower())
        at += message[at] + 1
    return ".".join(labels)


def question_type(message):
    end = question_end(message)
    return struct.unpack("!H", message[end - 4: end - 2])[0]


def record(owner, rtype, data, ttl=60):
    return name_octets(owner) + struct.pack("!HHIH", rtype, 1, ttl, len(data)) + data


def answer(message, addresses=("192.0.2.9",), ttl=60, rcode=0):
    """The response to a query, with these addresses of its name."""
    end = question_end(message)
    header = message[:2] + struct.pack("!HHHHH", 0x8180 | rcode, 1, len(addresses), 0, 0)
    records = b"".join(
        b"\xc0\x0c" + struct.pack("!HHIH", A, 1, ttl, 4) + bytes(map(int, address.split("."))) for address in addresses
    )
    return header + message[12:end] + records


def large_answer(message, ttl=60):
    """The response to a query with one TXT record of nearly 60,000 octets."""
    data = (bytes([255]) + bytes([120]) * 255) * 234
    header = message[:2] + struct.pack("!HHHHH", 0x8180, 1, 1, 0, 0)
    return header + message[12:question_end(message)] + b"\xc0\x0c" + struct.pack("!HHIH", TXT, 1, ttl, len(data)) + data


def soa_data(serial, refresh=3600, retry=600):
    return b"\0\0" + struct.pack("!IIIII", serial, refresh, retry, 86400, 60)


def transfer(request, zone, serial, rules):
    """A whole zone as the messages of a transfer: its SOA record, a CNAME to the root for each name of a rule, and the SOA again."""
    soa = record(zone, SOA, soa_data(serial))
    return messages(request, [soa, *(rule(f"{name}.{zone}") for name in rules), soa])


def rule(owner):
    """The row of a rule that says NXDOMAIN: a CNAME to the root."""
    return record(owner, 5, b"\0")


def messages(request, records):
    """The messages of a transfer with these records, behind their lengths."""
    first = request[12:question_end(request)]
    for start in range(0, len(records), 400):
        part = records[start: start + 400]
        question = first if start == 0 else b""
        header = request[:2] + struct.pack("!HHHHH", 0x8400, 1 if question else 0, len(part), 0, 0)
        yield frame(header + question + b"".join(part))


def ixfr_serial(request):
    """The serial that an IXFR request has: the first number of its SOA record, whose two names are in full or are pointers."""
    at = question_end(request)
    at = name_end(request, at) + 10
    at = name_end(request, name_end(request, at))
    return struct.unpack("!I", request[at: at + 4])[0]


def name_end(message, at):
    while message[at]:
        if message[at] >= 0xC0:
            return at + 2
        at += message[at] + 1
    return at + 1


def number_of(message):
    """The ID of a message."""
    return int.from_bytes(message[:2], "big")


def rcode_of(message):
    return message[3] & 15


def read_exactly(sock, count):
    parts = b""
    while len(parts) < count:
        more = sock.recv(count - len(parts))
        if not more:
            return None
        parts += more
    return parts


def read_frame(sock):
    head = read_exactly(sock, 2)
    if head is None:
        return None
    return read_exactly(sock, struct.unpack("!H", head)[0])
