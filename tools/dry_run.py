#!/usr/bin/env python3
"""dry_run.py: writes the script of one query over a policy zone as its primary sends it, for `rpz replay`.

    python3 dry_run.py ADDRESS PORT ZONE CLIENT NAME | rpz replay

ADDRESS and PORT are the zone's primary, which must allow transfers to this host; CLIENT is the address that asks for the A records of
NAME. A line of a script has at most 200,000 bytes, so that the zone must be small.

The first line of the transcript is `taken 1 SERIAL ROWS`. The second is one of these:

    reply 0 HEX   the reply. Digits 5 to 8 are 8180 for NOERROR, 8183 for NXDOMAIN, and 8380 if the client is sent to TCP; digits
                  21 to 24 are 0001 if a rule made it (the zone's SOA record)
    silent 0      the query is dropped
    ask 0 HEX     a question: no rule about the client or the name decides, or the rule needs the upstream's answer. Add it to the
                  script as a line `give 0 HEX`, with the ID of the question
"""
import ipaddress
import socket
import struct
import sys

A, AXFR = 1, 252
RECURSION_DESIRED = 256
LINE_BYTES = 200_000
SECONDS = 2


def message(flags, name, qtype):
    """A question with the ID 0."""
    labels = b"".join(bytes([len(label)]) + label.encode() for label in name.rstrip(".").split("."))
    return struct.pack("!6H", 0, flags, 1, 0, 0, 0) + labels + struct.pack("!BHH", 0, qtype, 1)


def transfer(address, port, zone):
    """All that the primary sends for AXFR, until it closes the connection or says nothing for 2 seconds."""
    request, stream = message(0, zone, AXFR), b""
    with socket.create_connection((address, port), SECONDS) as primary:
        primary.sendall(struct.pack("!H", len(request)) + request)
        try:
            while octets := primary.recv(65536):
                stream += octets
        except TimeoutError:
            pass
    return stream


def client_text(address):
    """The address as a script has it: four decimals, or the 32 digits of version 6."""
    client = ipaddress.ip_address(address)
    return str(client) if client.version == 4 else client.packed.hex()


def main():
    if len(sys.argv) != 6:
        sys.exit("usage: dry_run.py ADDRESS PORT ZONE CLIENT NAME")
    address, port, zone, client, name = sys.argv[1:]
    try:
        line = f"xfer 1 {transfer(address, int(port), zone).hex() or '-'}"
    except OSError as fault:
        sys.exit(f"{address} port {port}: {fault}")
    if len(line) > LINE_BYTES:
        sys.exit(f"the zone is too large: a line of a script has at most {LINE_BYTES} bytes, and this one would have {len(line)}")
    print(f"zone {zone}\n{line}\nquery 0 udp {client_text(client)} {message(RECURSION_DESIRED, name, A).hex()}")


if __name__ == "__main__":
    main()
