"""What `rpz load SEED RULES QUERIES WORKERS` writes, computed apart from the product."""
import struct
import sys

HEADER = 12
# What is behind the owner of a record: of the SOA with the serial 1, and of an address without that itself.
SOA = bytes.fromhex("000600010000003c0016" "0000" "00000001" "00000e10" "00000258" "00015180" "0000003c")
A = bytes.fromhex("000100010000003c0004")


def draws(seed):
    x = seed
    while True:
        x = (x * 6364136223846793005 + 1442695040888963407) % 2**64
        yield x >> 33


def wire(text):
    return b"".join(bytes([len(it)]) + it.encode() for it in text.split(".")) + b"\0"


def pointer(place):
    """Stands for the name at a place of the message (RFC 1035, section 4.1.4)."""
    return struct.pack(">H", 0xC000 | place)


def fold(octets, modulus):
    v = 0
    for byte in octets:
        v = (31 * v + byte) % modulus
    return v


def owner(a, b, c):
    name = f"h{b % 4096}.g{c % 64}.example"
    kind = a % 4
    if kind == 0:
        return ("name", name)
    if kind == 1:
        return ("wild", name)
    if kind == 2:
        return ("answer", (10, 0, b % 256, c % 256))
    return ("client", (10, b % 256, c % 256))


def load(seed, rules, queries):
    from_seed = draws(seed)
    rows = {}
    count = 0
    for _ in range(rules):
        a, b, c = (next(from_seed) for _ in range(3))
        actions = rows.setdefault(owner(a, b, c), set())
        action = a // 4 % 3
        count += action not in actions
        actions.add(action)
    # Rows of one trigger with different targets say nothing.
    live = {trigger: min(them) for trigger, them in rows.items() if len(them) == 1}
    sums = [0, 0, 0]
    mark = 0
    for k in range(1, queries + 1):
        a, b, c, d = (next(from_seed) for _ in range(4))
        host = f"h{b % 4096}.g{c % 64}.example"
        name = "w." + host if a % 2 else host
        octets = wire(name)
        y, z = divmod(fold(octets, 65536), 256)
        action = live.get(("client", (10, d % 256, d // 256 % 256)))
        if action is None:
            action = live.get(("wild", host)) if a % 2 else live.get(("name", host))
        if action is None:
            action = live.get(("answer", (10, 0, y, z)))
        question = octets + b"\0\1\0\1"
        if action in (0, 1):
            rcode = 3 if action == 0 else 0
            reply = struct.pack(">6H", k % 65536, 0x8180 + rcode, 1, 0, 0, 1) + question
            # rpz.example, whose `example` ends the question's name
            reply += wire("rpz")[:-1] + pointer(HEADER + octets.index(wire("example"))) + SOA
            sums[action] += 1
        else:
            reply = struct.pack(">6H", k % 65536, 0x8180, 1, 1, 0, 0) + question
            reply += pointer(HEADER) + A + bytes([10, 0, y, z])
            sums[2] += 1
        for byte in reply:
            mark = (31 * mark + byte) % 2**64
    return f"rows {count} nxdomain {sums[0]} nodata {sums[1]} other {sums[2]} mark {mark}"


if __name__ == "__main__":
    print(load(*map(int, sys.argv[1:4])))
