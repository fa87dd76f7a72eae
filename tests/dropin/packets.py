"""packets.py make FILE COUNT: writes a file of packets that go through the five tunnels of gateway.cfg in turn.
packets.py same GIVEN BACK COUNT: whether all came back as they were given, but for what a router changes.
packets.py equal ONE OTHER COUNT: whether two files have as many packets of each tunnel, and the same bytes in those of CTR and GCM."""
import random
import struct
import sys

TUNNELS = 5
FIRST_SPI = 101
COUNTED = (2, 3, 4)  # CTR, GCM-128 and GCM-256, whose IVs are counters; those of CBC are drawn
ETHERNET, IP, UDP = 14, 20, 8  # bytes of each header
ESP = 50  # the number of its protocol (RFC 4303, 2)


def checksum(header):
    total = sum(struct.unpack(f">{len(header) // 2}H", header))
    while total >> 16:
        total = (total & 0xFFFF) + (total >> 16)
    return ~total & 0xFFFF


def packet(number, rng):
    body = struct.pack(">I", number) + rng.randbytes(rng.randrange(16, 1300))
    length = IP + UDP + len(body)
    source, target = bytes([10, 0, 0, 1]), bytes([192, 168, FIRST_SPI + number % TUNNELS, 1])
    head = struct.pack(">BBHHHBBH", 0x45, 0, length, number & 0xFFFF, 0, 64, 17, 0) + source + target
    head = head[:10] + struct.pack(">H", checksum(head)) + head[12:]
    udp = struct.pack(">HHHH", 1000 + number % 50000, 2000, UDP + len(body), 0)
    return bytes.fromhex("020000000001020000000002" "0800") + head + udp + body


def write(path, packets):
    with open(path, "wb") as out:
        out.write(struct.pack("<IHHiIII", 0xA1B2C3D4, 2, 4, 0, 0, 65535, 1))
        for number, data in enumerate(packets):
            out.write(struct.pack("<IIII", 1, number % 1000000, len(data), len(data)) + data)


def read(path):
    data = open(path, "rb").read()
    at, packets = 24, []
    while at + 16 <= len(data):
        length = struct.unpack_from("<I", data, at + 8)[0]
        packets.append(data[at + 16:at + 16 + length])
        at += 16 + length
    return packets


def inner(data):
    """The number of an IP packet, and the packet without its time to live and its checksum."""
    length = struct.unpack_from(">H", data, ETHERNET + 2)[0]
    ip = data[ETHERNET:ETHERNET + length]
    return struct.unpack_from(">I", ip, IP + UDP)[0], ip[:8] + ip[9:10] + ip[12:]


def same(given, back, count):
    wanted, got = dict(map(inner, read(given))), list(map(inner, read(back)))
    wrong = sum(wanted.get(number) != ip for number, ip in got)
    print(f"{len(got)} of {count} packets came back, {len(dict(got))} different ones, {wrong} wrong")
    return len(got) == len(dict(got)) == count and wrong == 0


def by_tunnel(path):
    """The ESP packets of a file, by their SPI, without what stands before ESP."""
    tunnels = {}
    for data in read(path):
        if data[ETHERNET + 9] == ESP:
            length = struct.unpack_from(">H", data, ETHERNET + 2)[0]
            esp = data[ETHERNET + IP:ETHERNET + length]
            tunnels.setdefault(struct.unpack_from(">I", esp)[0], []).append(esp)
    return tunnels


def equal(one, other, count):
    first, second = by_tunnel(one), by_tunnel(other)
    each = count // TUNNELS
    counts = [len(tunnels.get(FIRST_SPI + t, [])) for tunnels in (first, second) for t in range(TUNNELS)]
    alike = [first.get(FIRST_SPI + t) == second.get(FIRST_SPI + t) for t in COUNTED]
    print(f"packets of each tunnel: {counts}; those of CTR, GCM-128 and GCM-256 are the same: {alike}")
    return counts == [each] * 2 * TUNNELS and all(alike)


command, *words = sys.argv[1:]
if command == "make":
    rng = random.Random(1)
    write(words[0], [packet(number, rng) for number in range(int(words[1]))])
else:
    sys.exit(not {"same": same, "equal": equal}[command](words[0], words[1], int(words[2])))
