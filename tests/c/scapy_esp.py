"""Seals and opens packets by examples/c/esp.c beside scapy's ESP layer, both ways: scapy_esp.py PROGRAM.

Each packet that the one seals is that of the other, byte for byte, and each opens the other's. Packets of which a bit is flipped, or that are
cut, are dropped by both, and so are packets by scapy with a right tag over wrong padding. scapy has extended sequence numbers for the combined
modes alone: for the others its own tag is taken over the packet with the high half behind it (RFC 4303, section 2.2.1).
"""
import random
import struct
import subprocess
import sys

from scapy.layers.inet import ICMP, IP, UDP
from scapy.layers.ipsec import AUTH_ALGOS, ESP, SecurityAssociation, _ESPPlain
from scapy.packet import Raw, raw

# Of each suite scapy's cipher and authentication, the lengths of the cipher's key with its salt, and that of the other key.
SUITES = {
    "cbc-hmac-sha1-96": ("AES-CBC", "HMAC-SHA1-96", (16, 24, 32), 20),
    "cbc-hmac-sha256-128": ("AES-CBC", "SHA2-256-128", (16, 24, 32), 32),
    "cbc-hmac-sha384-192": ("AES-CBC", "SHA2-384-192", (16, 24, 32), 48),
    "cbc-hmac-sha512-256": ("AES-CBC", "SHA2-512-256", (16, 24, 32), 64),
    "cbc-cmac-96": ("AES-CBC", "AES-CMAC-96", (16, 24, 32), 16),
    "ctr-hmac-sha256-128": ("AES-CTR", "SHA2-256-128", (20, 28, 36), 32),
    "null-hmac-sha256-128": ("NULL", "SHA2-256-128", (0,), 32),
    "gcm-16": ("AES-GCM", "NULL", (20, 28, 36), 0),
    "ccm-16": ("AES-CCM", "NULL", (19, 27, 35), 0),
}
EXPERIMENTAL = 253  # a NEXT whose payload scapy takes as bytes
PAYLOAD_LENGTHS = (*range(20), 61, 62, 63, 64, 255, 1400, 9000)
draws = random.Random(3)


def check(condition, *what):
    if not condition:
        sys.exit("scapy_esp: " + " ".join(map(str, what)))


def outer(next_header):
    return IP(src="192.0.2.1", dst="192.0.2.2", proto=next_header)


class Association:
    """A security association: its keys, and scapy's over the same."""

    def __init__(self, suite, key_len, is_esn):
        crypt, auth, _, auth_key_len = SUITES[suite]
        self.suite = suite + ("-esn" if is_esn else "")
        self.key = draws.randbytes(key_len)
        self.auth_key = draws.randbytes(auth_key_len)
        self.spi = draws.getrandbits(32)
        self.seq = draws.getrandbits(64 if is_esn else 32) | 1
        self.high = struct.pack("!L", self.seq >> 32) if is_esn else b""
        self.auth = AUTH_ALGOS[auth]
        self.has_own_tag = is_esn and auth != "NULL"
        self.peer = SecurityAssociation(
            ESP, self.spi, crypt_algo=crypt, crypt_key=self.key, auth_algo="NULL" if self.has_own_tag else auth,
            auth_key=self.auth_key, esn_en=is_esn, esn=self.seq >> 32)

    def tag(self, sealed):
        mac = self.auth.new_mac(self.auth_key)
        mac.update(sealed + self.high)
        return mac.finalize()[:self.auth.icv_size]

    def tagged(self, esp):
        return raw(esp) + self.tag(raw(esp)) if self.has_own_tag else raw(esp)

    def seal(self, next_header, payload, iv=None):
        sealed = self.peer.encrypt(outer(next_header) / Raw(payload), seq_num=self.seq & 0xffffffff, iv=iv)
        return self.tagged(sealed[ESP])

    def seal_padded(self, payload, padding, pad_len):
        """A packet with a padding of one's own, whatever that is."""
        algo = self.peer.crypt_algo
        plain = _ESPPlain(spi=self.spi, seq=self.seq & 0xffffffff, iv=algo.generate_iv(), data=Raw(payload),
                          padding=padding, padlen=pad_len, nh=EXPERIMENTAL)
        esp = algo.encrypt(self.peer, plain, self.peer.crypt_key, esn_en=bool(self.high), esn=self.seq >> 32)
        self.peer.auth_algo.sign(esp, self.auth_key)
        return self.tagged(esp)

    def open(self, packet):
        """NEXT and payload, or None if scapy refuses the packet."""
        try:
            if self.has_own_tag:
                packet, received = packet[:-self.auth.icv_size], packet[-self.auth.icv_size:]
                if received != self.tag(packet):
                    return None
            opened = self.peer.decrypt(outer(50) / ESP(packet))
        except Exception:  # by what is wrong with the packet, one of many
            return None
        return opened.proto, raw(opened.payload)

    def front(self, word):
        return f"{word} {self.suite} {text(self.key)} {text(self.auth_key)}"

    def seal_line(self, next_header, payload, iv):
        return f"{self.front('seal')} {self.spi:08x} {self.seq} {text(iv)} {next_header} {text(payload)}"

    def open_line(self, packet):
        """A line has the high half of SEQ, which isn't on the wire."""
        return f"{self.front('open')} {text(packet[:4] + self.high + packet[4:])}"

    def on_wire(self, answer):
        packet = bytes.fromhex(answer)
        return packet[:4] + packet[4 + len(self.high):]


def text(data):
    return data.hex() or "-"


def answers(program, lines):
    """What the program answers to each line, without its number."""
    run = subprocess.run([program], input="\n".join(lines) + "\n", capture_output=True, text=True)
    check(run.returncode == 0 and not run.stderr, "status", run.returncode, run.stderr)
    numbered = [line.split(" ", 1) for line in run.stdout.splitlines()]
    check([number for number, _ in numbered] == [str(i) for i in range(len(lines))], "lines are not answered in order")
    return [answer for _, answer in numbered]


def payloads():
    for length in PAYLOAD_LENGTHS:
        yield EXPERIMENTAL, draws.randbytes(length)
    yield 1, raw(ICMP(type=8, id=7, seq=1) / Raw(draws.randbytes(40)))
    yield 17, raw(UDP(sport=500, dport=4500) / Raw(draws.randbytes(33)))
    yield 4, raw(IP(src="198.51.100.1", dst="198.51.100.2") / ICMP() / Raw(draws.randbytes(30)))


def test_sealing(program, associations):
    """The program seals as scapy does, and scapy opens it."""
    cases = [(sa, *payload, draws.randbytes(sa.peer.crypt_algo.iv_size)) for sa in associations for payload in payloads()]
    sealed = answers(program, [sa.seal_line(*case) for sa, *case in cases])
    for (sa, next_header, payload, iv), answer in zip(cases, sealed):
        packet = sa.on_wire(answer)
        check(packet == sa.seal(next_header, payload, iv), sa.suite, len(payload), "is sealed in another way by scapy")
        check(sa.open(packet) == (next_header, payload), sa.suite, len(payload), "is not opened by scapy")
    return len(cases)


def test_opening(program, associations):
    """The program opens what scapy seals."""
    cases = [(sa, *payload) for sa in associations for payload in payloads()]
    opened = answers(program, [sa.open_line(sa.seal(*case)) for sa, *case in cases])
    for (sa, next_header, payload), answer in zip(cases, opened):
        check(answer == f"{next_header} {text(payload)}", sa.suite, len(payload), "sealed by scapy is not opened")
    return len(cases)


def spoiled(packet):
    for bit in draws.sample(range(8 * len(packet)), 40):
        at, mask = divmod(bit, 8)
        yield packet[:at] + bytes([packet[at] ^ 1 << mask]) + packet[at + 1:]
    for length in draws.sample(range(len(packet)), 10):
        yield packet[:length]
        yield packet[len(packet) - length:]


def test_dropping(program, associations):
    """A packet of which a bit is flipped, or that is cut, is dropped by both."""
    cases = [(sa, packet) for sa in associations for packet in spoiled(sa.seal(EXPERIMENTAL, draws.randbytes(23)))]
    dropped = answers(program, [sa.open_line(packet) for sa, packet in cases])
    for (sa, packet), answer in zip(cases, dropped):
        check(answer == "drop" and sa.open(packet) is None, sa.suite, packet.hex(), "is opened")
    return len(cases)


def paddings(align):
    """Payload, padding, its length as it is told, and whether that is right."""
    for length in (align - 2, 2 * align - 2, 254 // align * align - 2):
        right = bytes(range(1, length + 1))
        yield b"", right, length, True
        yield b"", right, length + 1, False
        yield b"", right, 255, False
        yield b"", right[:-1] + b"\0", length, False
        yield b"", bytes([right[0] + 1]) + right[1:], length, False
        yield b"", bytes(length), length, False
    yield draws.randbytes(align - 2), b"", 0, True
    yield b"", draws.randbytes(align - 2), align, False


def test_padding(program, associations):
    """A right tag doesn't help if the padding is wrong. One that is longer than it had to be is right."""
    cases = [(sa, *case) for sa in associations for case in paddings(16 if sa.suite.startswith("cbc") else 4)]
    opened = answers(program, [sa.open_line(sa.seal_padded(*case)) for sa, *case, _ in cases])
    for (sa, payload, padding, pad_len, is_right), answer in zip(cases, opened):
        want = f"{EXPERIMENTAL} {text(payload)}" if is_right else "drop"
        check(answer == want, sa.suite, padding.hex(), pad_len, "comes to", answer)
    return len(cases)


def main():
    program = sys.argv[1]
    associations = [Association(suite, key_len, is_esn)
                    for suite, (_, _, key_lens, _) in SUITES.items() for key_len in key_lens for is_esn in (False, True)]
    for test in (test_sealing, test_opening, test_dropping, test_padding):
        print(test(program, associations), test.__doc__)


if __name__ == "__main__":
    main()
