"""Hashes of FIPS 180-4 that go on from a state, for HMAC from stored states (RFC 2104, 4)."""
import hashlib
from math import isqrt

# The bytes of a block, of a state and of its words, and the rounds, by the hash.
SIZES = {"sha1": (64, 20, 4, 80), "sha224": (64, 32, 4, 64), "sha256": (64, 32, 4, 64), "sha384": (128, 64, 8, 80), "sha512": (128, 64, 8, 80)}


def primes(count):
    found = []
    number = 2
    while len(found) < count:
        if all(number % prime for prime in found):
            found.append(number)
        number += 1
    return found


def cube_root(number):
    root = 1 << -(-number.bit_length() // 3)
    while root ** 3 > number:
        root = (2 * root + number // root ** 2) // 3
    return root


# The first bits of the fractional parts of the cube roots of the first primes (4.2.2, 4.2.3).
CONSTANTS = {bits: [cube_root(prime << 3 * bits) % 2 ** bits for prime in primes(rounds)] for bits, rounds in ((32, 64), (64, 80))}
ROTATIONS = {32: ((7, 18, 3), (17, 19, 10), (2, 13, 22), (6, 11, 25)), 64: ((1, 8, 7), (19, 61, 6), (28, 34, 39), (14, 18, 41))}


def rotated(word, by, bits):
    return (word >> by | word << bits - by) % 2 ** bits


def sha1_block(state, words):
    for t in range(16, 80):
        words.append(rotated(words[t - 3] ^ words[t - 8] ^ words[t - 14] ^ words[t - 16], 31, 32))
    a, b, c, d, e = state
    for t in range(80):
        mixed = [b & c ^ ~b & d, b ^ c ^ d, b & c ^ b & d ^ c & d, b ^ c ^ d][t // 20]
        constant = isqrt([2, 3, 5, 10][t // 20] << 60)
        a, b, c, d, e = (rotated(a, 27, 32) + mixed + e + constant + words[t]) % 2 ** 32, a, rotated(b, 2, 32), c, d
    return [(x + y) % 2 ** 32 for x, y in zip(state, (a, b, c, d, e))]


def sha2_block(state, words, bits):
    small = [lambda x, r=r: rotated(x, r[0], bits) ^ rotated(x, r[1], bits) ^ x >> r[2] for r in ROTATIONS[bits][:2]]
    large = [lambda x, r=r: rotated(x, r[0], bits) ^ rotated(x, r[1], bits) ^ rotated(x, r[2], bits) for r in ROTATIONS[bits][2:]]
    for t in range(16, len(CONSTANTS[bits])):
        words.append((small[1](words[t - 2]) + words[t - 7] + small[0](words[t - 15]) + words[t - 16]) % 2 ** bits)
    a, b, c, d, e, f, g, h = state
    for constant, word in zip(CONSTANTS[bits], words):
        first = h + large[1](e) + (e & f ^ ~e & g) + constant + word
        second = large[0](a) + (a & b ^ a & c ^ b & c)
        a, b, c, d, e, f, g, h = (first + second) % 2 ** bits, a, b, c, (d + first) % 2 ** bits, e, f, g
    return [(x + y) % 2 ** bits for x, y in zip(state, (a, b, c, d, e, f, g, h))]


def finished(digest, state, message):
    """The digest of a text whose first block led to this state, and that goes on with the message."""
    block, size, width, _ = SIZES[digest]
    count = 8 * (block + len(message))
    padded = message + b"\x80" + bytes(-(len(message) + 1 + 2 * width) % block) + count.to_bytes(2 * width, "big")
    words = [int.from_bytes(state[i:i + width], "big") for i in range(0, size, width)]
    for start in range(0, len(padded), block):
        chunk = [int.from_bytes(padded[i:i + width], "big") for i in range(start, start + block, width)]
        words = sha1_block(words, chunk) if digest == "sha1" else sha2_block(words, chunk, 8 * width)
    return b"".join(word.to_bytes(width, "big") for word in words)[:hashlib.new(digest).digest_size]


def hmac_from(digest, states, message):
    """HMAC from the inner and the outer state, one behind the other."""
    size = SIZES[digest][1]
    return finished(digest, states[size:], finished(digest, states[:size], message))
