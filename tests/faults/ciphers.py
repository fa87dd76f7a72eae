"""AES and its modes, one block at a time."""

# AES, FIPS 197.


def times(a, b):
    product = 0
    while b:
        product ^= a * (b & 1)
        a = (a << 1) ^ (0x11B * (a >> 7))
        b >>= 1
    return product


def rotated(byte, count):
    return ((byte << count) | (byte >> (8 - count))) & 0xFF


def substitute(a):
    inverse = next((b for b in range(256) if times(a, b) == 1), 0)
    value = 0x63
    for count in range(5):
        value ^= rotated(inverse, count)
    return value


SBOX = [substitute(a) for a in range(256)]
INVERSE_SBOX = [SBOX.index(a) for a in range(256)]
TIMES = {factor: [times(a, factor) for a in range(256)] for factor in (1, 2, 3, 9, 11, 13, 14)}


def xor(a, b):
    return bytes(x ^ y for x, y in zip(a, b))


def schedule(key):
    words, width, rcon = [key[i:i + 4] for i in range(0, len(key), 4)], len(key) // 4, 1
    for i in range(width, 4 * (width + 7)):
        word = words[-1]
        if i % width == 0:
            word = bytes(SBOX[b] for b in word[1:] + word[:1])
            word, rcon = bytes([word[0] ^ rcon]) + word[1:], times(rcon, 2)
        elif width == 8 and i % width == 4:
            word = bytes(SBOX[b] for b in word)
        words.append(xor(words[i - width], word))
    return [b"".join(words[i:i + 4]) for i in range(0, len(words), 4)]


def mix(state, factors):
    mixed = []
    for column in range(0, 16, 4):
        for row in range(4):
            value = 0
            for k in range(4):
                value ^= TIMES[factors[(k - row) % 4]][state[column + k]]
            mixed.append(value)
    return bytes(mixed)


def encipher(keys, block):
    state = xor(block, keys[0])
    for key in keys[1:]:
        state = bytes(SBOX[b] for b in state)
        state = bytes(state[(i + 4 * (i % 4)) % 16] for i in range(16))
        state = xor(mix(state, (2, 3, 1, 1)) if key is not keys[-1] else state, key)
    return state


def decipher(keys, block):
    state = block
    for key in keys[:0:-1]:
        state = xor(state, key)
        state = mix(state, (14, 11, 13, 9)) if key is not keys[-1] else state
        state = bytes(state[(i - 4 * (i % 4)) % 16] for i in range(16))
        state = bytes(INVERSE_SBOX[b] for b in state)
    return xor(state, keys[0])


# The modes, SP 800-38A, SP 800-38B and SP 800-38D.


def blocks_of(text):
    return [text[i:i + 16] for i in range(0, len(text), 16)]


def cbc(keys, iv, text, encrypts):
    out = []
    for block in blocks_of(text):
        if encrypts:
            iv = encipher(keys, xor(block, iv))
            out.append(iv)
        else:
            out.append(xor(decipher(keys, block), iv))
            iv = block
    return b"".join(out)


def ctr(keys, iv, text):
    counter = int.from_bytes(iv if len(iv) == 16 else iv + b"\0\0\0\1", "big")
    out = b""
    for block in blocks_of(text):
        out += xor(block, encipher(keys, counter.to_bytes(16, "big")))
        counter = (counter + 1) % 2 ** 128
    return out


def filled(text):
    return text + bytes(-len(text) % 16)


def lengths(aad, text):
    return (8 * len(aad)).to_bytes(8, "big") + (8 * len(text)).to_bytes(8, "big")


def ghash(h, text):
    h, value = int.from_bytes(h, "big"), 0
    for block in blocks_of(text):
        x, y, value = value ^ int.from_bytes(block, "big"), h, 0
        for bit in range(127, -1, -1):
            value ^= y * (x >> bit & 1)
            y = (y >> 1) ^ ((0xE1 << 120) * (y & 1))
    return value.to_bytes(16, "big")


def gcm(keys, iv, aad, text, tag_len, encrypts):
    h = encipher(keys, bytes(16))
    first = iv + b"\0\0\0\1" if len(iv) == 12 else ghash(h, filled(iv) + lengths(b"", iv))
    out = b""
    for i, block in enumerate(blocks_of(text)):
        low = (int.from_bytes(first[12:], "big") + 1 + i) % 2 ** 32
        out += xor(block, encipher(keys, first[:12] + low.to_bytes(4, "big")))
    cipher_text = out if encrypts else text
    return out, xor(encipher(keys, first), ghash(h, filled(aad) + filled(cipher_text) + lengths(aad, text)))


def ccm(keys, nonce, aad, text, tag_len, encrypts):
    """SP 800-38C, 6.1 and 6.2, with the formatting and the counter blocks of its appendix A."""
    q = 15 - len(nonce)
    masks = [encipher(keys, bytes([q - 1]) + nonce + i.to_bytes(q, "big")) for i in range(len(text) // 16 + 2)]
    out = b"".join(map(xor, blocks_of(text), masks[1:]))
    plain = text if encrypts else out
    first = bytes([64 * bool(aad) + 4 * (tag_len - 2) + q - 1]) + nonce + len(text).to_bytes(q, "big")
    data = len(aad).to_bytes(2, "big") + aad if aad else b""
    mac = cbc(keys, bytes(16), first + filled(data) + filled(plain), True)[-16:]
    return out, xor(mac, masks[0])


def doubled(block):
    number = int.from_bytes(block, "big") << 1
    return (number % 2 ** 128 ^ 0x87 * (number >> 128)).to_bytes(16, "big")


def cmac(keys, message):
    mask = doubled(encipher(keys, bytes(16)))
    if not message or len(message) % 16:
        mask, message = doubled(mask), filled(message + b"\x80")
    last = xor(message[-16:], mask)
    return cbc(keys, bytes(16), message[:-16] + last, True)[-16:]
