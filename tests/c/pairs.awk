# Prints job lines (docs/FORMAT.md), as many as `count` says: every cipher with every authentication, also if the two don't go together,
# and drawn bytes. One line in eight has a length that may not be taken. Run it as: awk -v count=4000 -f tests/c/pairs.awk
BEGIN {
    split("null cbc ctr gcm ccm", ciphers)
    split("null hmac-sha1 hmac-sha224 hmac-sha256 hmac-sha384 hmac-sha512 cmac128 cmac256 gcm gmac ccm sha1 sha224 sha256 sha384 sha512", auths)
    split("0 20 28 32 48 64 16 16 16 16 16 20 28 32 48 64", tag_lens)
    for (i = 0; i < count; i++) {
        cipher = ciphers[i % 5 + 1]
        number = int(i / 5) % 16 + 1
        if (int(i / 80) % 4 != 0) make_pair()
        auth = auths[number]
        len = drawn(12) == 0 ? 0 : drawn(300)
        cipher_off = drawn(len / 4)
        cipher_len = len - cipher_off
        if (cipher == "cbc") cipher_len -= cipher_len % 16
        hash_off = drawn(len / 4)
        hash_len = len - hash_off - drawn((len - hash_off) / 2)
        tag_len = drawn(3) == 0 ? 1 + drawn(tag_lens[number]) : tag_lens[number]
        if (auth == "ccm") tag_len = 4 + 2 * drawn(7)
        key_len = 8 * (2 + drawn(3))
        iv_more = auth_key_more = 0
        if (drawn(8) == 0) spoil()
        print cipher, drawn(2) ? "enc" : "dec", drawn(2) ? "ch" : "hc", hex(key_len), hex(iv_len() + iv_more), cipher_off, cipher_len, auth, hex(auth_key_len() + auth_key_more), hex(drawn(40)), hash_off, hash_len, tag_len, hex(len)
    }
}
# The cipher's own authentication, or else another one than that of a cipher.
function make_pair() {
    if (cipher == "gcm") number = 9
    else if (cipher == "ccm") number = 11
    else if (number == 9 || number == 11) number += 4
    else if (number == 10) cipher = "null"
}
function iv_len() {
    if (cipher == "cbc") return 16
    if (cipher == "ctr") return drawn(2) ? 12 : 16
    return cipher == "ccm" ? 7 + drawn(7) : 1 + drawn(20)
}
function auth_key_len() {
    if (auth == "cmac128") return 16
    if (auth == "cmac256") return 32
    return auth == "gmac" ? 8 * (2 + drawn(3)) : drawn(140)
}
function spoil(    which) {
    which = drawn(7)
    if (which == 0) key_len += 1
    else if (which == 1) cipher_len += 1
    else if (which == 2) hash_off += 200
    else if (which == 3) tag_len += 1
    else if (which == 4) iv_more = 7
    else if (which == 5) auth_key_more = 901
    else cipher_off += 200
}
function drawn(below) {
    state = (state * 69069 + 12345) % 4294967296
    return int(state / 4294967296 * int(below))
}
function hex(len,    bytes) {
    while (len-- > 0) bytes = bytes sprintf("%02x", drawn(256))
    return bytes == "" ? "-" : bytes
}
