# Prints 20,000 job lines over packets of 256 bytes: no cipher, CBC and CTR, each with each HMAC, each CMAC and no authentication, and GCM; in
# both directions and orders, and with the three lengths of an AES key. Run it as: awk -f examples/mixed.awk
BEGIN {
    split("null cbc ctr gcm", ciphers)
    split("hmac-sha1 hmac-sha224 hmac-sha256 hmac-sha384 hmac-sha512 cmac128 cmac256 null", auths)
    split("20 28 32 48 64 16 16 0", tag_lens)
    split("enc dec", dirs)
    split("ch hc", orders)
    for (i = 0; i < 256; i++) bytes = bytes sprintf("%02x", i)
    for (i = 0; i < 20000; i++) {
        cipher = ciphers[i % 4 + 1]
        number = int(i / 4) % 8 + 1
        dir = dirs[int(i / 32) % 2 + 1]
        order = orders[int(i / 64) % 2 + 1]
        key = hex(8 * (int(i / 128) % 3 + 2))
        iv = hex(cipher == "gcm" ? 12 : 16)
        auth = auths[number]
        tag_len = tag_lens[number]
        auth_key = hex(auth == "cmac256" ? 32 : 16)
        aad = "-"
        cipher_len = 256
        hash_len = auth == "null" ? 0 : 256
        if (cipher == "null") {
            key = "-"; iv = "-"; cipher_len = 0
        }
        if (cipher == "gcm") {
            auth = "gcm"; auth_key = "-"; aad = hex(12); hash_len = 0; tag_len = 16
        }
        print cipher, dir, order, key, iv, 0, cipher_len, auth, auth_key, aad, 0, hash_len, tag_len, bytes
    }
}
function hex(len) {
    return substr(bytes, 1, 2 * len)
}
