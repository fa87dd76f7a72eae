# Prints seal lines for examples/c/esp.c, as many as `count` says: every suite, with and without extended sequence numbers, each length of a
# key, and drawn bytes. The payloads of the first eighteen are short. Run it as: awk -v count=1000 -f tests/c/seals.awk
BEGIN {
    split("cbc-hmac-sha1-96 cbc-hmac-sha256-128 cbc-hmac-sha384-192 cbc-hmac-sha512-256 cbc-cmac-96 ctr-hmac-sha256-128 null-hmac-sha256-128 gcm-16 ccm-16", suites)
    split("0 0 0 0 0 4 0 4 3", salts)
    split("16 16 16 16 16 8 0 8 8", ivs)
    split("20 32 48 64 16 32 32 0 0", auth_keys)
    for (i = 0; i < count; i++) {
        number = i % 9 + 1
        is_esn = int(i / 9) % 2
        key = number == 7 ? 0 : 8 * (int(i / 18) % 3 + 2) + salts[number]
        high = is_esn ? drawn(2097152) : 0 # a sequence number below 2^53, which awk holds
        seq = sprintf("%.0f", high * 4294967296 + drawn(65536) * 65536 + drawn(65536))
        len = i < 18 ? 3 + drawn(10) : i % 50 == 49 ? drawn(9000) : drawn(200)
        print "seal", suites[number] (is_esn ? "-esn" : ""), hex(key), hex(auth_keys[number]), hex(4), seq, hex(ivs[number]), drawn(256), hex(len)
    }
}
function drawn(below) {
    state = (state * 69069 + 12345) % 4294967296
    return int(state / 4294967296 * below)
}
function hex(len,    bytes) {
    while (len-- > 0) bytes = bytes sprintf("%02x", drawn(256))
    return bytes == "" ? "-" : bytes
}
