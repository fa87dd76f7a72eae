# Prints open lines for what examples/c/esp.c sealed into the file `lines`, and what it must answer into the file `want`: each packet as it is,
# and with one bit flipped; the first eighteen also with every single bit flipped, cut at each byte, and with a byte more.
# Run it as: awk -v lines=OPENS -v want=WANT -f tests/c/opens.awk SEALS SEALED
BEGIN {
    digits = "0123456789abcdef"
}
FNR == NR {
    front[FNR - 1] = "open " $2 " " $3 " " $4 " "
    opened[FNR - 1] = $8 " " $9
    next
}
{
    packet = $2
    put(packet, opened[$1])
    bits = 4 * length(packet)
    if ($1 >= 18) {
        put(flipped(packet, ($1 * 7919) % bits), "drop")
        next
    }
    for (bit = 0; bit < bits; bit++) put(flipped(packet, bit), "drop")
    for (len = length(packet) - 2; len > 0; len -= 2) put(substr(packet, 1, len), "drop")
    put("-", "drop")
    put(packet "00", "drop")
}
function put(bytes, answer) {
    print front[$1] bytes > lines
    print count++, answer > want
}
function flipped(bytes, bit,    at, digit, weight) {
    at = int(bit / 4) + 1
    weight = 2 ^ (bit % 4)
    digit = index(digits, substr(bytes, at, 1)) - 1
    digit += int(digit / weight) % 2 == 0 ? weight : -weight
    return substr(bytes, 1, at - 1) substr(digits, digit + 1, 1) substr(bytes, at + 1)
}
