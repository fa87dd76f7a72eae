"""The tables of what mbj_bench prints: jobs from Rattle, threads, full lanes and kernels."""
from cells import BUILDS, LENGTHS, by, cell, hundredths, table, tenths, whole

HASHES = (("sha1", "SHA-1"), ("sha256", "SHA-256"), ("sha512", "SHA-512"))


def hashes(s):
    head = ["Hash", "default, plain crate, MB/s", "lanes", "arrays", "AVX2, plain crate, MB/s", "lanes", "arrays"]
    rows = []
    for name, title in HASHES:
        row = [title]
        for build, bits in (("default", 128), ("avx2", 256)):
            row += [
                whole(s[build].rate("hash", "rate", name, "plain crate")),
                hundredths(s[build].ratio("hash", "ratio", name, f"lanes of {bits} bits")),
                hundredths(s[build].ratio("hash", "ratio", name, "arrays")),
            ]
        rows.append(row)
    return table(head, rows)


RATES_HEAD = ["default, MB/s", "ratio", "AVX2, MB/s", "ratio"]


def rates_row(s, names):
    row = []
    for build in BUILDS:
        row.append(cell(s[build].rate(kind, "rate", *name) for kind, *name in names))
        row.append(cell((s[build].ratio(kind, "ratio", *name) for kind, *name in names), hundredths))
    return row


def texts(s):
    rows = []
    for name, title in (("ghash", "GHASH"), ("gcm seal", "GCM `seal`")):
        for length in (64, 256, 1500, 16384):
            rows.append([title if length == 64 else "", f"{length:,}", *rates_row(s, [("text", name, str(length))])])
    return table(["Call", "Bytes", *RATES_HEAD], rows)


AES_CALLS = [
    ("`encrypt32`, 10 / 12 / 14 rounds", [f"encrypt32, {n} rounds" for n in (10, 12, 14)]),
    ("`decrypt32`, 10 / 12 / 14 rounds", [f"decrypt32, {n} rounds" for n in (10, 12, 14)]),
    ("`LaneKeys::put`, by bytes of a schedule", ["put"]),
    ("`Schedule::expand`, by bytes of a schedule", ["expand"]),
    ("CTR, 64 / 256 / 1,500 bytes", [f"ctr, {n} bytes" for n in LENGTHS]),
    ("CBC decryption, 64 / 256 / 1,488 bytes", [f"cbc decryption, {n} bytes" for n in (64, 256, 1488)]),
]


def aes(s):
    return table(["AES", *RATES_HEAD], [[title, *rates_row(s, [("aes", name) for name in names])] for title, names in AES_CALLS])


KINDS = [
    ("cbc128", "CBC encryption, key of 128 bits"),
    ("cbc192", "CBC encryption, 192 bits"),
    ("cbc256", "CBC encryption, 256 bits"),
    ("cmac128", "CMAC, 128 bits"),
    ("cmac256", "CMAC, 256 bits"),
    ("hmac-sha1", "HMAC-SHA-1"),
    ("hmac-sha256", "HMAC-SHA-256"),
    ("hmac-sha512", "HMAC-SHA-512"),
    ("ccm128", "CCM, 128 bits"),
    ("ccm192", "CCM, 192 bits"),
    ("ccm256", "CCM, 256 bits"),
]


def lists_of(s, kind, names):
    rows = [[title, *rates_row(s, [(kind, name, str(n)) for n in LENGTHS])] for name, title in names]
    return table(["64 / 256 / 1,500 bytes", *RATES_HEAD], rows)


def lists(s):
    return lists_of(s, "lists", KINDS)


def states(s):
    return lists_of(s, "states", KINDS[5:8])


def jobs(s):
    head = ["64 / 256 / 1,500 bytes"]
    for title in ("default", "AVX2"):
        head += [f"{title}, ns a job", "of full lanes", "times plain"]
    rows = []
    for name, title in [("null", "null"), *KINDS, ("a mix", "all kinds by turns")]:
        row = [title]
        for build in BUILDS:
            row.append(cell(s[build].time("jobs", "time", name, str(n)) for n in LENGTHS))
            for part in ("lists", "plain"):
                row.append("" if name == "null" else cell((s[build].ratio("jobs", part, name, str(n)) for n in LENGTHS), hundredths))
        rows.append(row)
    return table(head, rows)


def pairs(s, kind, names, lengths):
    head = [" / ".join(f"{n:,}" for n in lengths) + " bytes"]
    for title in ("default", "AVX2"):
        head += [f"{title}, ns", "the other, ns", "times as fast"]
    rows = []
    for name, title in names:
        row = [title]
        for build in BUILDS:
            for part in ("time", "slower"):
                row.append(cell(s[build].time(kind, part, name, str(n)) for n in lengths))
            row.append(cell((s[build].ratio(kind, "ratio", name, str(n)) for n in lengths), hundredths))
        rows.append(row)
    return table(head, rows)


BESIDE = [
    ("null, by 32", "null by bursts of 32, beside single calls"),
    ("ccm128", "CCM, beside CTR with CMAC"),
    ("sha1", "SHA-1, beside HMAC-SHA-1"),
    ("sha256", "SHA-256, beside HMAC-SHA-256"),
    ("sha512", "SHA-512, beside HMAC-SHA-512"),
]


def beside(s):
    return pairs(s, "beside", BESIDE, LENGTHS)


def sessions(s):
    names = [("cbc", "CBC encryption"), ("ctr", "CTR"), ("gcm", "GCM")]
    return pairs(s, "sessions", names, (64, 1500))


CREWS = ("1/0", "1/1", "1/3", "2/2", "4/0", "4/4")
WORKS = [("hmac-sha1", "HMAC-SHA-1"), ("cbc, hmac-sha256", "CBC encryption and HMAC-SHA-256"), ("a mix", "four kinds by turns")]


def front(s):
    head = ["Jobs", "Build", "1/0, ms", *CREWS[1:], "apart 2", "apart 4"]
    forms = [f"front {crew}" for crew in CREWS[1:]] + ["apart 2", "apart 4"]
    rows = []
    for name, title in WORKS:
        for build in BUILDS:
            alone = tenths(by(s[build].time("front", "time", name, "front 1/0"), 1000))
            ratios = [hundredths(s[build].ratio("front", "ratio", name, form)) for form in forms]
            rows.append([title if build == "default" else "", "AVX2" if build == "avx2" else build, alone, *ratios])
    return table(head, rows)


def idle(s):
    return table(["", "default", "AVX2"], [["times as long beside an idle worker", *(hundredths(s[b].ratio("idle", "ratio")) for b in BUILDS)]])
