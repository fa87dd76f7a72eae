"""The tables of what bench, bench/openssl and bench/dropin.py print: the calls from C."""
from cells import LENGTHS, cell, hundredths, table, tenths, whole

CALLS = [
    ("null", "null"),
    ("hmac-sha1", "HMAC-SHA-1"),
    ("hmac-sha1-states", "HMAC-SHA-1 from states"),
    ("hmac-sha256", "HMAC-SHA-256"),
    ("hmac-sha256-states", "HMAC-SHA-256 from states"),
    ("hmac-sha512", "HMAC-SHA-512"),
    ("hmac-sha512-states", "HMAC-SHA-512 from states"),
    ("sha256", "SHA-256"),
    ("cbc", "CBC encryption"),
    ("ctr", "CTR"),
    ("gcm", "GCM"),
    ("ccm", "CCM"),
    ("cmac", "CMAC"),
    ("gmac", "GMAC"),
    ("cbc+hmac-sha256", "CBC encryption and HMAC-SHA-256"),
]


def lengths_of(name):
    """The lengths of the packets: CBC takes whole blocks of them."""
    return [64, 256, 1488] if name.startswith("cbc") else LENGTHS


def each_length(s, names, row):
    return [[title if i == 0 else "", f"{n:,}", *row(s, name, str(n))] for name, title in names for i, n in enumerate(lengths_of(name))]


def time_row(s, name, n):
    row = [whole(s["c"].time("ns", name, n)), whole(s["c-avx2"].time("ns", name, n))]
    for other in ("sse", "avx2"):
        row += [whole(s["c-avx2"].time(other, "ns", name, n)), tenths(s["c-avx2"].ratio(other, "times", name, n))]
    return row


def calls(s):
    head = ["Jobs", "Bytes", "default, ns", "AVX2, ns", "ipsec-mb SSE, ns", "times", "ipsec-mb AVX2, ns", "times"]
    return table(head, each_length(s, CALLS, time_row))


COST = [("hmac-sha256", "HMAC-SHA-256"), ("cbc", "CBC encryption"), ("ctr", "CTR"), ("gcm", "GCM"), ("ccm", "CCM")]
COST_HEAD = ["Jobs", "Bytes", "default", "AVX2", "intel-ipsec-mb", "times", "OpenSSL without AES instructions", "times"]


def rate_parts(s, name, n):
    """The rates of this library's two builds, of intel-ipsec-mb and of OpenSSL, with how many times as long this one takes with AVX2."""
    own, openssl = s["c-avx2"].rate("gbits", name, n), s["openssl"].rate("gbits", name, n)
    times = None if not own or openssl is None else openssl / own
    theirs, theirs_times = s["c-avx2"].rate("avx2", "gbits", name, n), s["c-avx2"].ratio("avx2", "times", name, n)
    forms = (hundredths, hundredths, hundredths, tenths, hundredths, tenths)
    return list(zip((s["c"].rate("gbits", name, n), own, theirs, theirs_times, openssl, times), forms))


def rates(s):
    return table(COST_HEAD, each_length(s, COST, lambda s, name, n: [form(figure) for figure, form in rate_parts(s, name, n)]))


def readme(s):
    rows = []
    for name, title in COST:
        ends = (lengths_of(name)[0], lengths_of(name)[-1])
        parts = zip(*(rate_parts(s, name, str(n)) for n in ends))
        rows.append([title, " / ".join(f"{n:,}" for n in ends), *(cell([figure for figure, _ in part], part[0][1]) for part in parts)])
    return table(COST_HEAD, rows)


WAYS = [("null", "null", 64), ("null", "null", 1500), ("hmac-sha1", "hmac-sha1", 1500), ("hmac-sha256", "hmac-sha256", 1500)]
WAYS += [("hmac-sha512", "hmac-sha512", 1500), ("cbc128", "cbc", 1488), ("cmac128", "cmac", 1500), ("ccm128", "ccm", 1500)]


def ways(s):
    rows = []
    for kind, name, n in WAYS:
        title = dict(CALLS)[name]
        own = s["default"].time("jobs", "time", kind, "1500" if n == 1488 else str(n))
        rows.append([title, f"{n:,}", whole(own), whole(s["c"].time("ns", name, str(n)))])
    return table(["Jobs", "Bytes", "from Rattle, ns", "from C, ns"], rows)


DRAWN = "64-1500"
DRAWN_JOBS = [
    ("null", "null"),
    ("hmac-sha1", "HMAC-SHA-1"),
    ("hmac-sha256", "HMAC-SHA-256"),
    ("hmac-sha512", "HMAC-SHA-512"),
    ("hmac-sha1-states", "HMAC-SHA-1 from states"),
    ("hmac-sha256-states", "HMAC-SHA-256 from states"),
    ("hmac-sha512-states", "HMAC-SHA-512 from states"),
    ("cbc", "CBC encryption"),
    ("cmac", "CMAC"),
    ("ccm", "CCM"),
    ("cbc+hmac-sha1", "CBC encryption and HMAC-SHA-1"),
]


def drawn(s):
    rows = []
    for name, title in DRAWN_JOBS:
        lengths = [*map(str, lengths_of(name)), DRAWN]
        times = cell(s["drawn"].time("ns", name, n) for n in lengths)
        rows.append([title, times, cell((s["drawn"].ratio("avx2", "times", name, n) for n in lengths), tenths)])
    return table(["Jobs", "ns: 64 / 256 / 1,500 / drawn", "times intel-ipsec-mb"], rows)


FORMS = [
    ("null", "null", "c-avx2", "null-bursts", "by bursts of 32"),
    ("cbc", "CBC encryption", "c-avx2", "cbc-session", "in a session"),
    ("gcm", "GCM", "c-avx2", "gcm-session", "in a session"),
    ("null", "null", "keeping", "null", "memory is kept"),
    ("hmac-sha1", "HMAC-SHA-1", "keeping", "hmac-sha1", "memory is kept"),
    ("cbc", "CBC encryption", "keeping", "cbc", "memory is kept"),
    ("gcm", "GCM", "keeping", "gcm", "memory is kept"),
]


def forms(s):
    rows = []
    for name, title, bench, form, how in FORMS:
        plain = cell(s["c-avx2"].time("ns", name, str(n)) for n in lengths_of(name))
        rows.append([title, plain, how, cell(s[bench].time("ns", form, str(n)) for n in lengths_of(name))])
    return table(["Jobs", "one by one, ns", "the other form", "ns"], rows)


FEW = ("few-1", "few-8", "few-32", "c-avx2")
FEW_JOBS = [each for each in CALLS if each[0] in ("hmac-sha1", "hmac-sha256", "hmac-sha512", "cbc", "ctr", "gcm", "ccm", "cmac")]


def few(s):
    rows = []
    for name, title in FEW_JOBS:
        for n in (lengths_of(name)[0], lengths_of(name)[-1]):
            row = [title if n == 64 else "", f"{n:,}"]
            for bench in FEW:
                times = [s[bench].time("ns", name, str(n)), s[bench].time("avx2", "ns", name, str(n))]
                row.append(cell(times))
            rows.append(row)
    return table(["Jobs", "Bytes", "1", "8", "32", "256"], rows)


SHARES = [("aes", "AES"), ("hash", "SHA-1 or GHASH"), ("keys", "key expansion"), ("calls", "calls, manager and copies"), ("heap", "heap")]
SHARED = [
    ("null", "null", "64"),
    ("hmac-sha1", "HMAC-SHA-1", "64"),
    ("cbc", "CBC encryption", "64"),
    ("cbc", "CBC encryption", DRAWN),
    ("ctr", "CTR", "1500"),
    ("gcm", "GCM", "64"),
    ("gcm", "GCM", "1500"),
]


def shares(s):
    rows = []
    for name, title, n in SHARED:
        parts = [s["shares"].ratio(name, n, part) for part, _ in SHARES]
        rows.append([title, "drawn" if n == DRAWN else f"{int(n):,}", *(whole(part) + " %" for part in parts)])
    return table(["Jobs", "Bytes", *(title for _, title in SHARES)], rows)


DROPIN_JOBS = [
    ("null", "no cipher, no authentication"),
    ("hmac-sha1-states", "HMAC-SHA-1 from states"),
    ("hmac-sha256-states", "HMAC-SHA-256 from states"),
    ("hmac-sha512-states", "HMAC-SHA-512 from states"),
    ("sha1", "SHA-1"),
    ("sha256", "SHA-256"),
    ("sha512", "SHA-512"),
    ("cbc", "CBC encryption"),
    ("ctr", "CTR"),
    ("gcm", "GCM"),
    ("ccm", "CCM"),
    ("cmac", "CMAC"),
    ("gmac", "GMAC"),
    ("cbc+hmac-sha1-states", "CBC encryption and HMAC-SHA-1 from states"),
    ("cbc+hmac-sha256-states", "CBC encryption and HMAC-SHA-256 from states"),
]


def dropin(s):
    head = ["64 / 256 / 1,500 bytes", "through the drop-in, ns", "more than by `mbj.h`, ns", "times Intel's"]
    rows, most = [], None
    for name, title in DROPIN_JOBS:
        own, through, theirs = ([s["dropin"].time(way, name, str(n)) for n in lengths_of(name)] for way in ("own", "dropin", "intel"))
        more = [None if None in pair else pair[1] - pair[0] for pair in zip(own, through)]
        times = [None if None in pair else pair[0] / pair[1] for pair in zip(through, theirs)]
        most = max((figure for figure in (most, *more) if figure is not None), default=None)
        rows.append([title, cell(through), cell(more), cell(times, tenths)])
    return [f"A job through the drop-in takes at most {whole(most)} ns more than by `mbj.h`.", "", *table(head, rows)]
