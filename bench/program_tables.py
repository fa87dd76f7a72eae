"""The tables of what bench/program.py prints: the program from start to end."""
from cells import by, hundredths, table, whole
from figures import UNKNOWN


def once(s):
    names = ["65,536 jobs of `examples/first.jobs`", "20,000 jobs of `examples/mixed.awk`", "16,777,216 bytes of LF"]
    rows = [[name, hundredths(by(s["program"].time("once", name, "ms"), 1000)), whole(s["program"].time("once", name, "MB"))] for name in names]
    return table(["Input", "seconds of processor", "MB of memory"], rows)


def gen(s):
    rows = []
    for crew in ("1/0", "2/0", "4/0", "1/3", "4/4"):
        ms = s["program"].time("gen", crew)
        rows.append([crew, hundredths(by(ms, 1000)), UNKNOWN if not ms else whole(round(65536 / ms) * 1000)])
    return table(["Submitters / workers", "seconds", "jobs a second"], rows)


RUNS = ["null", "HMAC-SHA-1", "CBC encryption and HMAC-SHA-256", "the same, its key in a session line", "four kinds by turns"]


def run(s):
    crews = ("1/0", "1/1", "1/3", "2/2", "4/0", "4/4")
    return table(["Jobs", *crews], [[name, *(whole(s["program"].time("run", name, crew)) for crew in crews)] for name in RUNS])
