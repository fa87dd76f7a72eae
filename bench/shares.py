#!/usr/bin/env python3
"""Tells by perf where the time of bench-avx2 goes, and prints a row for each kind of jobs, length and part: the share in percent.

    bench/shares.py [PROGRAM]    by default bench/bench-avx2

What the bench itself takes, intel-ipsec-mb and the kernel is left out: the shares of a row are of this library's time, with what it calls
of the C library. A function counts toward the part whose pattern is found first in its name. It needs python3 and perf (Debian's
linux-perf).
"""
import collections
import pathlib
import re
import subprocess
import sys
import tempfile

TOP = pathlib.Path(__file__).resolve().parent.parent

# The kinds of jobs with the lengths of their packets, and how often the 256 jobs are done: a second or two.
ROWS = [
    ("null", "64", 20000),
    ("hmac-sha1", "64", 8000),
    ("cbc", "64", 8000),
    ("cbc", "64-1500", 1500),
    ("ctr", "1500", 1500),
    ("gcm", "64", 3000),
    ("gcm", "1500", 1000),
]

BENCH = re.compile(r"^(pass|fill|fill_bytes|make_batch|time_library|compare|main)$|theirs")
PARTS = [
    ("heap", re.compile(r"malloc|free|realloc|aligned_alloc|_int_|consolidate|mbj_heap|rattle_(de)?alloc")),
    ("hash", re.compile(r"sha(1|256|512)?_lanes|mbj_hmac|HmacLanes|compress|ghash")),
    ("keys", re.compile(r"Schedule|expan|schedules|laid_keys|Key::new|put_key")),
    ("aes", re.compile(r"aes_lanes|mbj_(ctr|cbc|gcm|ccm|cmac)\b|substitution|rounds::")),
    ("calls", re.compile("")),
]

# The function that runs a lane queue. With CBC the chaining of blocks is in it.
RUNS_A_LANE_QUEUE = re.compile(r"mbj_manager::lane::run_within")

LINE = re.compile(r"\s*([\d.]+)%\s+(\S+)\s+\[(.)\]\s+(.*)")


def symbols(words, file):
    """The symbols that perf found while this command ran, with their part of the samples."""
    record = ["perf", "record", "-o", file, "-e", "cpu-clock", "-F", "3000", *words]
    subprocess.run(record, check=True, stdout=subprocess.DEVNULL, stderr=subprocess.DEVNULL)
    report = ["perf", "report", "-i", file, "--no-children", "-F", "overhead,dso,symbol", "--percent-limit", "0.05", "--stdio"]
    printed = subprocess.run(report, check=True, stdout=subprocess.PIPE, stderr=subprocess.DEVNULL, text=True).stdout
    for found in filter(None, map(LINE.match, printed.splitlines())):
        percent, library, ring, symbol = found.groups()
        if ring == "." and "IPSec_MB" not in library and not BENCH.search(symbol):
            yield symbol, float(percent)


def part_of(symbol, jobs):
    if jobs == "cbc" and RUNS_A_LANE_QUEUE.search(symbol):
        return "aes"
    return next(part for part, pattern in PARTS if pattern.search(symbol))


def main():
    program = sys.argv[1] if len(sys.argv) > 1 else TOP / "bench/bench-avx2"
    for jobs, lengths, passes in ROWS:
        words = [program, "--jobs", jobs, "--passes", str(passes), "--drawn" if "-" in lengths else "--sizes", lengths]
        shares = collections.Counter()
        with tempfile.NamedTemporaryFile() as file:
            for symbol, percent in symbols(words, file.name):
                shares[part_of(symbol, jobs)] += percent
        for part, _ in PARTS:
            print(jobs, lengths, part, f"{100 * shares[part] / shares.total():.0f}", sep="\t", flush=True)


main()
