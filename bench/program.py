#!/usr/bin/env python3
"""Times the built program, and prints a row for each run: names and a figure, with tabs between them.

    bench/program.py [PROGRAM]    by default build/mbjobs

Of `once` the figures are milliseconds of processor time and the most memory in MB, on one thread; of `gen` and `run` the milliseconds from
start to end, by the numbers of submitters and workers. The least of several runs counts. It needs python3 and awk.
"""
import os
import pathlib
import subprocess
import sys
import tempfile
import time

TOP = pathlib.Path(__file__).resolve().parent.parent
CREWS = ("1/0", "1/1", "1/3", "2/2", "4/0", "4/4")
LENGTH, BLOCKS = 1500, 1488
KEY, IV, PACKET = "2b" * 16, "0f" * 16, bytes(i * 7 % 251 for i in range(LENGTH)).hex()


def measure(words, source):
    """Seconds from start to end, seconds of processor and MB of one run."""
    start = time.perf_counter()
    with open(source, "rb") as stdin:
        child = subprocess.Popen(words, stdin=stdin, stdout=subprocess.DEVNULL)
        _, status, usage = os.wait4(child.pid, 0)
    elapsed = time.perf_counter() - start
    child.returncode = status
    if status != 0:
        sys.exit(f"program.py: {' '.join(words)} failed")
    return elapsed, usage.ru_utime + usage.ru_stime, usage.ru_maxrss / 1000


def least(runs, words, source=os.devnull):
    return [min(parts) for parts in zip(*(measure(words, source) for _ in range(runs)))]


def told(*row):
    print(*row, sep="\t", flush=True)


def run_words(program, crew):
    submitters, workers = crew.split("/")
    return [program, "run", "--submitters", submitters, "--workers", workers]


def write_first(file):
    line = (TOP / "examples/first.jobs").read_text().splitlines()[1] + "\n"
    with open(file, "w") as out:
        for _ in range(65536):
            out.write(line)


def write_mixed(file):
    with open(file, "w") as out:
        subprocess.run(["awk", "-f", TOP / "examples/mixed.awk"], stdout=out, check=True)


def write_empty_lines(file):
    with open(file, "w") as out:
        for _ in range(256):
            out.write("\n" * 65536)


INPUTS = {
    "65,536 jobs of `examples/first.jobs`": write_first,
    "20,000 jobs of `examples/mixed.awk`": write_mixed,
    "16,777,216 bytes of LF": write_empty_lines,
}


def time_once(program, folder):
    """Single files on one thread. They are written in pieces: a child's most memory isn't less than this program's."""
    for name, write in INPUTS.items():
        file = folder / "once"
        write(file)
        _, processor, memory = least(5, run_words(program, "1/0"), file)
        told("once", name, "ms", f"{processor * 1000:.1f}")
        told("once", name, "MB", f"{memory:.0f}")


def time_gen(program):
    """Generated jobs, and the digest of their results."""
    for crew in ("1/0", "2/0", "4/0", "1/3", "4/4"):
        submitters, workers = crew.split("/")
        words = [program, "gen", "--seed", "7", "--jobs", "65536", "--submitters", submitters, "--workers", workers]
        told("gen", crew, f"{least(4, words)[0] * 1000:.1f}")


NULL = f"null enc ch - - 0 0 null - - 0 0 0 {PACKET}"
SHA1 = f"null enc ch - - 0 0 hmac-sha1 {'0b' * 20} - 0 {LENGTH} 12 {PACKET}"
CBC = f"cbc enc ch {{key}} {IV} 0 {BLOCKS} hmac-sha256 {'0b' * 20} - 0 {LENGTH} 16 {PACKET}"
CTR = f"ctr enc ch {KEY} {IV} 0 {LENGTH} hmac-sha512 {'0b' * 20} - 0 {LENGTH} 32 {PACKET}"
GCM = f"gcm enc ch {KEY} {IV[:24]} 0 {LENGTH} gcm - - 0 0 16 {PACKET}"
WORKS = {
    "null": [NULL],
    "HMAC-SHA-1": [SHA1],
    "CBC encryption and HMAC-SHA-256": [CBC.format(key=KEY)],
    "the same, its key in a session line": [CBC.format(key="@0")],
    "four kinds by turns": [SHA1, CBC.format(key=KEY), CTR, GCM],
}


def time_run(program, folder):
    """Files of 5,000 jobs of 1,500 bytes. In each of four jobs that follow one another every kind of a mix is another submitter's."""
    for name, lines in WORKS.items():
        file = folder / "run"
        jobs = [lines[(i + i // 4) % len(lines)] for i in range(5000)]
        file.write_text("".join(line + "\n" for line in [f"session {KEY}", *jobs]))
        for crew in CREWS:
            told("run", name, crew, f"{least(7, run_words(program, crew), file)[0] * 1000:.1f}")


def main(words):
    program = words[0] if words else str(TOP / "build/mbjobs")
    if not os.access(program, os.X_OK):
        sys.exit(f"program.py: no program {program}")
    with tempfile.TemporaryDirectory() as folder:
        time_once(program, pathlib.Path(folder))
        time_gen(program)
        time_run(program, pathlib.Path(folder))


main(sys.argv[1:])
