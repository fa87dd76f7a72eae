#!/usr/bin/env python3
"""Times jobs through the drop-in beside the same jobs by mbj.h in the same process, and beside Intel's own library in another run.

    bench/dropin.py [FOLDER [WORDS FOR bench..]]    by default build/dropin, of `make dropin`

Prints a row for each kind of jobs and each length of packets: nanoseconds a job by mbj.h and through the drop-in, how many more these are,
nanoseconds by Intel's library, and how many times as long the drop-in takes. Ends with 3 if a job through the drop-in takes over 100 ns
more. It runs bench-avx2 if the processor has AVX2, which is what the drop-in chooses too, and else bench. It needs python3, and Intel's
library (Debian's libipsec-mb-dev), which the bench was built with.
"""
import os
import pathlib
import subprocess
import sys

TOP = pathlib.Path(__file__).resolve().parent.parent
MOST_MORE = 100
OVER = 3
JOBS = (
    "null,hmac-sha1-states,hmac-sha256-states,hmac-sha512-states,sha1,sha256,sha512,cbc,ctr,gcm,ccm,cmac,gmac,"
    "cbc+hmac-sha1-states,cbc+hmac-sha256-states"
)


def has_avx2():
    return " avx2" in pathlib.Path("/proc/cpuinfo").read_text()


def rows_of(words, folder):
    """The rows that the bench prints over the library of this folder, or of the system: by names, ns by mbj.h and ns by the other one."""
    environment = dict(os.environ)
    if folder is not None:
        environment["LD_LIBRARY_PATH"] = str(folder)
    printed = subprocess.run(words, env=environment, stdout=subprocess.PIPE, check=True, text=True).stdout.splitlines()
    head, rows = printed[0].split(), {}
    column = head.index("avx2") if "avx2" in head else head.index("sse")
    column -= head[:column].count("sse") + head[:column].count("avx2")
    for line in printed[1:]:
        fields = line.split()
        rows[fields[0], fields[1]] = float(fields[2]), float(fields[column])
    return rows


def main():
    folder = pathlib.Path(sys.argv[1] if len(sys.argv) > 1 else TOP / "build/dropin").resolve()
    if not (folder / "libIPSec_MB.so.1").exists():
        sys.exit(f"dropin.py: no libIPSec_MB.so.1 in {folder}: run make dropin first")
    words = [TOP / "bench" / ("bench-avx2" if has_avx2() else "bench"), "--jobs", JOBS, *sys.argv[2:]]
    through, beside = rows_of(words, folder), rows_of(words, None)
    most = 0.0
    print(f"{'jobs':<24} {'bytes':>6} {'mbj.h':>8} {'drop-in':>8} {'more':>6} {'Intel':>8} {'times':>6}")
    for (jobs, size), (own, dropin) in through.items():
        intel = beside[jobs, size][1]
        most = max(most, dropin - own)
        print(f"{jobs:<24} {size:>6} {own:>8.0f} {dropin:>8.0f} {dropin - own:>6.0f} {intel:>8.0f} {dropin / intel:>6.1f}")
    print(f"at most {most:.0f} ns more")
    sys.exit(OVER if most > MOST_MORE else 0)


if __name__ == "__main__":
    main()
