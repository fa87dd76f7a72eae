#!/usr/bin/env python3
"""Makes the tables of docs/PERFORMANCE.md, README's table of cost and that of docs/FROM_IPSEC_MB.md from what bench/sitting measured.

    bench/tables.py FOLDER             prints the tables
    bench/tables.py --readme FOLDER    prints README's table of cost
    bench/tables.py --write FOLDER     puts them all into these three files, in place of the tables that are there

FOLDER has a file for each run of a bench, default.1, default.2 and so on, and a file `machine`: bench/sitting says which. Of several runs
the highest rate counts, the least time and the middle ratio. A figure that no file has is printed as `?`. It needs python3 alone.
"""
import pathlib
import re
import sys
import textwrap

import c_tables as c
import program_tables as program
import rattle_tables as rattle
from figures import UNKNOWN, Sitting

DOCS = pathlib.Path(__file__).resolve().parent.parent / "docs"
README = DOCS.parent / "README.md"
WIDTH = 140

BENCHES = {
    "default": "`mbj_bench`",
    "avx2": "`mbj_bench` with AVX2",
    "c": "`bench`",
    "c-avx2": "`bench-avx2`",
    "drawn": "`bench-avx2` with drawn lengths",
    "keeping": "`bench-avx2 --keeping`",
    "few-1": "`bench-avx2 --flush`",
    "shares": "`bench/shares.py`",
    "dropin": "`bench/dropin.py`",
    "openssl": "`bench/openssl`",
    "program": "`bench/program.py`",
}


def sitting(s):
    runs = ", ".join(f"{s.runs[name] or UNKNOWN} of {bench}" for name, bench in BENCHES.items())
    return [*textwrap.wrap(f"Runs: {runs}.", WIDTH), "", *(f"- {line}" for line in s.machine.splitlines())]


# The tables by the marks around them, of each document.
TABLES = {
    "PERFORMANCE.md": {
        "sitting": sitting,
        "rates": c.rates,
        "calls": c.calls,
        "ways": c.ways,
        "shares": c.shares,
        "drawn": c.drawn,
        "forms": c.forms,
        "few": c.few,
        "jobs": rattle.jobs,
        "beside": rattle.beside,
        "sessions": rattle.sessions,
        "front": rattle.front,
        "idle": rattle.idle,
        "lists": rattle.lists,
        "states": rattle.states,
        "hashes": rattle.hashes,
        "texts": rattle.texts,
        "aes": rattle.aes,
        "once": program.once,
        "gen": program.gen,
        "run": program.run,
    },
    "FROM_IPSEC_MB.md": {"dropin": c.dropin},
}


def put(text, name, lines):
    """The text with these lines between the two marks of this name."""
    begin, end = f"<!-- {name} -->\n", f"<!-- end of {name} -->\n"
    if text.count(begin) != 1 or text.count(end) != 1:
        sys.exit(f"tables.py: no document has the marks of {name}")
    before, rest = text.split(begin)
    return before + begin + "\n".join(lines) + "\n" + end + rest.split(end)[1]


def write(s):
    for document, tables in TABLES.items():
        path = DOCS / document
        text = path.read_text()
        for name, lines in tables.items():
            text = put(text, name, lines(s))
        path.write_text(text)
    text = README.read_text()
    found = re.findall(r"^\| Jobs \| Bytes \|.*\n(?:\|.*\n)*", text, re.M)
    if len(found) != 1:
        sys.exit("tables.py: README.md hasn't one table of cost")
    README.write_text(text.replace(found[0], "\n".join(c.readme(s)) + "\n"))


def main(words):
    options = [word for word in words if word.startswith("--")]
    folders = [word for word in words if not word.startswith("--")]
    if len(folders) != 1 or len(options) > 1 or (options and options[0] not in ("--readme", "--write")):
        sys.exit(__doc__)
    folder = pathlib.Path(folders[0])
    if not folder.is_dir():
        sys.exit(f"tables.py: no folder {folder}")
    s = Sitting(folder)
    if options == ["--readme"]:
        print("\n".join(c.readme(s)))
    elif options == ["--write"]:
        write(s)
    else:
        for name, lines in (each for tables in TABLES.values() for each in tables.items()):
            print(f"<!-- {name} -->", *lines(s), f"<!-- end of {name} -->", "", sep="\n")


main(sys.argv[1:])
