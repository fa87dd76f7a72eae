"""What bench/sitting measured, read for bench/tables.py: the figures of all runs of each bench by their names."""
import re
import statistics

UNKNOWN = "?"


class Figures:
    """The figures of all runs of one bench by their names, each as what its runs printed."""

    def __init__(self):
        self.printed = {}

    def add(self, name, figure):
        self.printed.setdefault(name, []).append(float(figure))

    def rate(self, *name):
        return max(self.printed[name]) if name in self.printed else None

    def time(self, *name):
        return min(self.printed[name]) if name in self.printed else None

    def ratio(self, *name):
        return statistics.median(self.printed[name]) if name in self.printed else None


# The lines of `mbj_bench --time`: what the names in a line are, and what its figures are.
RATE = r"\s+(?P<rate>\d+) MB/s\s+(?P<ratio>[\d.]+)"
LENGTH = r"\s+(?P<length>\d+) bytes"
LINES = [
    ("hash", r"(?P<name>sha\d+)\s+(?P<form>plain crate|lanes of \d+ bits|arrays)" + RATE),
    ("text", r"(?P<name>ghash|gcm seal)" + LENGTH + RATE),
    ("aes", r"aes (?P<name>.+): (?P<rate>\d+) MB/s, (?P<ratio>[\d.]+)"),
    ("lists", r"lists of (?P<name>\S+)" + LENGTH + RATE),
    ("states", r"from states, (?P<name>\S+)" + LENGTH + RATE),
    ("jobs", r"jobs, (?P<name>.+?)" + LENGTH + r"\s+(?P<time>\d+) ns\s+\d+ MB/s, of lists\s+(?P<lists>[\d.]+), of plain\s+(?P<plain>[\d.]+)"),
    ("beside", r"jobs, (?P<name>.+?)" + LENGTH + r"\s+(?P<time>\d+) ns, (?P<other>.+?)\s+(?P<slower>\d+) ns\s+(?P<ratio>[\d.]+)"),
    ("sessions", r"sessions, (?P<name>\S+)" + LENGTH + r"\s+(?P<time>\d+) ns, by the key\s+(?P<slower>\d+) ns\s+(?P<ratio>[\d.]+)"),
    ("front", r"(?P<form>front \d/\d|apart \d)\s+(?P<name>.+?)\s+\d+ jobs\s+(?P<time>\d+) us\s+(?P<ratio>[\d.]+)"),
    ("idle", r"front, a busy submitter \d+ jobs \d+ us, beside an idle worker \d+ us (?P<ratio>[\d.]+)"),
]
FIGURES = ("rate", "ratio", "time", "slower", "lists", "plain")


def read_time(figures, text):
    for line in text.splitlines():
        for kind, pattern in LINES:
            found = re.fullmatch(pattern, line)
            if found is None:
                continue
            words = found.groupdict()
            name = tuple(words[part] for part in ("name", "form", "length") if part in words)
            for part in FIGURES:
                if part in words:
                    figures.add((kind, part) + name, words[part])
            break


def read_calls(figures, text):
    """A table of bench/bench: jobs, bytes, ns, Gbit/s, and for each library beside this one ns, Gbit/s and times."""
    rows = [line.split() for line in text.splitlines() if line.strip()]
    others = rows[0][4::4] if rows else []
    for jobs, length, ns, gbits, *rest in rows[1:]:
        figures.add(("ns", jobs, length), ns)
        figures.add(("gbits", jobs, length), gbits)
        for i, other in enumerate(others):
            for part, figure in zip(("ns", "gbits", "times"), rest[3 * i : 3 * i + 3]):
                figures.add((other, part, jobs, length), figure)


def read_rows(figures, text):
    """The rows of bench/program.py and bench/shares.py: names and a figure, with tabs between them."""
    for line in text.splitlines():
        *name, figure = line.split("\t")
        figures.add(tuple(name), figure)


def read_dropin(figures, text):
    """The table of bench/dropin.py: jobs, bytes, and nanoseconds by mbj.h, through the drop-in, the difference, and by Intel's library."""
    for line in text.splitlines()[1:]:
        jobs, length, *rest = line.split()
        if length.isdigit():
            own, through, _, theirs, *_ = rest
            for way, ns in (("own", own), ("dropin", through), ("intel", theirs)):
                figures.add((way, jobs, length), ns)


READERS = {
    "default": read_time,
    "avx2": read_time,
    "c": read_calls,
    "c-avx2": read_calls,
    "drawn": read_calls,
    "keeping": read_calls,
    "few-1": read_calls,
    "few-8": read_calls,
    "few-32": read_calls,
    "shares": read_rows,
    "dropin": read_dropin,
    "openssl": read_calls,
    "program": read_rows,
}


class Sitting:
    def __init__(self, folder):
        self.figures = {}
        self.runs = {}
        for name, reader in READERS.items():
            self.figures[name] = Figures()
            files = sorted(folder.glob(name + ".[0-9]*"))
            self.runs[name] = len(files)
            for file in files:
                reader(self.figures[name], file.read_text())
        machine = folder / "machine"
        self.machine = machine.read_text().strip() if machine.exists() else UNKNOWN

    def __getitem__(self, name):
        return self.figures[name]
