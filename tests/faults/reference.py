#!/usr/bin/env -S python3 -B
"""What mbjobs must print, by a program of its own: plain Python over the standards and docs/FORMAT.md, which shares no code with
the crates. It made the digests with which tests of mbjobs and mbj_work compare what they get; the gate runs no Python.

    tests/faults/reference.py summary SEED JOBS    what gen prints, with the digest of what run prints
    tests/faults/reference.py replays              the table of the seeded replays
    tests/faults/reference.py random               the table of the random inputs
    tests/faults/reference.py results FILE         the result lines of a file of jobs, of which there may be any number
    tests/faults/reference.py compare PROGRAM FIRST LAST
                                                   runs the built program on the random inputs from seed FIRST up to LAST
"""
import hashlib
import subprocess
import sys

from jobs import CMACS, FIELDS, HASHES, HMACS, BadLine, read, reason, run_text, longest_tag
from manager import burst_text, replay_text, trace_text


def ending(command, text):
    """Status, standard output and standard error."""
    try:
        if command == "replay":
            return 0, replay_text(*read(text, (3, 2)), 3, 2), ""
        jobs, _ = read(text)
        texts = {"run": run_text, "trace": trace_text, "burst": lambda jobs: burst_text(jobs, 2)}
        return 0, texts[command](jobs), ""
    except BadLine as bad:
        return 5, "", "mbjobs: line %d: field %d\n" % bad.args


# The generator.


class Draws:
    def __init__(self, state):
        self.state = state

    def byte(self):
        self.state = (self.state * 6364136223846793005 + 1442695040888963407) % 2 ** 64
        return self.state >> 56

    def bytes(self, count):
        return bytes(self.byte() for _ in range(count))


RECIPES = [("null", auth) for auth in [*HMACS, *CMACS]] + [
    ("cbc", "null"), ("ctr", "null"), ("gcm", "gcm"), ("cbc", "hmac-sha1"), ("cbc", "hmac-sha256"), ("cbc", "cmac128"),
    ("ctr", "hmac-sha512"), ("ctr", "hmac-sha384"), ("null", "null"),
]


def draw_job(draws):
    recipe = draws.byte() % 16
    job = dict.fromkeys(["key", "iv", "akey", "aad"], b"") | dict.fromkeys(["coff", "clen", "hoff", "hlen"], 0)
    job["cipher"], job["auth"] = cipher, auth = RECIPES[recipe]
    job["dir"] = ["enc", "dec"][draws.byte() % 2]
    job["order"] = ["ch", "hc"][draws.byte() % 2]
    length = 16 * (1 + draws.byte() % 32)
    if cipher != "null":
        job["key"] = draws.bytes([16, 24, 32][draws.byte() % 3])
        job["iv"] = draws.bytes({"cbc": 16, "gcm": 12}.get(cipher) or [16, 12][draws.byte() % 2])
        job["clen"] = length if cipher == "cbc" else length - draws.byte() % 16
    if auth in HASHES or auth in CMACS:
        job["akey"] = draws.bytes(draws.byte() if auth in HASHES else CMACS[auth])
        job["hlen"] = length - draws.byte() % 16
    if cipher == "gcm":
        job["aad"] = draws.bytes(draws.byte() % 64)
    job["taglen"] = 1 if recipe == 15 else longest_tag(job)
    job["packet"] = draws.bytes(length)
    return job


def written(value):
    return value.hex() or "-" if isinstance(value, bytes) else str(value)


def fields_of(job):
    return [written(job[name]) for name in FIELDS]


def file_of(jobs):
    return "".join(" ".join(fields_of(job)) + "\n" for job in jobs).encode()


def file_with_sessions(jobs, draws):
    """The lines of the jobs. A part of those with a cipher name a session, and some of these have the line of a new session before them."""
    keys, lines = [], []
    for job in jobs:
        fields, choice = fields_of(job), draws.byte() % 3
        if job["cipher"] != "null" and choice > 0:
            if choice == 1 or not keys:
                keys.append(fields[3])
                lines.append("session " + fields[3])
            fields[3] = "@%d" % (draws.byte() % len(keys))
        lines.append(" ".join(fields))
    return "".join(line + "\n" for line in lines).encode()


def gen_text(seed, count):
    draws = Draws(seed)
    jobs = [draw_job(draws) for _ in range(count)]
    text, bad = run_text(jobs), sum(reason(job) != 0 for job in jobs)
    return "jobs %d\nok %d\ninvalid %d\nbytes %d\nsha256 %s\n" % (count, count - bad, bad, len(text), digest(text))


def results_of(path):
    with open(path, "rb") as file:
        return run_text(read(file.read())[0])


def digest(text):
    return hashlib.sha256(text.encode()).hexdigest()


# The tables.

SUBMITTERS, WORKERS = 3, 2


def draw_command(draws):
    word = ["post", "claim", "flush", "collect"][draws.byte() % 4]
    bounds = {"claim": [WORKERS, SUBMITTERS], "flush": [WORKERS]}.get(word, [SUBMITTERS])
    return (word, *[draws.byte() % bound for bound in bounds])


def replays():
    """For each seed, the state after its 100 jobs, from which the 400 commands are drawn, and the digest of what they print."""
    for seed in range(1, 17):
        draws = Draws(seed)
        jobs = [draw_job(draws) for _ in range(100)]
        state = draws.state
        commands = [draw_command(draws) for _ in range(400)]
        print(seed, state, digest(replay_text(jobs, commands, SUBMITTERS, WORKERS)))


HOSTILE = b" \n\r#%-0fgZ\t\xff\x00,5@"


def random_bytes(command, seed):
    draws = Draws(seed)
    return draws.bytes(draws.byte())


def edited_file(command, seed):
    """Three jobs, and behind those of a replay twelve commands, in which up to three bytes are replaced."""
    generator, draws = Draws(seed), Draws(seed + 1000)
    text = file_of([draw_job(generator) for _ in range(3)])
    return edited(text + script_for(command, draws), draws)


def script_for(command, draws):
    commands = [draw_command(draws) for _ in range(12)] if command == "replay" else []
    return b"%\n" + "".join(" ".join(map(str, each)) + "\n" for each in commands).encode() if commands else b""


def edited(text, draws):
    """The text with up to three bytes replaced."""
    text = bytearray(text)
    for _ in range(draws.byte() % 4):
        place = (256 * draws.byte() + draws.byte()) % len(text)
        text[place] = HOSTILE[draws.byte() % len(HOSTILE)]
    return bytes(text)


def session_file(command, seed):
    """Eight jobs, of which a part names sessions, in which up to three bytes are replaced."""
    generator, draws = Draws(seed), Draws(seed + 2000)
    text = file_with_sessions([draw_job(generator) for _ in range(8)], draws)
    return edited(text + script_for(command, draws), draws)


def cut_session_file(command, seed):
    """The same file, cut off anywhere."""
    text = session_file(command, seed)
    draws = Draws(seed + 3000)
    return text[:(65536 * draws.byte() + 256 * draws.byte() + draws.byte()) % (len(text) + 1)]


def random():
    """For each command and kind of input, the digest of the statuses and texts of 64 inputs."""
    for command in ("run", "trace", "burst", "replay"):
        for kind in KINDS:
            endings = [ending(command, kind(command, seed)) for seed in range(64)]
            print(command, kind.__name__, digest("".join("%d\n%s%s" % each for each in endings)))


KINDS = (random_bytes, edited_file, session_file, cut_session_file)

ARGUMENTS = {
    "run": "run --submitters 2 --workers 2", "trace": "trace", "burst": "burst --size 2", "replay": "replay --submitters 3 --workers 2",
}


def compare(program, first, last):
    inputs = [(command, kind, seed) for command in ARGUMENTS for kind in KINDS for seed in range(first, last)]
    for command, kind, seed in inputs:
        done = subprocess.run([program, *ARGUMENTS[command].split()], input=kind(command, seed), capture_output=True, check=False)
        if (done.returncode, done.stdout.decode(), done.stderr.decode()) != ending(command, kind(command, seed)):
            sys.exit("FAIL %s on %s(%d): status %d" % (command, kind.__name__, seed, done.returncode))
    print("ok   %d random inputs end as reference.py says" % len(inputs))


if __name__ == "__main__":
    name, *words = sys.argv[1:]
    if name == "summary":
        print(gen_text(*map(int, words)), end="")
    elif name == "results":
        print(results_of(words[0]), end="")
    elif name == "compare":
        compare(words[0], *map(int, words[1:]))
    else:
        {"replays": replays, "random": random}[name]()
