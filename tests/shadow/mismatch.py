"""mismatch.py FOLDER WHAT LINE [MBJOBS]: the folder has one file of a mismatch, which only its owner may read. WHAT (text, tag or status) is
what differs in it, by one bit if it isn't the status. LINE is yes if the file has to have a job's line, and no if it has none.
The line is run by the program mbjobs, or by tests/faults/reference.py, and has to give the proved text and tag."""
import os
import re
import subprocess
import sys

folder, what, has_line = sys.argv[1], sys.argv[2], sys.argv[3] == "yes"
names = os.listdir(folder)
assert len(names) == 1, f"{len(names)} files"
path = os.path.join(folder, names[0])
assert os.stat(path).st_mode & 0o777 == 0o600, "who may read it"
lines = open(path, encoding="ascii").read().splitlines()


def answer(whose):
    line = next(line for line in lines if line.startswith(f"# {whose} status"))
    found = re.fullmatch(rf"# {whose} status (\d+)(?: text (\S+) tag (\S+))?(?: error .*)?", line)
    return found.groups()


def bits(a, b):
    a, b = bytes.fromhex(a.replace("-", "")), bytes.fromhex(b.replace("-", ""))
    assert len(a) == len(b), "lengths"
    return sum(bin(x ^ y).count("1") for x, y in zip(a, b))


theirs, proved = answer("Intel's"), answer("proved")
if what == "status":
    assert theirs[0] != proved[0] and proved[0] == "3", "the status"
else:
    assert theirs[0] == proved[0] == "3", "the status"
    assert bits(theirs[1], proved[1]) in ((1,) if what == "text" else (0, 1)), "the text"  # a tag may lie in the text
    assert bits(theirs[2], proved[2]) == (1 if what == "tag" else 0), "the tag"
for start in ("# time 20", "# process ", "# submitted on processor ", "# came back on processor ", "# addresses: ", "# once more: "):
    assert any(line.startswith(start) for line in lines), start
jobs = [line for line in lines if not line.startswith("#")]
assert len(jobs) == (1 if has_line else 0), "the job's line"
if has_line:
    fields = jobs[0].split(" ")
    assert len(fields) == 14, "the fields"
    program = [sys.executable, os.path.join(os.path.dirname(__file__), "..", "faults", "reference.py"), "results", "/dev/stdin"]
    if len(sys.argv) > 4:
        program = [sys.argv[4], "run", "--submitters", "1", "--workers", "0"]
    done = subprocess.run(program, input=open(path, "rb").read(), capture_output=True, check=True).stdout.decode().split()
    start, length = int(fields[5]), int(fields[6])
    packet = bytes.fromhex(done[2].replace("-", ""))
    assert done[:2] == ["0", "ok"], done[:2]
    addresses = next(line for line in lines if line.startswith("# addresses: "))
    dst, place = (int(at, 16) for at in re.search(r"destination (\S+), tag (\S+)$", addresses.replace("(nil)", "0x0")).groups())
    if fields[0] != "null":
        text, want = bytearray(packet[start:start + length]), bytes.fromhex(proved[1].replace("-", ""))
        for i in range(length):
            if place <= dst + i < place + int(fields[12]):
                text[i] = want[i]  # a tag in the text is written over it, which a job file doesn't say
        assert text == want, "the text of the line"
    # A digest by a direct call is told as a text.
    tag = proved[1] if fields[0] == "null" and proved[2] == "-" else proved[2]
    assert done[3] == tag, "the tag of the line"
