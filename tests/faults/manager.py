"""Which job a manager gives back when, and what traces, bursts and replays tell of it."""
from jobs import CMACS, HASHES, HMACS, HMACS_FROM_STATES, reason, result_line, run_text

# Kinds in the order in which a trace tells them, with their lanes.
LANES = {"cbc128": 32, "cbc192": 32, "cbc256": 32, "cmac128": 32, "cmac256": 32, "hmac-sha1": 16, "hmac-sha256": 16, "hmac-sha512": 8,
         "ccm128": 32, "ccm192": 32, "ccm256": 32}


def cipher_stage(job):
    if job["cipher"] == "ccm":
        data = -(-(len(job["aad"]) + 2) // 16) if job["aad"] else 0
        return [("ccm%d" % (8 * len(job["key"])), 1 + data + -(-job["clen"] // 16))]
    if job["cipher"] == "cbc" and job["dir"] == "enc":
        return [("cbc%d" % (8 * len(job["key"])), job["clen"] // 16)]
    return []


def auth_stage(job):
    if job["auth"] in CMACS:
        return [(job["auth"], max(1, -(-job["hlen"] // 16)))]
    if job["auth"] in HASHES:
        digest = HASHES[job["auth"]]
        wide = digest in ("sha384", "sha512")
        kind = "hmac-sha512" if wide else "hmac-sha1" if digest == "sha1" else "hmac-sha256"
        pads = 3 if job["auth"] in HMACS else 1 if job["auth"] in HMACS_FROM_STATES else 0
        return [(kind, 1 + pads + ((job["hlen"] + 16) // 128 if wide else (job["hlen"] + 8) // 64))]
    return []


def lane_stages(job):
    if reason(job):
        return []
    stages = [cipher_stage(job), auth_stage(job)]
    return sum(stages if job["order"] == "ch" else stages[::-1], [])


class Manager:
    ROOM = 512

    def __init__(self):
        self.ring, self.stages, self.lists = [], {}, {kind: [] for kind in LANES}
        self.rounds, self.blocks = dict.fromkeys(LANES, 0), dict.fromkeys(LANES, 0)

    def follow(self, agenda, counts):
        while agenda:
            name = agenda.pop(0)
            if not self.stages[name]:
                continue
            kind, rest = self.stages[name].pop(0)
            self.lists[kind].append([name, rest])
            if len(self.lists[kind]) == LANES[kind]:
                agenda += self.run(kind, counts)

    def run(self, kind, counts):
        waiting = self.lists[kind]
        least = min(rest for _, rest in waiting)
        if counts:
            self.rounds[kind] += least
            self.blocks[kind] += least * len(waiting)
        self.lists[kind] = [[name, rest - least] for name, rest in waiting if rest > least]
        return [name for name, rest in waiting if rest == least]

    def place(self, name):
        return next((kind for kind, waiting in self.lists.items() if name in [w for w, _ in waiting]), None)

    def submit(self, name, job):
        self.ring.append(name)
        self.stages[name] = lane_stages(job)
        self.follow([name], True)
        return self.completed()

    def completed(self):
        return self.ring.pop(0) if self.ring and self.place(self.ring[0]) is None else None

    def flush(self):
        while self.ring and self.place(self.ring[0]) is not None:
            self.follow(self.run(self.place(self.ring[0]), False), False)
        return self.completed()


def told(number):
    return "none" if number is None else str(number)


def trace_text(jobs):
    manager, lines = Manager(), []
    for number, job in enumerate(jobs):
        if len(manager.ring) == Manager.ROOM:
            lines += ["full", "flush " + told(manager.flush())]
        lines.append("submit %d %s" % (number, told(manager.submit(number, job))))
    for word, call in (("completed ", manager.completed), ("flush ", manager.flush)):
        lines.append(word + told(call()))
        while not lines[-1].endswith("none"):
            lines.append(word + told(call()))
    lines += ["rounds %s %d %d" % (kind, manager.rounds[kind], manager.blocks[kind]) for kind in LANES if manager.rounds[kind]]
    return "".join(line + "\n" for line in lines)


def burst_text(jobs, size):
    manager, lines, number = Manager(), [], 0

    def flush_burst(most):
        given = 0
        while given < most and manager.flush() is not None:
            given += 1
        lines.append("flush %d" % given)
        return given

    while number < len(jobs):
        group_end = min(number + size, len(jobs))
        while number < group_end:
            count = min(group_end - number, Manager.ROOM - len(manager.ring))
            if count == 0:
                lines.append("full")
                flush_burst(size)
                continue
            given = sum(manager.submit(each, jobs[each]) is not None for each in range(number, number + count))
            lines.append("submit %d %d" % (count, given))
            number += count
    while flush_burst(Manager.ROOM) > 0:
        pass
    return "".join(line + "\n" for line in lines) + run_text(jobs)


class Replay:
    """Submitters whose jobs that are out are [number, state], workers with a manager and a hand."""

    def __init__(self, jobs, submitters, workers):
        self.jobs = jobs
        self.next = [list(range(s, len(jobs), submitters)) for s in range(submitters)]
        self.out = [[] for _ in range(submitters)]
        self.managers = [Manager() for _ in range(workers)]
        self.collected = [[] for _ in range(submitters)]

    def post(self, s):
        if not self.next[s]:
            return "post %d end\n" % s
        if len(self.out[s]) == Manager.ROOM:
            return "post %d full\n" % s
        self.out[s].append([self.next[s].pop(0), "ready"])
        return "post %d %d\n" % (s, self.out[s][-1][0])

    def finish(self, w, number):
        for out in self.out:
            for cell in out:
                cell[1] = "done" if cell[0] == number else cell[1]
        return "finish %d %s\n" % (w, told(number))

    def claim(self, w, s):
        if len(self.managers[w].ring) == Manager.ROOM:
            return "claim %d full\n" % w
        cell = next((cell for cell in self.out[s] if cell[1] == "ready"), None)
        if cell is None:
            return "claim %d none\n" % w
        cell[1] = "hand"
        back = self.managers[w].submit(cell[0], self.jobs[cell[0]])
        return "claim %d %d\n" % (w, cell[0]) + (self.finish(w, back) if back is not None else "")

    def flush(self, w):
        return self.finish(w, self.managers[w].flush())

    def collect(self, s):
        if not self.out[s] or self.out[s][0][1] != "done":
            return "collect %d none\n" % s
        number = self.out[s].pop(0)[0]
        self.collected[s].append(number)
        return "collect %d %s" % (s, result_line(number, self.jobs[number]))


def replay_text(jobs, commands, submitters, workers):
    replay = Replay(jobs, submitters, workers)
    return "".join(getattr(replay, word)(*numbers) for word, *numbers in commands)
