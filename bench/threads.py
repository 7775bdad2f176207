#!/usr/bin/env python3
"""threads.py PROGRAM [PEER] [--traces N] [--days N] [--runs N] [--seed N]: whether each report of PROGRAM's `threads` is lawful, by its own
`audit` and, where PEER is given, by that program's. It runs small traces (1,000; those of compare.py, with more clients), generated days of
20,000 polls with 32,000 calls of 64 clients more (10), and long runs (10) of 30,000 polls beside 200,000 calls of one try each; each without
--workers, with 1, 2, 7 and 64 workers (a long run in one of these ways), and once more in so little address space that few threads or none get
a stack. What is refused has to be refused as by `replay`, and only with little space may memory be what isn't found. Prints the first report that
isn't lawful, and keeps what was audited; or how many there were, and how many reads of the long runs met an update, which a call of one try
tells by `busy`. Ends with 0 where all were lawful and some read of the long runs met an update."""
import argparse
import collections
import random
import resource
import subprocess
import sys
import tempfile

from compare import story, trace
from texts import IMAGE, REPLY

WAYS = [[], *(["--workers", str(number)] for number in (1, 2, 7, 64))]
MEMORY = (7, "", "clockbound: out of memory\n")
LAWFUL = (0, "lawful\n", "")
STACKS = 40 << 20  # address space that has room for four stacks
STEP = 1 << 16


def run(program, words, text, room=None):
    """Status, output and text of one run; a run that hangs has no status."""
    def limit():
        resource.setrlimit(resource.RLIMIT_AS, (room, room))
        resource.setrlimit(resource.RLIMIT_CORE, (0, 0))

    try:
        done = subprocess.run([program, *words], input=text.encode(), capture_output=True, preexec_fn=limit if room else None, timeout=300)
    except subprocess.TimeoutExpired:
        return "hangs", "", ""
    return done.returncode, done.stdout.decode(), done.stderr.decode()


def small(seed):
    """A trace of compare.py, whose calls are more, and of more clients."""
    draw = random.Random(seed)
    most, lines = draw.choice([3, 8, 64]), []
    for line in (story if seed % 5 == 4 else trace)(seed).splitlines():
        calls = draw.randint(1, 6) if line.startswith("call,") else 0
        lines += [",".join(["call", str(draw.randint(1, most)), *line.split(",")[2:]]) for _ in range(calls)] or [line]
    return "\n".join(lines) + "\n"


def day(program, seed):
    """A generated day, and 500 more calls of each of 64 clients."""
    draw = random.Random(seed)
    calls = [f"call,{number % 64 + 1},{draw.choice([1, 1, 2, 10])}\n" for number in range(32_000)]
    return run(program, ["drill", str(seed), "20000", "--trace"], "")[1] + "".join(calls)


def long_run(seed):
    """Updates without a pause from a whole record on, and short calls beside them. Times are small, so that the report can be audited."""
    lines = ["clockbound-trace,1", f"set,layout,{seed % 2 + 2}", "set,tries,1", f"image,{IMAGE}"]
    lines += [f"clock,{2 * 10**9 + number},{10**7 + number}" for number in range(1_000)]
    lines += [f"poll,{REPLY if number % 1_000 == 0 else ''}" for number in range(30_000)]
    lines += [f"call,{number % 64 + 1}" for number in range(200_000)]
    return "\n".join(lines) + "\n"


def least_room(program, text):
    """The least address space, to 64 KiB, in which the program does the text by threads, found by halving."""
    low, high = 0, 1 << 30
    while high - low > STEP:
        middle = (low + high) // 2 // STEP * STEP
        low, high = (low, middle) if run(program, ["threads"], text, middle)[0] == 0 else (middle, high)
    return high


class Trial:
    def __init__(self, program, peer):
        self.program, self.audits, self.found = program, [one for one in (program, peer) if one], collections.Counter()

    def stop(self, name, text, told):
        with tempfile.NamedTemporaryFile("w", prefix="threads-", suffix=".txt", delete=False) as kept:
            kept.write(text)
        sys.exit(f"{name}: {told}; the text is kept in {kept.name}")

    def judge(self, name, text, words, room=None):
        """The report of one run; nothing where the text is refused, or there isn't the memory."""
        found = run(self.program, ["threads", *words], text, room)
        name = f"{name}, {' '.join(['threads', *words])}" + (f" in {room} bytes" if room else "")
        if found[0] == 0 and found[2] == "":
            jobs = "".join(line for line in text.splitlines(True) if not line.startswith(("do,", "run,")))
            audited = f"{jobs}report\n{found[1]}"
            for program in self.audits:
                told = run(program, ["audit"], audited)
                if told != LAWFUL:
                    self.stop(f"{name}, by {program}", audited, told)
            self.found["little room" if room else "room"] += 1
            return found[1]
        if room and found == MEMORY:
            self.found["no memory"] += 1
        elif found == run(self.program, ["replay"], text):
            self.found["refused"] += 1
        else:
            self.stop(name, text, f"status {found[0]}, {len(found[1])} bytes written, {found[2]!r}")
        return None

    def all_ways(self, kind, make, seeds):
        """Each text in all ways, and in a little more room than the first that is accepted needs at least, or in less."""
        least = None
        for seed in seeds:
            draw, text = random.Random(seed), make(seed)
            reports = [self.judge(f"{kind} {seed}", text, words) for words in WAYS]
            if reports[0]:
                least = least or least_room(self.program, text)
                self.judge(f"{kind} {seed}", text, draw.choice(WAYS), least + draw.randrange(-STEP, STACKS))

    def met(self, seeds):
        """Counts the answers of long runs, those that met an update, and those that met one which had begun after their first load."""
        for seed in seeds:
            report = self.judge(f"long run {seed}", long_run(seed), WAYS[seed % len(WAYS)]) or ""
            answers = [line.split(",") for line in report.splitlines() if line.startswith("ans,")]
            busy = [fields for fields in answers if fields[3] == "busy"]
            self.found["answers"] += len(answers)
            self.found["busy"] += len(busy)
            self.found["begun later"] += sum(int(fields[5]) % 2 == 0 for fields in busy)


def main():
    parser = argparse.ArgumentParser()
    parser.add_argument("program")
    parser.add_argument("peer", nargs="?")
    for name, number in [("traces", 1000), ("days", 10), ("runs", 10), ("seed", 0)]:
        parser.add_argument(f"--{name}", type=int, default=number)
    given = parser.parse_args()
    trial = Trial(given.program, given.peer)
    trial.all_ways("trace", small, range(given.seed, given.seed + given.traces))
    trial.all_ways("day", lambda seed: day(given.program, seed), range(given.seed, given.seed + given.days))
    trial.met(range(given.seed, given.seed + given.runs))
    found = trial.found
    print(f"{given.traces} traces, {given.days} days, {given.runs} long runs: {found['room'] + found['little room']} lawful reports, {found['little room']} of them with"
          f" little room; {found['refused']} refused as by replay, {found['no memory']} without memory; of {found['answers']} answers of long runs {found['busy']} met"
          f" an update, {found['begun later']} one that began after their first load")
    return given.runs > 0 and found["busy"] == 0


if __name__ == "__main__":
    sys.exit(main())
