#!/usr/bin/env python3
"""civil.py PROGRAM: what PROGRAM's `replay --civil` writes of each trace in examples, beside the kept report with the date and time of
each earliest and latest after them, by Python's calendar. Prints a line for each trace that disagrees."""
import datetime
import pathlib
import subprocess
import sys

EXAMPLES = pathlib.Path(__file__).resolve().parent.parent / "examples"


def civil(nanoseconds):
    seconds, rest = divmod(nanoseconds, 10**9)
    moment = datetime.datetime(1970, 1, 1) + datetime.timedelta(seconds=seconds)
    return f"{moment:%Y-%m-%dT%H:%M:%S}.{rest:09}Z"


def with_times(line):
    fields = line.split(",")
    timed = fields[0] == "ans" and fields[3] == "time"
    return ",".join(fields + [civil(int(end)) for end in fields[-2:]]) if timed else line


def main():
    program, wrong, answers = sys.argv[1], 0, 0
    for path in sorted(EXAMPLES.glob("**/*.trace")):
        run = subprocess.run([program, "replay", "--civil"], stdin=open(path), capture_output=True, text=True)
        want = [with_times(line) for line in path.with_suffix(".report").read_text().splitlines()]
        answers += sum(line.endswith("Z") for line in want)
        if run.returncode != 0 or run.stderr or run.stdout != "\n".join(want) + "\n":
            wrong += 1
            print(f"{path.name}: {run.stderr or run.stdout[:200]}")
    sys.exit(wrong != 0 or answers == 0)


main()
