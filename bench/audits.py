#!/usr/bin/env python3
"""audits.py OURS OTHER [CASES [SEED]]: has both programs audit so many reports (1,000 without CASES) of generated days and of the traces that
compare.py makes, and compares what they write. A report is what OTHER's `replay` gives of the trace, in the order of threads, or, where OTHER has that command, what its
`threads` gives; and then changed: in a byte, a number or a line, as it is left out, doubled or exchanged with another. Prints the first differing
case, or how many were lawful, unlawful and refused, and how often each kind of line was the first unlawful one."""
import collections
import random
import subprocess
import sys

from compare import story, trace


def run(program, words, text):
    done = subprocess.run([program, *words], input=text.encode(), capture_output=True)
    return done.returncode, done.stdout.decode(), done.stderr.decode()


def in_order(report):
    """The lines of the daemon, those of each client, and the counts."""
    lines = report.splitlines()[:-1]
    daemon = [line for line in lines if not line.startswith(("ans,", "total,"))]
    answers = [line for line in lines if line.startswith("ans,")]
    return daemon + sorted(answers, key=lambda line: [int(n) for n in line.split(",")[1:3]]) + lines[-1:]


def one_number(draw, line):
    fields = line.split(",")
    places = [k for k, field in enumerate(fields) if field.lstrip("-").isdigit()]
    if not places:
        return line + draw.choice([",", ",0", " "])
    place = draw.choice(places)
    fields[place] = str(int(fields[place]) + draw.choice([-2, -1, 1, 2, 10**9]))
    return ",".join(fields)


def changed(draw, lines):
    """A report's bytes, as it stands or with a change."""
    lines, kind = list(lines), draw.choice(["none", "byte", "byte", "number", "number", "number", "out", "twice", "swap", "short", "more"])
    at = draw.randrange(len(lines))
    if kind == "number":
        lines[at] = one_number(draw, lines[at])
    elif kind == "out":
        del lines[at]
    elif kind == "twice":
        lines.insert(at, lines[at])
    elif kind == "swap":
        other = draw.choice([min(at + 1, len(lines) - 1), draw.randrange(len(lines))])
        lines[at], lines[other] = lines[other], lines[at]
    elif kind == "more":
        lines.insert(draw.choice([at, len(lines)]), draw.choice(["", "premises,held", "report", "skip,1,2,4", "ans,1,1,notinit", "x"]))
    text = "".join(line + "\n" for line in lines)
    if kind == "short":
        text = text[: draw.randrange(len(text))]
    if kind == "byte":
        place = draw.randrange(len(text))
        text = text[:place] + draw.choice("0123456789,\n-abt") + text[place + 1 :]
    return text


def case(seed, other):
    draw = random.Random(seed)
    if seed % 7 == 6:
        base = run(other, ["drill", str(draw.randrange(3)), str(draw.randint(6, 40)), "--trace"], "")[1]
    else:
        base = (story if seed % 5 == 4 else trace)(seed // 8)
    status, report, _ = run(other, ["replay"], base)
    if status == 0:
        lines = in_order(report)
        if draw.random() < 0.3:
            status, given, _ = run(other, ["threads"], base)
            lines = given.splitlines() if status == 0 else lines
    else:
        lines = ["clockbound-report,1", "total,0,0,0,0,0,0,0"]
    part = draw.choice(["report\n"] * 20 + ["", "report", "report\r\n", "report\nreport\n"])
    return base + part + changed(draw, lines)


def main(ours, other, cases=1000, seed=0):
    found, lines = collections.Counter(), collections.Counter()
    for k in range(seed, seed + cases):
        text = case(k, other)
        first, second = run(ours, ["audit"], text), run(other, ["audit"], text)
        if first != second:
            sys.exit(f"case {k} differs: {first} and {second}\n{text}")
        verdict = first[1].strip().split(",")
        found[verdict[0] or "refused"] += 1
        if verdict[0] == "unlawful":
            report = text.split("\nreport\n", 1)[1].split("\n")
            line = int(verdict[1]) - 1
            lines[",".join(f for f in (report[line] if line < len(report) else "(end)").split(",") if f.isalpha()) or "(other)"] += 1
    print(f"{cases} audits agree:", ", ".join(f"{n} {kind}" for kind, n in found.most_common()))
    print("first unlawful lines:", ", ".join(f"{n} {kind}" for kind, n in lines.most_common(12)))


if __name__ == "__main__":
    main(*sys.argv[1:3], *map(int, sys.argv[3:]))
