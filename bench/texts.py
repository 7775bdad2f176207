#!/usr/bin/env python3
"""texts.py NAME: a text for a measure, on standard output: `reads`, 299,999 readings of one page; `spans`, 299,000 changes of the spans
of 1,000 servers with 1,000 questions among them; `turns`, 50,000,000 turns of two clients whose calls meet an update that never ends;
`lines`, 49,999,950 turns in 999,999 lines, most of them of parties without a job; `calls`, 100,000 polls and 300,000 calls; `polls`, 20,000
polls, each with its clock row and three calls, and 800,000 lines of any party's turns; `full`, seconds of a clock row with its true time, a poll and
three calls until 16 MiB are full; `clients`, 300,000 calls of 64 clients before a first record, after 1,000 of them, and while an update is open; `seconds`,
27,000 of those seconds; `shared`, 20,000 of those seconds' readings and polls, from a whole record on, and 300,000 calls of 64 clients, for threads.
texts.py reported TRACE REPORT: a trace without its lines of turns, the line `report`, and what `replay` reports of it, in the order of
threads, which is lawful."""
import pathlib
import random
import sys

TOP = pathlib.Path(__file__).resolve().parent.parent
REPLY = (TOP / "examples" / "steady-reply.hex").read_text().strip()
IMAGE = (TOP / "examples" / "kept-image.hex").read_text().strip()
PAGE = (TOP / "examples" / "page-reads.txt").read_text().splitlines()[1].split(",")[1]


def reads():
    yield "pagetime-trace,1"
    yield f"page,{PAGE}"
    for k in range(299_999):
        yield f"read,{1000 * k}"


def spans():
    draw = random.Random(1)
    yield "agree-trace,1"
    for k in range(299_000):
        server, earliest = draw.randint(1, 1000), draw.randint(0, 10**12)
        yield f"drop,{server}" if draw.random() < 0.1 else f"set,{server},{earliest},{earliest + draw.randint(0, 10**11)}"
        if k % 299 == 298:
            yield f"ask,{draw.randint(0, 400)},{draw.randint(0, 10**12)}"


def turns():
    yield "clockbound-trace,1"
    yield "set,tries,1000"
    for k in range(1, 11):
        yield f"clock,{10**12 + k * 10**9},{1700000000 * 10**9 + k * 10**9}"
    yield f"poll,{REPLY}"
    yield f"poll,{REPLY},3"
    yield "do,d,2"
    for k in range(50_000):
        yield f"call,{k % 2 + 1}"
    for _ in range(50):
        yield "run,c1,500000"
        yield "run,c2,500000"


def calls():
    yield "clockbound-trace,1"
    yield f"clock,{10**12},{1700000000 * 10**9}"
    for k in range(100_000):
        yield f"poll,{REPLY if k % 10 == 0 else ''}"
        for client in range(1, 4):
            yield f"call,{client}"


def polls():
    draw = random.Random(1)
    yield "clockbound-trace,1"
    yield f"page,{PAGE}"
    for k in range(1, 20_001):
        yield f"clock,{k * 10**9},{1700000000 * 10**9 + k * 10**9}"
        yield f"poll,{REPLY}"
        for client in range(1, 4):
            yield f"call,{client}"
    for _ in range(800_000):
        yield f"run,{draw.choice(['h', 'd', 'c1', 'c2', 'c3'])},{draw.randint(1, 20)}"


def second(k, draw):
    real = 1700000000 * 10**9 + k * 10**9
    reply = f"{REPLY[:120]}{0x65000000 + k:08x}{REPLY[128:]}"
    return [f"clock,{k * 10**9},{real},{real + draw.randint(-3_000, 3_000)}", f"poll,{reply}", "call,1", "call,2", "call,3"]


def full():
    draw = random.Random(1)
    size, k = 0, 0
    rows = ["clockbound-trace,1", f"page,{PAGE}"]
    while size + sum(map(len, rows)) + len(rows) <= 16_777_216:
        yield from rows
        size += sum(map(len, rows)) + len(rows)
        k += 1
        rows = second(k, draw)


def seconds():
    draw = random.Random(1)
    yield "clockbound-trace,1"
    for k in range(1, 27_001):
        yield from second(k, draw)


def clients():
    draw = random.Random(1)
    yield "clockbound-trace,1"
    yield "set,tries,1"
    yield from second(1, draw)[:1]
    for k in range(140_000):
        yield f"call,{k % 64 + 1}"
    for k in range(2, 1_002):
        yield from second(k, draw)[:2]
        for _ in range(64):
            yield f"call,{draw.randint(1, 64)}"
    yield f"poll,{REPLY},3"
    for k in range(96_000):
        yield f"call,{k % 64 + 1}"


def shared():
    """With a record at the start each call reads a whole one; without it those before the first publication would take one load."""
    draw = random.Random(1)
    yield "clockbound-trace,1"
    yield f"image,{IMAGE}"
    for k in range(2, 20_002):
        yield from second(k, draw)[:2]
    for k in range(300_000):
        yield f"call,{k % 64 + 1}"


def reported(trace, report):
    rows = pathlib.Path(report).read_text().splitlines()[:-1]
    answers = sorted((row for row in rows if row.startswith("ans,")), key=lambda row: [int(n) for n in row.split(",")[1:3]])
    yield from (row for row in pathlib.Path(trace).read_text().splitlines() if not row.startswith("run,"))
    yield "report"
    yield from (row for row in rows if not row.startswith(("ans,", "total,")))
    yield from answers
    yield rows[-1]


def lines():
    yield "clockbound-trace,1"
    yield f"clock,{10**12},{1700000000 * 10**9}"
    yield f"poll,{REPLY}"
    for k in range(999_999):
        yield f"run,{'d' if k % 2 else 'c1'},50"


def main():
    texts = {"reads": reads, "spans": spans, "turns": turns, "calls": calls, "lines": lines, "polls": polls, "full": full,
             "seconds": seconds, "clients": clients, "shared": shared, "reported": reported}
    for line in texts[sys.argv[1]](*sys.argv[2:]):
        print(line)


if __name__ == "__main__":
    main()
