#!/usr/bin/env python3
"""compare.py OURS OTHER [CASES [SEED]]: runs both programs on so many generated traces (1,000 without CASES) and a tenth as many
generated days, and compares what they write, their texts on standard error and their exit statuses. Each case has a seed of its own, so
that a difference can be looked at again. Prints the first differing case, or how many were accepted, and how often each kind of line came."""
import pathlib
import random
import subprocess
import sys

TOP = pathlib.Path(__file__).resolve().parent.parent
REPLIES = [bytes.fromhex(f.read_text().strip()) for f in sorted((TOP / "examples" / "captures").glob("*.hex"))]
HEADER = {2: lambda g: 80 + (2 << 32) + (g << 48), 3: lambda g: 196_688 + (g << 32)}


def le(value, size):
    return value.to_bytes(size, "little")


def image(draw, layout):
    """A segment that nobody wrote, a whole one, a torn one, or one that some test refuses."""
    words = [0x43420200414D5A4E] + [0] * 9
    generation = draw.choice([0, 2, 3, 4, 7, 65_533, 65_534, 65_535] + [2**32 - 2, 2**32 - 1, 2**32 - 3] * (layout == 3))
    words[1] = HEADER[layout](generation)
    words[2:] = [draw.randint(0, 2000), draw.randint(0, 999_999_999), draw.randint(0, 3000), draw.randint(0, 999_999_999),
                 draw.choice([0, 1000, 2**62]), draw.randint(0, 3), draw.choice([0, 50_000, 10**9]) + (draw.randint(0, 3) << 32), draw.randint(0, 1)]
    if draw.random() < 0.1:
        words[draw.randrange(10)] = draw.choice([0, 1, 10**9, 2**62 + 1, 2**64 - 1])
    return b"".join(le(w, 8) for w in words).hex()


def page(draw, sequence, marker, fixed):
    body = bytearray(104)
    body[0:4], body[4:8], body[8:10] = b"VCLK", le(fixed[0], 4), le(1, 2)
    body[10], body[11] = fixed[1], fixed[2]
    body[12:16], body[16:24] = le(sequence, 4), le(marker, 8)
    body[32:104] = bytes(draw.randrange(256) for _ in range(72))
    if draw.random() < 0.02:
        body[draw.randrange(16)] ^= 1
    return bytes(body).hex()


def reply(draw):
    if draw.random() < 0.1:
        return ""
    found = bytearray(draw.choice(REPLIES))
    if draw.random() < 0.3 and len(found) >= 104:
        found[draw.choice([5, 7, 9, 55, 59, 63, 67, 71, 92, 96])] = draw.randrange(4)
    return bytes(found).hex()


def trace(seed):
    draw = random.Random(seed)
    lines = ["clockbound-trace,1"]
    layout, clients = draw.choice([2, 2, 3]), draw.randint(1, 3)
    if layout == 3:
        lines.append("set,layout,3")
    if draw.random() < 0.5:
        lines.append(f"set,tries,{draw.choice([1, 2, 3, 10])}")
    if draw.random() < 0.3:
        lines.append(f"set,drift,{draw.choice([0, 1, 50_000, 10**9])}")
    if draw.random() < 0.5:
        lines.append("image," + image(draw, draw.choice([2, layout])))
    paged, marker, fixed = draw.random() < 0.6, draw.randint(0, 2), (draw.choice([104, 200]), draw.randint(0, 3), draw.randint(0, 3))
    if paged:
        lines.append("page," + page(draw, 2 * draw.randint(0, 9), marker, fixed))
    mono, real = draw.randint(0, 10**12), 1_700_000_000 * 10**9

    told = draw.choice([0.5, 0.95, 1, 1])  # how often a clock row has its truth

    def clock():
        nonlocal mono
        mono += draw.choice([0, 500, 10**6, 10**9, 6 * 10**9, 1001 * 10**9])
        off = draw.choice([0, 9, 9, 9, 100_000, 10**6, 10**7])
        lines.append(f"clock,{mono},{real + mono}" + (f",{real + mono + draw.randint(-off, off)}" if draw.random() < told else ""))

    def party():
        return draw.choice(["h", "d", "d"] + [f"c{k}" for k in range(1, clients + 1)] * 2)

    clock()
    for _ in range(draw.randint(0, 60)):
        kind = draw.choice(["clock", "clock", "poll", "poll", "call", "call", "run", "run", "do", "disrupt", "mark", "page"])
        if kind == "clock":
            clock()
        elif kind == "poll":
            lines.append(f"poll,{reply(draw)}" + (f",{draw.randint(0, 10)}" if draw.random() < 0.25 else ""))
        elif kind == "call":
            lines.append(f"call,{draw.randint(1, clients)}" + (f",{draw.randint(1, 3)}" if draw.random() < 0.4 else ""))
        elif kind == "run":
            lines.append(f"run,{party()},{draw.randint(1, 30)}")
        elif kind == "do":
            lines.append(f"do,{party()},{draw.randint(1, 3)}")
        elif kind == "disrupt":
            lines.append("disrupt")
        elif paged and kind == "mark":
            marker = draw.randint(0, 3)
            lines.append(f"mark,{marker}")
        elif paged and kind == "page":
            lines.append("page," + page(draw, 2 * draw.randint(0, 9), draw.randint(0, 3), fixed))
    if draw.random() < 0.03:
        lines[draw.randrange(len(lines))] = draw.choice(["mark,1", "clock,0,0", "set,tries,3", "run,d,1000001", "poll,0", "call,65", "x"])
    return "\n".join(lines) + "\n"


def story(seed):
    """A whole record, a jump of the clock, and markers that tell of it in time, late, or by a marker that was there before."""
    draw = random.Random(seed)
    words = [0x43420200414D5A4E, HEADER[2](draw.choice([2, 65_534])), 1, 0, 1001, 0, 244_142, 7, 50_000 + (1 << 32), 1]
    lines = ["clockbound-trace,1"] + draw.choice([[], [], ["image," + b"".join(le(w, 8) for w in words).hex()]])
    lines.append("page," + page(random.Random(1), 2, 7, (104, 0, 0)))
    off, mono, real = 0, 10**9, 1_700_000_000 * 10**9

    def clock(jump):
        nonlocal off, mono
        off, mono = off + jump, mono + draw.choice([10**6, 10**9])
        lines.append(f"clock,{mono},{real + mono},{real + mono - off}")

    clock(0)
    lines.extend(draw.choice([[], [], ["call,1"]]))
    for _ in range(draw.randint(1, 4)):
        lines.append("poll," + REPLIES[0].hex())
        for _ in range(draw.randint(0, 3)):
            lines.append(draw.choice(["disrupt", "disrupt", "mark,7", "mark,8", "mark,9"]))
        clock(draw.choice([0, 0, 0, 5_000_000]))
        lines.append("call,1")
        lines.extend(draw.choice([[], ["mark,8"], ["disrupt", "mark,8", "disrupt", "mark,7"]]))
    lines.extend(f"run,{draw.choice('hd')},{draw.randint(1, 40)}" for _ in range(draw.randint(0, 4)))
    return "\n".join(lines) + "\n"


def wrapping(seed):
    """About as many publications inside a read as a period of layout 2 has."""
    draw = random.Random(seed)
    polls = draw.choice([32_765, 32_766, 32_766, 32_767])
    lines = ["clockbound-trace,1", "clock,1000000000,1700000000000000000", "clock,2000000000,1700000001000000000", "poll," + REPLIES[0].hex()]
    lines += ["poll,"] * polls + ["poll," + REPLIES[-1].hex(), "call,1,2", "do,d,1", f"run,c1,{draw.randint(2, 9)}", "do,h,1", f"do,d,{polls + 1}"]
    return "\n".join(lines) + "\n"


def replay(seed):
    return ["replay"], (wrapping if seed % 50 == 49 else story if seed % 5 == 4 else trace)(seed)


def drill(seed):
    draw = random.Random(seed)
    words = ["drill", str(draw.choice([0, 1, 2**64 - 1, draw.getrandbits(64)])), str(draw.choice([6, 7, 8, 20, draw.randint(6, 600)]))]
    return words + ["--trace"] * (draw.random() < 0.2), ""


def run(program, words, text):
    done = subprocess.run([program, *words], input=text.encode(), capture_output=True)
    return done.stdout.splitlines(), done.stderr, done.returncode


def kind_of(line):
    parts = line.decode().split(",")
    place = {"ans": 3, "open": 2, "premises": 4 if len(parts) > 4 else 1}.get(parts[0])
    return parts[0] if place is None else f"{parts[0]} {parts[place]}"


def main():
    ours, other = sys.argv[1:3]
    cases = int(sys.argv[3]) if len(sys.argv) > 3 else 1000
    first = int(sys.argv[4]) if len(sys.argv) > 4 else 0
    accepted, kinds = 0, {}
    traces = [replay(seed) for seed in range(first, first + cases)]
    days = [drill(seed) for seed in range(first, first + cases // 10)]
    for number, (words, text) in enumerate(traces + days):
        one, two = run(ours, words, text), run(other, words, text)
        if one != two:
            print(f"case {number}, first seed {first}, {' '.join(words)}, differs:\n{text}\n{one}\n{two}")
            sys.exit(1)
        accepted += one[2] == 0
        if "--trace" not in words:
            for line in one[0]:
                kinds[kind_of(line)] = kinds.get(kind_of(line), 0) + 1
    print(f"{len(traces)} traces and {len(days)} days alike, {accepted} of them accepted;", ", ".join(f"{n} {k}" for k, n in sorted(kinds.items())))


if __name__ == "__main__":
    main()
