#!/usr/bin/env python3
"""peaks.py [PROGRAM]..: the peak of memory of reading a trace and of running one by threads, and how long it takes. The texts for reading
are refused at their last line, so that all of it is read and nothing is run. A PROGRAM has clockbound's command line; without one the built
program is measured (crates/clockbound/out/clockbound, which README's first command makes). Prints of five runs the least time in
milliseconds and the greatest peak in MiB, the text's own buffer included, and how often the text and what is written go into that peak.
Ends with 1 where threads takes more than three times its text and its report."""
import os
import pathlib
import resource
import subprocess
import sys
import tempfile
import time

from texts import REPLY, TOP, shared

MIB = 1 << 20
MOST = 3


def rows(size):
    """Clock rows, polls without a reply and calls, three to three to one, up to so many bytes."""
    lines, length, k = ["clockbound-trace,1\n"], 19, 0
    while length < size - 80:
        k += 1
        for line in (f"clock,{k * 10**9},{1700000000 * 10**9 + k * 10**9},{1700000000 * 10**9}\n", "call,1\n", f"call,{k % 64 + 1},10\n"):
            lines.append(line)
            length += len(line)
        if k % 3 == 0:
            lines.append("poll,\n")
            length += 6
    return "".join(lines)


def replies(size):
    """Polls with a reply of a real chronyd, padded to 1,024 bytes."""
    line = f"poll,{REPLY}{'00' * (1024 - len(REPLY) // 2)}\n"
    return "clockbound-trace,1\nclock,1,1\n" + line * ((size - 80) // len(line))


def clocks(size):
    """Clock rows with true time."""
    line = f"clock,{10**18},{17 * 10**17},{17 * 10**17}\n"
    return "clockbound-trace,1\n" + line * ((size - 80) // len(line))


def runs(size):
    """Lines of a schedule."""
    return "clockbound-trace,1\nclock,1,1\n" + "run,c1,000000001\n" * ((size - 80) // 17)


def day(program):
    """A generated day of 20,000 polls, with its lines of turns."""
    return subprocess.run([program, "drill", "1", "20000", "--trace"], capture_output=True, text=True).stdout


def cases(program):
    """Names, texts, words and the exit status that is due."""
    for size in (2, 4, 8):
        yield f"rows, {size} MiB", lambda: rows(size * MIB) + "x\n", ["replay"], 3
    for size in (4, 8, 16):
        yield f"replies, {size} MiB", lambda: replies(size * MIB) + "x\n", ["replay"], 3
    yield "clock rows with true time, 16 MiB", lambda: clocks(16 * MIB) + "x\n", ["replay"], 3
    yield "lines of a schedule, 16 MiB", lambda: runs(16 * MIB) + "x\n", ["replay"], 3
    yield "one record of 16 Mi commas", lambda: "," * (16 * MIB - 1) + "\n", ["replay"], 3
    yield "threads, a day of 20,000 polls", lambda: day(program), ["threads"], 0
    yield "threads, 64 clients, 300,000 calls", lambda: "\n".join(shared()) + "\n", ["threads"], 0


def write(path, text):
    """Writes a text in a child of its own: what this process holds would count as the memory of the programs that it starts."""
    child = os.fork()
    if child == 0:
        pathlib.Path(path).write_text(text())
        os._exit(0)
    os.waitpid(child, 0)


def run(program, words, path, due):
    """Milliseconds and peak bytes of one run, in a child of its own, and how many bytes it wrote."""
    read, write = os.pipe()
    child = os.fork()
    if child == 0:
        start = time.perf_counter()
        with open(path) as text, open(f"{path}.out", "w") as out:
            code = subprocess.run([program, *words], stdin=text, stdout=out, stderr=subprocess.DEVNULL).returncode
        took = (time.perf_counter() - start) * 1000
        os.write(write, f"{took} {resource.getrusage(resource.RUSAGE_CHILDREN).ru_maxrss * 1024} {code}".encode())
        os._exit(0)
    os.close(write)
    took, peak, code = os.read(read, 100).decode().split()
    os.close(read)
    os.waitpid(child, 0)
    if int(code) != due:
        sys.exit(f"{program} {' '.join(words)} ended with {code}")
    return float(took), int(peak), os.path.getsize(f"{path}.out")


def main():
    programs, above = sys.argv[1:] or [TOP / "crates" / "clockbound" / "out" / "clockbound"], False
    with tempfile.TemporaryDirectory() as folder:
        path = os.path.join(folder, "trace")
        for name, text, words, due in cases(programs[0]):
            write(path, text)
            for program in programs:
                found = [run(program, words, path, due) for _ in range(5)]
                peak = max(peak for _, peak, _ in found)
                times = max(peak / (os.path.getsize(path) + written) for _, peak, written in found)
                print(f"{min(took for took, _, _ in found):8.1f} ms {peak / MIB:7.1f} MiB {times:5.1f} times  {name:34} {program}")
                above = above or (words[0] == "threads" and times > MOST)
    return above


if __name__ == "__main__":
    sys.exit(main())
