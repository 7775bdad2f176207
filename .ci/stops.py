#!/usr/bin/env python3
"""stops.py PROGRAM: what `replay` tells of a daemon that stops among a publication's stores.

On images of several generations, in both layouts, a poll stops after each number of stores; the next opening has to find what the table
below says, and to publish the number beside it. The table was reasoned from the stores, not computed."""

import struct
import subprocess
import sys

REPLY = (
    "06020000002100050000000000000000000000010000000000000000a9fea97ba9fea97b0000000000000000000000000001000000040000000000006500000000000000"
    "f7ffffff0000000000000000000000000000000000000000ec800000ea80000000000000"
)
MAGIC = bytes.fromhex("4e5a4d4100024243")
# as-of 1 s, void-after 1,001 s, bound 244,142 ns, marker 0, drift 50,000 ppb, synchronized, no support
RECORD = struct.pack("<8Q", 1, 0, 1_001, 0, 244_142, 0, 50_000 + (1 << 32), 0)

# layout, generation of the image; then what is found and published after 0 stores, after 1 to 9, after 10
TABLE = [
    (2, 0, ("fresh", 0, 2), ("torn", 1, 2), ("kept", 2, 4)),
    (2, 2, ("kept", 2, 4), ("torn", 3, 4), ("kept", 4, 6)),
    (2, 65_532, ("kept", 65_532, 65_534), ("torn", 65_533, 65_534), ("kept", 65_534, 2)),
    (2, 65_534, ("kept", 65_534, 2), ("torn", 65_535, 2), ("kept", 2, 4)),
    (3, 0, ("fresh", 0, 2), ("torn", 1, 2), ("kept", 2, 4)),
    (3, 2, ("kept", 2, 4), ("torn", 3, 4), ("kept", 4, 6)),
    (3, 65_534, ("kept", 65_534, 65_536), ("torn", 65_535, 65_536), ("kept", 65_536, 65_538)),
    (3, 4_294_967_292, ("kept", 4_294_967_292, 4_294_967_294), ("torn", 4_294_967_293, 4_294_967_294), ("kept", 4_294_967_294, 2)),
    (3, 4_294_967_294, ("kept", 4_294_967_294, 2), ("torn", 4_294_967_295, 2), ("kept", 2, 4)),
]


def image(layout, generation):
    """The ten words of a segment with this generation, in hexadecimal; without a publication they are 0."""
    if generation == 0:
        return bytes(80).hex()
    header = 80 + (2 << 32) + (generation << 48) if layout == 2 else 196_688 + (generation << 32)
    return (MAGIC + struct.pack("<Q", header) + RECORD).hex()


def trace(layout, generation, stop):
    return (
        f"clockbound-trace,1\nset,layout,{layout}\nimage,{image(layout, generation)}\nclock,2000000000,1700000001000000000\n"
        f"poll,{REPLY},{stop}\npoll,{REPLY}\n"
    )


def found_and_published(report):
    """What the last opening found, with its generation, and the number of the last publication."""
    opened = [line.split(",") for line in report.splitlines() if line.startswith("open,")][-1]
    published = [line.split(",") for line in report.splitlines() if line.startswith("pub,")][-1]
    return opened[2], int(opened[3]), int(published[3])


def main():
    right, wrong = 0, []
    for layout, generation, rested, torn, ended in TABLE:
        for stop in range(11):
            wanted = rested if stop == 0 else ended if stop == 10 else torn
            text = trace(layout, generation, stop).encode()
            done = subprocess.run([sys.argv[1], "replay"], input=text, capture_output=True, check=False)
            found = found_and_published(done.stdout.decode()) if done.returncode == 0 else done.stderr.decode()
            if found == wanted:
                right += 1
            else:
                wrong.append(f"layout {layout}, generation {generation}, stop {stop}: {found}, not {wanted}")
    for line in wrong:
        print(line)
    print(f"{right} stops as they have to be, {len(wrong)} not")
    return bool(wrong)


if __name__ == "__main__":
    sys.exit(main())
