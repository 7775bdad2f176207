#!/usr/bin/env python3
"""captures.py PROGRAM: what PROGRAM's `decode reply` tells of each captured reply of a real chronyd, beside what chronyc
printed of the same bytes and beside exact fractions. Prints a line for each reply that disagrees."""
import ipaddress
import math
import pathlib
import subprocess
import sys
from fractions import Fraction

CAPTURES = pathlib.Path(__file__).resolve().parent.parent / "examples" / "captures"
PACKED = {  # name: how many digits chronyc prints after the point
    "current_correction": 9, "last_offset": 9, "rms_offset": 9, "freq_ppm": 3, "resid_freq_ppm": 3, "skew_ppm": 3,
    "root_delay": 9, "root_dispersion": 9, "last_update_interval": 1,
}
LEAPS = ["Normal", "Insert second", "Delete second", "Not synchronised"]


def decoded(program, path):
    run = subprocess.run([program, "decode", "reply"], stdin=open(path), capture_output=True, text=True)
    return [line.split(",") for line in run.stdout.splitlines()] if run.returncode == 0 and not run.stderr else []


def printed(lines):
    """chronyc's line, from the lines of `decode`."""
    head, packed, _ = lines[0], lines[1:10], lines[10]
    _, _, ref_id, family, address, stratum, leap, high, low, nsec = head
    name = "".join(chr(c) for c in bytes.fromhex(ref_id) if 32 <= c < 127)  # of a reference clock
    shown = str(ipaddress.IPv4Address(bytes.fromhex(address[:8]))) if family == "1" else name
    seconds = (int(high) << 32) + int(low)
    numbers = []
    for (_, name, coefficient, exponent), (want, digits) in zip(packed, PACKED.items()):
        assert name == want
        value = int(coefficient) * 2.0 ** int(exponent)
        numbers.append(f"{value:.{digits}f}")
    return ",".join([ref_id.upper(), shown, stratum, f"{seconds}.{int(nsec):09d}", *numbers, LEAPS[int(leap)]])


def bound(lines):
    """The clock error bound, by exact fractions."""
    exact = {name: int(c) * Fraction(2) ** int(e) for _, name, c, e in lines[1:10]}
    delay, dispersion = max(Fraction(0), exact["root_delay"]), max(Fraction(0), exact["root_dispersion"])
    return math.ceil(10**9 * (delay / 2 + dispersion + abs(exact["current_correction"])))


def main():
    program, wrong, replies = sys.argv[1], 0, 0
    for path in sorted(CAPTURES.glob("*.hex")):
        lines = decoded(program, path)
        told = path.with_suffix(".chronyc")
        if told.exists():
            replies += 1
            right = len(lines) == 11 and printed(lines) == told.read_text().strip() and lines[10] == ["bound", str(bound(lines))]
        else:
            right = lines == [["refused", "short"]]
        if not right:
            wrong += 1
            print(f"{path.name}: {lines}")
    sys.exit(wrong != 0 or replies != 14)


main()
