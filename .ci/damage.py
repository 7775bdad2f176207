#!/usr/bin/env python3
"""damage.py PROGRAM: what the program answers where its input or its output fails, or is nothing like what the command reads.

Each command is given a folder as input, a closed input, one byte more than it reads at most, 16 MiB of one byte over and over, a
full device and a closed output. Status and text are those of the tables below; nothing is written but where the table says so."""

import os
import subprocess
import sys
import tempfile

MOST = 16_777_216
EXAMPLES = {
    ("replay",): "steady.trace",
    ("replay", "--civil"): "steady.trace",
    ("order", "1000000"): "steady.trace",
    ("threads",): "steady.trace",
    ("threads", "--workers", "2"): "steady.trace",
    ("audit",): "judged-report.txt",
    ("pagetime",): "page-reads.txt",
    ("agree",): "four-clocks.txt",
    ("decode", "reply"): "steady-reply.hex",
    ("decode", "page"): "start-page.hex",
    ("decode", "image"): "kept-image.hex",
}
DRILLS = [("drill", "0", "6"), ("drill", "0", "6", "--trace")]
FILLED = {
    "line feeds": b"\n",
    "commas": b",",
    "quotes": b'"',
    "zeros": b"\0",
    "bytes of 255": b"\xff",
}
READ = (4, b"", "clockbound: reading failed")
WRITE = (5, b"", "clockbound: writing failed")
TOO_LONG = (6, b"", f"clockbound: input longer than {MOST} bytes")
KIND = (3, b"", "clockbound: line 1: kind")
HEX = (3, b"", "clockbound: line 1: hex")


def filled_answer(words, name):
    """A text without a first line is refused there; blanks among digits are skipped, and no digits are a short message."""
    if words[0] != "decode":
        return KIND
    if name == "line feeds" and words[1] != "image":
        return (0, b"refused,short\n", "")
    return HEX


class Checks:
    def __init__(self, program, examples):
        self.program, self.examples, self.passed, self.failed = program, examples, 0, []

    def run(self, words, source, sink=None, closed=None):
        """Status, output and text of one run."""
        def close():
            if closed is not None:
                os.close(closed)

        done = subprocess.run(
            [self.program, *words], stdin=source, stdout=sink or subprocess.PIPE, stderr=subprocess.PIPE, preexec_fn=close, timeout=120
        )
        return done.returncode, done.stdout or b"", done.stderr.decode().strip()

    def expect(self, name, words, found, wanted):
        if found == wanted:
            self.passed += 1
        else:
            self.failed.append(f"{' '.join(words)} with {name}: {found[0]} {found[1][:40]} {found[2]!r}, not {wanted[0]} {wanted[2]!r}")

    def failing_inputs(self, words):
        folder = os.open("/", os.O_RDONLY)
        self.expect("a folder as input", words, self.run(words, folder), READ)
        os.close(folder)
        self.expect("a closed input", words, self.run(words, subprocess.DEVNULL, closed=0), READ)

    def failing_outputs(self, words, source):
        with open("/dev/full", "wb") as full, open(source, "rb") as text:
            self.expect("a full device as output", words, self.run(words, text, full), WRITE)
        with open(source, "rb") as text:
            self.expect("a closed output", words, self.run(words, text, closed=1), WRITE)

    def long_inputs(self, words, room):
        for name, byte in FILLED.items():
            with open(room, "wb") as text:
                text.write(byte * MOST)
            with open(room, "rb") as text:
                self.expect(f"16 MiB of {name}", words, self.run(words, text), filled_answer(words, name))
            with open(room, "ab") as text:
                text.write(byte)
            with open(room, "rb") as text:
                self.expect(f"16 MiB and one of {name}", words, self.run(words, text), TOO_LONG)


def main():
    checks = Checks(os.path.abspath(sys.argv[1]), "examples")
    with tempfile.TemporaryDirectory() as folder:
        room = os.path.join(folder, "text")
        for words, example in EXAMPLES.items():
            checks.failing_inputs(words)
            checks.failing_outputs(words, os.path.join(checks.examples, example))
            checks.long_inputs(words, room)
        for words in DRILLS:
            checks.failing_outputs(words, os.devnull)
    for line in checks.failed:
        print(line)
    print(f"{checks.passed} answers to damaged input and output as they have to be, {len(checks.failed)} not")
    return bool(checks.failed)


if __name__ == "__main__":
    sys.exit(main())
