#!/usr/bin/env python3
"""explained.py [--write]: whether tools/explain.py says of each answer in examples/explained.txt what stands there; the texts were checked
by hand against trace and report. A text begins with the command's words, `explain TRACE REPORT CLIENT CALL` without the report, which
stands beside its trace. And whether tools/plot.py draws every example as a picture that is well-formed. Prints the first line that
differs; with --write it writes the file anew, to be checked by hand again."""
import pathlib
import sys
from xml.etree import ElementTree

TOP = pathlib.Path(__file__).resolve().parent.parent
TEXTS = TOP / "examples" / "explained.txt"
sys.path.insert(0, str(TOP / "tools"))

from explain import explained  # noqa: E402
from plot import Picture  # noqa: E402
from recording import read_report, read_trace  # noqa: E402


def told(head):
    """The text of an answer, with its head."""
    _, trace, client, call = head.split()
    path = TOP / "examples" / trace
    return f"{head}\n{explained(path, path.with_suffix('.report'), int(client), int(call))}"


def draw(path):
    """Draws an example, and reads the picture."""
    picture = Picture(read_trace(path), read_report(path.with_suffix(".report"))).svg()
    if not picture.startswith("<svg ") or "nan" in picture or len(ElementTree.fromstring(picture)) < 10:
        sys.exit(f"{path} is drawn badly")


def main():
    kept = TEXTS.read_text()
    heads = [line for line in kept.splitlines() if line.startswith("explain ")]
    now = "\n".join(map(told, heads))
    if sys.argv[1:] == ["--write"]:
        TEXTS.write_text(now)
    elif now != kept:
        pairs = zip(now.splitlines() + [""], kept.splitlines() + [""])
        print(next((f"said: {one}\nkept: {two}" for one, two in pairs if one != two), "one text is longer"))
        sys.exit(1)
    for path in sorted((TOP / "examples").glob("**/*.trace")):
        draw(path)
    sys.exit(len(heads) < 10)


main()
