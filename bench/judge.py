#!/usr/bin/env python3
"""judge.py PROGRAM [CASES [SEED]]: whether the tests in tools/promises.py find in so many generated traces (1,000 without CASES) the
first broken promise that PROGRAM names in the report's last line, and whether tools/explain.py has sentences for every answer. The
traces are those of compare.py. Prints the first case that differs, or how often each promise was broken."""
import collections
import pathlib
import subprocess
import sys
import tempfile

from compare import story, trace

sys.path.insert(0, str(pathlib.Path(__file__).resolve().parent.parent / "tools"))

from explain import Explainer  # noqa: E402
from promises import UNCLEAR, broken_by_rows, claim_of  # noqa: E402
from recording import Interval, Refusal, read_report, read_trace, require_same_run  # noqa: E402


def first_broken(trace, report):
    """The fields of the last line by our own tests; UNCLEAR where an answer depends on the turns."""
    for answer in report.of_kind(Interval):
        if answer.is_trusted:
            broken = broken_by_rows(trace, claim_of(report.events, answer), answer)
            if broken == UNCLEAR:
                return UNCLEAR
            if broken:
                return ["failed", answer.client, answer.call, *broken]
    return ["held"]


def case(program, text, folder):
    """What our tests and the program say of a trace; nothing where it is refused."""
    paths = folder / "case.trace", folder / "case.report"
    paths[0].write_text(text)
    done = subprocess.run([program, "replay"], input=text, capture_output=True, text=True)
    if done.returncode != 0:
        return None
    paths[1].write_text(done.stdout)
    run, report = read_trace(paths[0]), read_report(paths[1])
    require_same_run(run, report)
    for answer in report.events:
        if isinstance(answer, (Interval, Refusal)) and not Explainer(run, report, answer).sentences():
            return "no sentence", answer
    return first_broken(run, report), report.premises


def main():
    """The command."""
    program = sys.argv[1]
    cases = int(sys.argv[2]) if len(sys.argv) > 2 else 1000
    first = int(sys.argv[3]) if len(sys.argv) > 3 else 0
    found = collections.Counter()
    with tempfile.TemporaryDirectory() as folder:
        for seed in range(first, first + cases):
            text = (story if seed % 2 else trace)(seed)
            both = case(program, text, pathlib.Path(folder))
            if both and both[0] not in (UNCLEAR, both[1]):
                print(f"seed {seed} differs: {both[0]} and {both[1]}\n{text}")
                sys.exit(1)
            found["refused" if both is None else "unclear" if both[0] == UNCLEAR else both[1][3] if both[1][1:] else "held"] += 1
    print(f"{cases} traces alike:", ", ".join(f"{number} {name}" for name, number in sorted(found.items())))


if __name__ == "__main__":
    main()
