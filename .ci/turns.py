#!/usr/bin/env python3
"""turns.py PROGRAM: has the program replay the schedules that the tests of the clients' seats make by turns (crates/segment_rule/src/client_tests.rt),
and holds what it answers to the same reasoned tables. Each schedule runs twice, with one more poll in the end: the answer comes before it where the
call has made all its steps, and after it where one is left. Prints how many agree, or the first that doesn't."""
import subprocess
import sys

# A good reply, whose bound is 244,142 ns.
REPLY = ("06020000002100050000000000000000000000010000000000000000a9fea97ba9fea97b000000000000000000000000000100000004000000000000"
         "6500000000000000f7ffffff0000000000000000000000000000000000000000ec800000ea80000000000000")
LATER = "second later"
AT_ONCE = {1: (1_700_000_000_999_755_858, 1_700_000_001_000_244_142), 2: (1_700_000_001_999_755_858, 1_700_000_002_000_244_142),
           LATER: (1_700_000_001_999_705_858, 1_700_000_002_000_294_142)}
WORD1 = {2: lambda number: 80 + (2 << 32) + (number << 48), 3: lambda number: 196_688 + (number << 32)}


def image(layout, number, nanos=None):
    """The words of an old record: as-of 1 s, or 2 s and so many nanoseconds."""
    as_of = (1, 0) if nanos is None else (2, nanos)
    words = [0x43420200414D5A4E, WORD1[layout](number), *as_of, 1_001, 0, 244_142, 0, 0x0000_0001_0000_C350, 0]
    return "image," + b"".join(word.to_bytes(8, "little") for word in words).hex()


def page(marker):
    words = [0x0000_0068_4B4C_4356, 0x0000_0002_0001_0001, marker] + [0] * 10
    return "page," + b"".join(word.to_bytes(8, "little") for word in words).hex()


def at_once(generation, row, number=0, status="synchronized"):
    earliest, latest = AT_ONCE[row]
    return f"time,{generation},{2 if row == LATER else row},{number},{status},{earliest},{latest}"


def schedule(layout, tries, polls, turns, steps, first=None, start=None):
    """A trace of one call, whose turns are those given, then the steps that are left, and then one more poll."""
    lines = ["clockbound-trace,1", "set,drift,50000", f"set,layout,{layout}"] + [first] * (first is not None) + [start] * (start is not None)
    lines += ["clock,2000000000,1700000001000000000"] + ["mark,8"] * (start is not None) + ["clock,3000000000,1700000002000000000"]
    lines += polls + [f"poll,{REPLY}", f"call,1,{tries}"]
    made = sum(int(turn[7:]) for turn in turns if turn.startswith("run,c1,"))
    lines += [turn for turn in turns if not turn.endswith(",0")] + [f"run,c1,{steps - made}"] * (steps > made) + ["do,d,1"]
    return "\n".join(lines) + "\n"


def cases():
    """Each schedule as a function of the steps, the steps of its call, and its answer."""
    def case(steps, answer, layout, tries, polls, turns, **others):
        return (lambda made: schedule(layout, tries, polls, turns, made, **others)), steps, answer, turns

    poll = f"poll,{REPLY}"
    for layout, number, before, after in [(2, 0, 2, 4), (2, 65_530, 65_532, 65_534), (2, 65_532, 65_534, 2),
                                          (3, 0, 2, 4), (3, 65_532, 65_534, 65_536), (3, 4_294_967_292, 4_294_967_294, 2)]:
        for place in range(12):
            turns = ["do,d,1", f"run,c1,{place}", "do,h,1", "do,d,1"]
            steps = 21 if 0 < place < 10 else 11
            answer = at_once(after, 2) if place < 10 else at_once(before, LATER) if place == 10 else at_once(before, 1)
            yield case(steps, answer, layout, 2, [poll] * 2, turns, first=image(layout, number))
            if number == 0 and 0 < place < 10:
                yield case(10, "busy,1,2,4", layout, 1, [poll] * 2, turns)
    for layout in [2, 3]:
        for first in range(1, 10):
            for second in range(1, 10):
                turns = ["do,d,1", f"run,c1,{first}", "do,h,1", "do,d,1", f"run,c1,{10 - first + second}", "do,d,1"]
                yield case(20, "busy,2,4,6", layout, 2, [poll] * 3, turns)
                yield case(31, at_once(6, 2), layout, 3, [poll] * 3, turns)
        for tries in [1, 2, 10]:
            for place in range(12):
                for stores in range(1, 10):
                    turns = ["do,d,1", f"run,c1,{place}", "do,h,1", "do,d,1"]
                    steps = tries if place == 0 else 9 + tries if place < 10 else 11
                    first = 2 if tries == 1 and place else 3
                    answer = f"busy,{tries},{first},3" if place < 10 else at_once(2, LATER if place == 10 else 1)
                    yield case(steps, answer, layout, tries, [poll, f"{poll},{stores}"], turns)
        for nanos, answer in [(0, at_once(2, 1)), (1_000, at_once(2, 1)), (1_001, "causality,2000001001,2000000000")]:
            yield case(11, answer, layout, 1, [], [], first=image(layout, 2, nanos))
    for layout, polls, place, steps, answer in [
            (2, 32_767, 1, 11, at_once(2, 2)), (2, 32_767, 9, 11, at_once(2, LATER)), (2, 32_766, 9, 21, at_once(65_534, 2)), (2, 32_768, 9, 21, at_once(4, 2)),
            (3, 32_767, 1, 21, at_once(65_536, 2)), (3, 32_767, 9, 21, at_once(65_536, 2)), (3, 32_768, 1, 21, at_once(65_538, 2)), (3, 32_768, 9, 21, at_once(65_538, 2))]:
        yield case(steps, answer, layout, 2, [poll] * (polls + 1), ["do,d,1", f"run,c1,{place}", "do,h,1", f"do,d,{polls}"])
    for tries in [1, 2, 10]:
        for place in range(15):
            steps = 17 if place in (12, 13) and tries > 1 else 14
            answer = (at_once(2, LATER, 1, "disrupted") if place < 11 else "pagebusy,2,4" if place in (12, 13) and tries == 1
                      else at_once(2, 1, 1, "disrupted") if place < 14 else at_once(2, 1))
            yield case(steps, answer, 2, tries, [poll], ["do,d,1", f"run,c1,{place}", "do,h,2"], start=page(7))


def told(program, text):
    """The answer, and whether the last poll was published after it."""
    done = subprocess.run([program, "replay"], input=text.encode(), capture_output=True)
    if done.returncode:
        sys.exit(f"the program refused a schedule: {done.stderr.decode()}{text[-600:]}")
    kept = [line for line in done.stdout.decode().splitlines() if line.startswith(("ans,", "pub,"))]
    return [line for line in kept if line.startswith("ans,")], kept[-1].startswith("pub,")


def main(program):
    number = 0
    for text, steps, answer, turns in cases():
        number += 1
        found, ended = told(program, text(steps))
        made = sum(int(turn[7:]) for turn in turns if turn.startswith("run,c1,"))
        early = steps > made and told(program, text(steps - 1))[1]
        if found != [f"ans,1,1,{answer}"] or not ended or early:
            sys.exit(f"schedule {number} has {found}, and not {answer} after {steps} steps ({ended}, {early}):\n{text(steps)[-900:]}")
    print(f"{number} schedules agree")


if __name__ == "__main__":
    main(*sys.argv[1:])
