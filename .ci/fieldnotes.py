#!/usr/bin/env python3
"""fieldnotes.py: whether docs/field-notes.md has the numbers that the recordings in examples/known-truth and their reports give. Each
phrase with numbers is made here from a recording, and has to stand in the page. Prints each that doesn't."""
import pathlib
import sys

TOP = pathlib.Path(__file__).resolve().parent.parent
sys.path.insert(0, str(TOP / "tools"))

from promises import broken_promise, claim_of  # noqa: E402
from recording import Interval, Publication, Refusal, read_report, read_trace, require_same_run  # noqa: E402

PAGE = TOP / "docs" / "field-notes.md"
RECORDINGS = TOP / "examples" / "known-truth"


def micro(nanoseconds):
    """Nanoseconds in whole microseconds, as the page writes them."""
    return f"{round(nanoseconds / 1000):,} µs"


class Recording:
    """A recording with its report, and what is counted of them."""

    def __init__(self, name):
        path = RECORDINGS / f"{name}.trace"
        self.name, self.trace, self.report = name, read_trace(path), read_report(path.with_suffix(".report"))
        require_same_run(self.trace, self.report)
        self.answers = self.report.of_kind(Interval)
        self.trusted = [answer for answer in self.answers if answer.is_trusted]
        self.missing = [answer for answer in self.trusted if self.miss(answer) > 0]
        self.publications = self.report.of_kind(Publication)

    def of_status(self, status):
        return [answer for answer in self.answers if answer.status == status]

    def half(self, answer):
        return (answer.latest - answer.earliest) // 2

    def offset(self, answer):
        return abs(self.trace.row(answer.row).offset)

    def miss(self, answer):
        """By how much an interval misses true time; 0 or less where it contains it."""
        return self.offset(answer) - self.half(answer)

    def seconds(self, row):
        return (self.trace.row(row).mono - self.trace.rows[0].mono) / 10**9

    def broken(self):
        """How many answers fail each promise."""
        found = {}
        for answer in self.trusted:
            broken = broken_promise(self.trace, self.report, claim_of(self.report.events, answer), answer)
            if broken:
                found[broken[0]] = found.get(broken[0], 0) + 1
        return found

    def uncovered(self):
        """The publications whose own reply is good and has a bound below the clock's offset at that reply."""
        return [event for event in self.publications if self.trace.poll(event.poll).reply and self.trace.poll(event.poll).reply.is_good
                and abs(self.trace.row(event.replied).offset) > self.trace.poll(event.poll).reply.bound]

    def spans(self, status):
        """First and last second of each span of publications with a status, up to the publication that ends it."""
        spans, begin = [], None
        for event in self.publications:
            if event.status == status and begin is None:
                begin = self.seconds(event.replied)
            elif event.status != status and begin is not None:
                spans.append(self.seconds(event.replied) - begin)
                begin = None
        return spans

    def growth(self, first, last):
        """From one poll to another, in ppm: how far the clock went against true time, and how much the bound grew."""
        begin, end = (next(event for event in self.publications if event.poll == poll) for poll in (first, last))
        before, after = self.trace.row(begin.replied), self.trace.row(end.replied)
        passed = (after.mono - before.mono) / 10**6
        return (after.offset - before.offset) / passed, (end.bound - begin.bound) / passed

    def steepest(self):
        """The greatest change against true time between two rows at least 10 ms apart, from the first trusted answer on, in ppm."""
        rows = self.trace.rows[self.trusted[0].row - 1 :]
        return max(abs(after.offset - before.offset) * 10**6 / (after.mono - before.mono)
                   for before, after in zip(rows, rows[1:]) if after.mono - before.mono > 10**7)

    def table_row(self):
        """The recording's row of the table."""
        held = {status: sum(self.miss(answer) <= 0 for answer in self.of_status(status)) for status in ("synchronized", "freerunning")}
        counts = [f"{count} of {len(self.of_status(status))}" if self.of_status(status) else "" for status, count in held.items()]
        halves = sorted(self.half(answer) for answer in self.of_status("synchronized"))
        last = ",".join(map(str, ["premises", *self.report.premises]))
        return f"| `{self.name}` | `{last}` | {' | '.join(counts)} | {len(self.of_status('disrupted')) or ''} | {micro(halves[len(halves) // 2])} |"


def jump_phrases():
    jump, reset, untold = Recording("jump"), Recording("jump-with-reset"), Recording("jump-untold")
    first = next(event for event in jump.publications if event.poll == claim_of(jump.report.events, jump.missing[0]).base.poll)
    reply = jump.trace.poll(first.poll).reply
    kept_out = [event.poll for event in jump.uncovered() if event.status == "disrupted"]
    lasting = jump.seconds(jump.missing[-1].row) - jump.seconds(jump.missing[0].row)
    last = jump.missing[-1]
    ends = next(event for event in reset.publications if event.position > 200 and event.status == "synchronized" and event.poll > 224)
    return [
        f"Poll {first.poll}, {jump.spans('disrupted')[0]:.1f} s after the jump",
        f"Its bound is {micro(reply.bound)}: {micro(abs(reply.correction))} of correction, {micro(reply.dispersion)} of root dispersion and "
        f"{micro(reply.delay / 2)} of half the root delay. The clock is {micro(jump.trace.row(first.replied).offset)} off.",
        f"{len(jump.missing)} answers in {lasting:.2f} s, calls {jump.missing[0].call} to {last.call}, are synchronized and miss true time by "
        f"{micro(min(map(jump.miss, jump.missing)))} to {micro(max(map(jump.miss, jump.missing)))}",
        f"{len(kept_out)} good replies, of polls {kept_out[0]} to {kept_out[-1]}",
        f"disrupted for {reset.spans('disrupted')[0]:.1f} s",
        f"poll {ends.poll} has a bound of {micro(ends.bound)}, and the clock is {micro(reset.trace.row(ends.replied).offset)} off",
        f"{len(untold.missing)} answers miss true time, by {micro(min(map(untold.miss, untold.missing)))} to "
        f"{micro(max(map(untold.miss, untold.missing)))}: {untold.broken()['mark']} fails `mark` and {untold.broken()['bound']} fail `bound`",
    ]


def lost_phrases():
    lost, wide = Recording("server-lost-1ppm"), Recording("server-lost")
    replies = [poll.reply for poll in lost.trace.polls if poll.reply and poll.reply.is_good]
    ends = {recording.name: max(map(recording.half, recording.trusted)) for recording in (lost, wide)}
    gone = Recording("chronyd-gone")
    drift = gone.trace.row(gone.report.premises[4])
    clock, bound = lost.growth(50, 105)
    return [
        f"Between polls 50 and 105 the clock goes by {clock:.1f} ppm against true time, and the bound grows by {bound:.1f} ppm",
        f"grows by {wide.growth(50, 105)[1]:.0f} ppm",
        f"{len(lost.uncovered())} of its {len(replies)} good replies aren't covered",
        f"{len(lost.missing)} of {len(lost.trusted)} answers miss true time, by up to {micro(max(map(lost.miss, lost.missing)))}, from "
        f"second {lost.seconds(lost.missing[0].row):.0f} to second {lost.seconds(lost.missing[-1].row):.0f}",
        f"up to {micro(ends['server-lost'])} to each side, against {micro(ends['server-lost-1ppm'])}",
        f"goes by {gone.steepest():.0f} ppm where 50 were promised",
        f"names call {gone.report.premises[2]}, at second {gone.seconds(drift.number):.0f}",
        f"call {gone.missing[0].call}, misses it at second {gone.seconds(gone.missing[0].row):.1f}",
    ]


def other_phrases():
    lie, leap, restart, steady, slewed = map(Recording, ("lying-server", "leap-second", "restart", "steady", "slewed-start"))
    nearest = max(slewed.trusted, key=lambda answer: slewed.offset(answer) / slewed.half(answer))
    busy = [answer for answer in restart.report.of_kind(Refusal) if answer.why == "busy"]
    share = max(steady.offset(answer) / steady.half(answer) for answer in steady.trusted)
    return [
        f"all {len(lie.missing)} miss true time, by {min(map(lie.miss, lie.missing)) / 10**6:.1f} ms and more",
        f"{len(leap.of_status('freerunning'))} answers in {leap.spans('freerunning')[0]:.0f} s are free running",
        f"{len(restart.of_status('freerunning'))} answers in {restart.spans('freerunning')[0]:.0f} s are free running",
        f"{len(busy)} answers are busy",
        f"{len(restart.of_status('disrupted'))} are disrupted",
        f"at most {100 * share:.0f} % of the half width",
        f"up to {slewed.steepest():,.0f} ppm",
        f"names call {slewed.report.premises[2]}, and {slewed.broken()['drift']} answers fail `drift`. Yet all {len(slewed.trusted)} intervals contain",
        f"Call {nearest.call} comes nearest to missing it, with {micro(-slewed.miss(nearest))} to spare",
        f"goes by at most {steady.steepest():.0f} ppm",
    ]


def main():
    page = " ".join(PAGE.read_text().split())
    rows = [Recording(path.stem).table_row() for path in sorted(RECORDINGS.glob("*.trace"))]
    phrases = rows + jump_phrases() + lost_phrases() + other_phrases()
    missing = [phrase for phrase in phrases if " ".join(phrase.split()) not in page]
    print("\n".join(missing))
    sys.exit(1 if missing or len(rows) < 11 else 0)


if __name__ == "__main__":
    main()
