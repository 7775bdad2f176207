#!/usr/bin/env python3
"""plot.py TRACE REPORT > out.svg: a picture of a report over time.

Above, each interval as an upright line in the colour of its status, and the clock's own time as a dark line, both against true time,
which is the zero line. Where some clock row doesn't tell true time, they stand against the clock's own time. Below, the bound of each
record, a tick for each publication, and a strip with the records' statuses. Dashed lines are disruptions, new markers and starts of
the daemon. REPORT is what `clockbound replay` writes for TRACE."""
import argparse
import math
import sys
from xml.sax.saxutils import escape

from recording import Interval, Opening, Publication, Refusal, Unreadable, read_report, read_trace, require_same_run

WIDTH, HEIGHT, LEFT, RIGHT = 960, 600, 80, 940
UPPER, LOWER, STRIP = (64, 340), (376, 500), (514, 528)  # top and bottom of each part
LEAST_HEIGHT = 7  # of an interval, so that a narrow one is seen beside the clock's line
COLOURS = {"synchronized": "#3a9a52", "freerunning": "#d98200", "disrupted": "#8a5cc0", "unknown": "#9a9a9a"}
NAMES = {"synchronized": "synchronized", "freerunning": "free running", "disrupted": "disrupted", "unknown": "unknown"}
MISSED, EVENT = "#d01030", "#1f5fa8"
UNITS = [(10**9, "s"), (10**6, "ms"), (10**3, "µs"), (1, "ns")]


def with_unit(nanoseconds):
    """A round number of nanoseconds in its largest unit."""
    for size, unit in UNITS:
        if abs(nanoseconds) >= size:
            return f"{nanoseconds / size:g} {unit}"
    return "0"


def power_below(number):
    """The greatest power of ten that isn't above a number of 1 or more."""
    return 10 ** (len(str(number)) - 1)


class Scale:
    """Where a number of nanoseconds stands between two heights: evenly up to `least`, above it a step for each power of ten."""

    def __init__(self, least, greatest, span, both_sides):
        top, bottom = span
        self.least, self.both_sides = least, both_sides
        self.powers = max(1, math.ceil(math.log10(max(greatest, least) / least)))
        self.zero = (top + bottom) / 2 if both_sides else bottom
        self.step = (self.zero - top) / (self.powers + 1)

    def __call__(self, value):
        size = abs(value) / self.least
        steps = size if size < 1 else 1 + math.log10(size)
        return self.zero - math.copysign(steps * self.step, value)

    def ticks(self):
        """Round numbers, no closer than 14 pixels."""
        stride = math.ceil(14 / self.step)
        powers = [self.least * 10**power for power in range(0, self.powers + 1, stride)]
        return [0] + powers + ([-power for power in powers] if self.both_sides else [])


class Picture:
    """The picture of one report, part by part."""

    def __init__(self, trace, report):
        self.trace, self.report, self.parts = trace, report, []
        self.start = trace.rows[0].mono
        self.length = max(trace.rows[-1].mono - self.start, 1000)
        self.answers, self.publications = report.of_kind(Interval), report.of_kind(Publication)
        self.told = all(row.truth is not None for row in trace.rows)

    def svg(self):
        """The whole picture."""
        self.write_title()
        scale = self.upper_scale()
        self.write_axis(scale, UPPER, "ahead of true time" if self.told else "from the clock's time")
        self.write_intervals(scale)
        self.write_clock(scale)
        bounds = [event.bound for event in self.publications if event.bound] or [1000]
        lower = Scale(power_below(min(bounds)), max(bounds), LOWER, False)
        self.write_axis(lower, LOWER, "bound of the record")
        self.write_records(lower)
        self.write_moments()
        self.write_time()
        self.write_legend()
        head = f'<svg xmlns="http://www.w3.org/2000/svg" viewBox="0 0 {WIDTH} {HEIGHT}" font-family="sans-serif" font-size="12" fill="#222">'
        return "\n".join([head, f'<rect width="{WIDTH}" height="{HEIGHT}" fill="#fff"/>', *self.parts, "</svg>", ""])

    # Small parts.

    def x(self, mono):
        """Where a monotonic time stands."""
        return round(LEFT + (mono - self.start) / self.length * (RIGHT - LEFT), 1)

    def row_x(self, number):
        return self.x(self.trace.row(number).mono)

    def text(self, x, y, words, more=""):
        self.parts.append(f'<text x="{x:.0f}" y="{y:.0f}"{more}>{escape(words)}</text>')

    def path(self, steps, colour, width, more=""):
        if steps:
            self.parts.append(f'<path d="{"".join(steps)}" fill="none" stroke="{colour}" stroke-width="{width}"{more}/>')

    def misses(self, answer):
        """Whether an interval that claims to contain true time is known to miss it."""
        truth = self.trace.row(answer.row).truth
        return answer.is_trusted and truth is not None and not answer.earliest <= truth <= answer.latest

    def ends(self, answer):
        """The ends of an interval, counted from the zero line."""
        row = self.trace.row(answer.row)
        zero = row.truth if self.told else row.real
        return answer.earliest - zero, answer.latest - zero

    def upper_scale(self):
        """A scale that is even up to a usual half width, and reaches the furthest end."""
        halves = sorted((answer.latest - answer.earliest) // 2 for answer in self.answers) or [1000]
        reach = max([abs(end) for answer in self.answers for end in self.ends(answer)] + [1000])
        return Scale(power_below(max(halves[len(halves) // 2], 10)), reach, UPPER, True)

    # The parts of the picture.

    def write_title(self):
        """How many publications and intervals, the last line, and how many intervals contain true time."""
        premises = ",".join(map(str, ["premises", *self.report.premises]))
        self.text(LEFT, 24, f"{len(self.publications)} publications, {len(self.answers)} intervals; {premises}", ' font-size="15"')
        trusted = sum(answer.is_trusted for answer in self.answers)
        if self.told:
            held = trusted - sum(map(self.misses, self.answers))
            self.text(LEFT, 46, f"{held} of the {trusted} intervals that are synchronized or free running contain true time.")
        else:
            self.text(LEFT, 46, "Not every clock row tells true time: the intervals stand around the clock's own time.")

    def write_axis(self, scale, span, words):
        """A frame with a line and a label for each round number."""
        top, bottom = span
        self.parts.append(f'<rect x="{LEFT}" y="{top}" width="{RIGHT - LEFT}" height="{bottom - top}" fill="none" stroke="#999"/>')
        for tick in scale.ticks():
            y = scale(tick)
            self.path([f"M{LEFT} {y:.1f}H{RIGHT}"], "#e2e2e2" if tick else "#555", 1)
            self.text(LEFT - 6, y + 4, with_unit(tick), ' text-anchor="end" font-size="11"')
        turned = f"translate(16 {(top + bottom) / 2:.0f}) rotate(-90)"
        self.parts.append(f'<text transform="{turned}" text-anchor="middle">{escape(words)}</text>')

    def write_intervals(self, scale):
        """Each interval as an upright line; those that miss true time come last, on top of the others."""
        strokes = {}
        for answer in self.answers:
            low, high = map(scale, self.ends(answer))
            thin = max(0, LEAST_HEIGHT - (low - high)) / 2
            colour = MISSED if self.misses(answer) else COLOURS[answer.status]
            strokes.setdefault(colour, []).append(f"M{self.row_x(answer.row)} {high - thin:.1f}V{low + thin:.1f}")
        for colour, steps in sorted(strokes.items(), key=lambda stroke: stroke[0] == MISSED):
            self.path(steps, colour, 1.2, "" if colour == MISSED else ' stroke-opacity="0.6"')

    def write_clock(self, scale):
        """The clock's own time; a point that falls on the one before it is left out."""
        points = []
        for row in self.trace.rows:
            point = f"{self.x(row.mono)} {scale(row.offset if self.told else 0):.1f}"
            if not points or points[-1] != point:
                points.append(point)
        self.path(["M" + "L".join(points)], "#111", 1.2)

    def write_records(self, scale):
        """For each publication a tick, its bound, and its status until the next one."""
        bounds, ticks, spans = [], [], []
        ends = [self.row_x(event.replied) for event in self.publications[1:]] + [RIGHT]
        for event, end in zip(self.publications, ends):
            begin, y = self.row_x(event.replied), scale(event.bound)
            bounds.append(f"{'V' if bounds else f'M{begin} '}{y:.1f}H{end}")
            ticks.append(f"M{begin} {LOWER[1]}v5")
            if spans and spans[-1][0] == event.status:
                spans[-1][2] = end
            else:
                spans.append([event.status, begin, end])
        self.path(bounds, "#333", 1.2)
        self.path(ticks, "#333", 0.6)
        for status, begin, end in spans:
            self.parts.append(f'<rect x="{begin}" y="{STRIP[0]}" width="{end - begin:.1f}" height="{STRIP[1] - STRIP[0]}" fill="{COLOURS[status]}"/>')
        self.text(LEFT - 6, STRIP[1] - 3, "status", ' text-anchor="end" font-size="11"')

    def moments(self):
        """Time and words of each disruption, new marker and start after the first; neighbours at one time are told together."""
        found = [(self.mono_at(place), "disruption") for place in self.trace.disrupts]
        found += [(self.mono_at(page.place), f"marker {page.marker}") for page in self.trace.changes]
        polls = {event.poll: event for event in self.publications}
        found += [(self.trace.row(polls[event.poll].asked).mono, f"daemon starts: {event.kind}")
                  for event in self.report.of_kind(Opening)[1:] if event.poll in polls]
        moments = {}
        for mono, words in sorted(found, key=lambda moment: moment[0]):
            moments.setdefault(mono, []).append(words)
        return moments

    def mono_at(self, place):
        """The time of the last clock row at or before a place among the host's rows."""
        return max((row for row in self.trace.rows if row.place <= place), key=lambda row: row.place, default=self.trace.rows[0]).mono

    def write_moments(self):
        """A dashed line for each moment, with its words where there is room."""
        free = 0  # where the words before end
        for mono, words in self.moments().items():
            x, said = self.x(mono), ", ".join(words)
            self.path([f"M{x} {UPPER[0]}V{STRIP[1]}"], EVENT, 1, ' stroke-dasharray="4 3"')
            if x > free:
                self.text(x + 3, UPPER[0] - 3, said, f' fill="{EVENT}" font-size="11"')
                free = x + 6 * len(said)

    def write_time(self):
        """The axis of time, in seconds since the first clock row."""
        size = power_below(self.length)
        step = next(size // part for part in (10, 5, 2, 1) if self.length * part // size <= 12)
        for moment in range(0, self.length + 1, step):
            x = self.x(self.start + moment)
            self.path([f"M{x} {STRIP[1]}v5"], "#333", 1)
            self.text(x, STRIP[1] + 18, with_unit(moment), ' text-anchor="middle" font-size="11"')
        self.text((LEFT + RIGHT) / 2, STRIP[1] + 34, "since the first clock row", ' text-anchor="middle"')

    def write_legend(self):
        """The colours that occur, and how many answers had no interval."""
        seen = {answer.status for answer in self.answers} | {event.status for event in self.publications}
        entries = [(colour, NAMES[status]) for status, colour in COLOURS.items() if status in seen]
        entries += [(MISSED, "misses true time")] * any(map(self.misses, self.answers))
        entries += [("#111", "the clock's own time")]
        refused = len(self.report.of_kind(Refusal))
        x = LEFT
        for colour, words in entries:
            self.parts.append(f'<rect x="{x}" y="{HEIGHT - 21}" width="14" height="10" fill="{colour}"/>')
            self.text(x + 19, HEIGHT - 12, words)
            x += 40 + 7 * len(words)
        if refused:
            self.text(x, HEIGHT - 12, f"{refused} answers had no interval")


def main():
    """The command."""
    parser = argparse.ArgumentParser(description=__doc__.split("\n\n")[0])
    parser.add_argument("trace", help="what `clockbound replay` read")
    parser.add_argument("report", help="what it wrote")
    given = parser.parse_args()
    try:
        trace, report = read_trace(given.trace), read_report(given.report)
        require_same_run(trace, report)
        sys.stdout.write(Picture(trace, report).svg())
    except Unreadable as fault:
        print(f"plot.py: {fault}", file=sys.stderr)
        sys.exit(2)


if __name__ == "__main__":
    main()
