"""A trace and its report, read for the tools beside this file. docs/formats.md has every record and line.

`read_trace` expects what `clockbound replay` accepts and looks for few faults; `read_report` expects what it writes."""
import csv
import math
import struct
from dataclasses import dataclass, field
from fractions import Fraction

GREATEST_BOUND = 2**62
PERIODS = {2: 32_767, 3: 2_147_483_647}  # publications until a layout's generations come again


class Unreadable(Exception):
    """Why a file can't be used, in one line."""


@dataclass(frozen=True)
class ClockRow:
    """A reading of the clock, the number-th; `place` is its place among all rows of the host."""

    number: int
    place: int
    mono: int
    real: int
    truth: int | None

    @property
    def offset(self):
        """How far the clock is ahead of true time, where that is known."""
        return None if self.truth is None else self.real - self.truth


@dataclass(frozen=True)
class Page:
    """A page that the host stored; the start page has number 0 and place 0."""

    number: int
    place: int
    marker: int


@dataclass(frozen=True)
class Reply:
    """A readable tracking reply. Correction, dispersion and delay are nanoseconds, exact."""

    leap: int
    reference: tuple
    correction: Fraction
    dispersion: Fraction
    delay: Fraction

    @property
    def bound(self):
        """The clock error bound: summed exactly, rounded up once."""
        return math.ceil(abs(self.correction) + max(0, self.dispersion) + max(0, self.delay) / 2)

    @property
    def is_good(self):
        return self.leap != 3 and self.bound <= GREATEST_BOUND


@dataclass(frozen=True)
class Poll:
    """A poll of the trace: its reply (None where it isn't readable), why it isn't good, and after how many stores it stops."""

    number: int
    reply: Reply | None
    fault: str
    stop: int | None


@dataclass(frozen=True)
class Image:
    """The segment at the start: its generation, and whether a whole record stood there with these fields."""

    generation: int
    marker: int
    bound: int
    as_of: int
    status: str
    support: bool


@dataclass
class Trace:
    drift: int = 50_000
    layout: int = 2
    tries: int = 10
    image: Image | None = None
    rows: list = field(default_factory=list)
    pages: list = field(default_factory=list)
    disrupts: list = field(default_factory=list)  # their places
    polls: list = field(default_factory=list)
    calls: dict = field(default_factory=dict)  # client: tries of each call
    places: int = 0

    def row(self, number):
        """The clock row of this number."""
        if not 1 <= number <= len(self.rows):
            raise Unreadable(f"the report isn't of this trace: it names clock row {number}, and the trace has {len(self.rows)}")
        return self.rows[number - 1]

    def poll(self, number):
        """The poll of this number."""
        if not 1 <= number <= len(self.polls):
            raise Unreadable(f"the report isn't of this trace: it names poll {number}, and the trace has {len(self.polls)}")
        return self.polls[number - 1]

    @property
    def changes(self):
        """The pages with another marker than the page before."""
        return [page for before, page in zip(self.pages, self.pages[1:]) if page.marker != before.marker]

    def next_place(self):
        self.places += 1
        return self.places


def packed(word):
    """chrony's packed number in nanoseconds: 7 bits of exponent, 25 of coefficient, both signed."""
    exponent, coefficient = word >> 25, word & 0x1FFFFFF
    exponent -= (exponent >> 6) << 7
    coefficient -= (coefficient >> 24) << 25
    return coefficient * Fraction(2) ** (exponent - 25) * 10**9


def poll_of(number, digits, stop):
    """A poll by the digits of its reply."""
    data = bytes.fromhex(digits)
    if not data:
        return Poll(number, None, "no reply came", stop)
    if len(data) < 104:
        return Poll(number, None, "its reply is too short", stop)
    version, kind, command, answer, status = struct.unpack_from(">BB2xHHH", data)
    if (version, kind, command, answer) != (6, 2, 33, 5):
        return Poll(number, None, "its reply isn't a tracking reply of version 6", stop)
    leap, high, low, nanoseconds, correction = struct.unpack_from(">HIIII", data, 54)
    delay, dispersion = struct.unpack_from(">II", data, 92)
    if status != 0 or leap > 3:
        return Poll(number, None, f"its reply has the status {status} and the leap code {leap}", stop)
    reply = Reply(leap, (high, low, nanoseconds), packed(correction), packed(dispersion), packed(delay))
    fault = "" if reply.is_good else "chronyd says that it isn't synchronised" if leap == 3 else "its bound is above 2^62 ns"
    return Poll(number, reply, fault, stop)


def image_of(digits, layout):
    """The segment of an `image` line."""
    words = struct.unpack("<10Q", bytes.fromhex(digits))
    wide = layout == 3 and words[1] & 0xFFFFFFFF == 196_688
    status = ["unknown", "synchronized", "freerunning", "disrupted"][words[8] >> 32 & 3]
    return Image(words[1] >> (32 if wide else 48), words[7], words[6], words[2] * 10**9 + words[3], status, words[9] == 1)


def add_record(trace, fields):
    """Puts one record of the text into the trace; lines of the schedule say nothing here."""
    kind, rest = fields[0], fields[1:]
    if kind == "set" and rest[0] in ("drift", "layout", "tries"):
        setattr(trace, rest[0], int(rest[1]))
    elif kind == "image":
        trace.image = image_of(rest[0], trace.layout)
    elif kind == "clock":
        numbers = [int(text) for text in rest] + [None]
        trace.rows.append(ClockRow(len(trace.rows) + 1, trace.next_place(), *numbers[:3]))
    elif kind == "page":
        marker = int.from_bytes(bytes.fromhex(rest[0])[16:24], "little")
        trace.pages.append(Page(len(trace.pages), trace.next_place() if trace.rows else 0, marker))
    elif kind == "mark":
        trace.pages.append(Page(len(trace.pages), trace.next_place(), int(rest[0])))
    elif kind == "disrupt":
        trace.disrupts.append(trace.next_place())
    elif kind == "poll":
        trace.polls.append(poll_of(len(trace.polls) + 1, rest[0], int(rest[1]) if rest[1:] else None))
    elif kind == "call":
        trace.calls.setdefault(int(rest[0]), []).append(int(rest[1]) if rest[1:] else trace.tries)
    elif kind not in ("clockbound-trace", "run", "do"):
        raise ValueError(f"{kind} is no kind of record")


def records_of(path, header):
    """The csv records of a file, the first of which has to be this header."""
    try:
        with open(path, newline="", encoding="utf-8-sig") as text:
            records = [fields for fields in csv.reader(text) if fields]
    except (OSError, UnicodeDecodeError, csv.Error) as fault:
        raise Unreadable(f"{path}: {fault}") from None
    if not records or records[0] != [header, "1"]:
        raise Unreadable(f"{path}: its first line isn't {header},1")
    return records


def read_trace(path):
    """The trace in a file."""
    trace = Trace()
    for number, fields in enumerate(records_of(path, "clockbound-trace"), 1):
        try:
            add_record(trace, fields)
        except (ValueError, IndexError, TypeError, struct.error) as fault:
            raise Unreadable(f"{path}: line {number}: {fault}") from None
    if not trace.rows:
        raise Unreadable(f"{path}: it has no clock row")
    return trace


@dataclass(frozen=True)
class Opening:
    poll: int
    kind: str
    generation: int


@dataclass(frozen=True)
class Moved:
    poll: int
    position: int
    generation: int


@dataclass(frozen=True)
class Publication:
    position: int
    poll: int
    generation: int
    asked: int
    page: int
    replied: int
    status: str
    as_of: int
    bound: int
    marker: int
    base: int


@dataclass(frozen=True)
class Skip:
    poll: int
    first: int
    last: int


@dataclass(frozen=True)
class Stop:
    poll: int
    stores: int


@dataclass(frozen=True)
class Interval:
    """An answer with an interval."""

    client: int
    call: int
    generation: int
    row: int
    page: int
    status: str
    earliest: int
    latest: int

    @property
    def is_trusted(self):
        return self.status in ("synchronized", "freerunning")


@dataclass(frozen=True)
class Refusal:
    """An answer without an interval: busy, notinit, pagebusy or causality, and its numbers."""

    client: int
    call: int
    why: str
    numbers: tuple


@dataclass
class Report:
    """The events of a report in their order, the numbers of its `total` line, and the fields of its last line."""

    events: list = field(default_factory=list)
    totals: list = field(default_factory=list)
    premises: list = field(default_factory=list)

    def of_kind(self, kind):
        return [event for event in self.events if isinstance(event, kind)]


REFUSALS = {"busy": 6, "notinit": 3, "pagebusy": 5, "causality": 5}  # how many fields such an answer has after `ans`
EVENTS = {"open": Opening, "moved": Moved, "pub": Publication, "skip": Skip, "stop": Stop}


def number_or_word(text):
    return int(text) if text.lstrip("-").isdigit() else text


def event_of(fields):
    """The event of a report's line."""
    kind, rest = fields[0], [number_or_word(text) for text in fields[1:]]
    if kind != "ans":
        return EVENTS[kind](*rest)
    if rest[2] == "time":
        return Interval(rest[0], rest[1], *rest[3:9])  # what --civil adds is left out
    if len(rest) != REFUSALS[rest[2]]:
        raise ValueError
    return Refusal(rest[0], rest[1], rest[2], tuple(rest[3:]))


def read_report(path):
    """The report in a file."""
    report = Report()
    for number, fields in enumerate(records_of(path, "clockbound-report")[1:], 2):
        try:
            if fields[0] == "total":
                report.totals = [int(text) for text in fields[1:]]
            elif fields[0] == "premises":
                report.premises = [number_or_word(text) for text in fields[1:]]
            else:
                report.events.append(event_of(fields))
        except (ValueError, KeyError, IndexError, TypeError):
            raise Unreadable(f"{path}: line {number} is no line of a report") from None
    if not report.premises:
        raise Unreadable(f"{path}: the report has no last line, premises (a report of threads has none)")
    return report


def require_same_run(trace, report):
    """Refuses a report that names what this trace doesn't have."""
    for event in report.events:
        if isinstance(event, Interval) and event.earliest + event.latest != 2 * trace.row(event.row).real:
            raise Unreadable(f"the report isn't of this trace: call {event.call} of client {event.client} has another time than row {event.row}")
        if isinstance(event, Publication):
            reply = trace.poll(event.poll).reply
            times = trace.row(event.asked).mono, trace.row(event.replied).mono
            if event.base == event.poll and not (reply and reply.is_good and (reply.bound, times[0]) == (event.bound, event.as_of)):
                raise Unreadable(f"the report isn't of this trace: poll {event.poll} has another as-of or bound there")
        if isinstance(event, (Interval, Publication)) and event.page >= max(1, len(trace.pages)):
            raise Unreadable(f"the report isn't of this trace: it names page {event.page}, and the trace has {len(trace.pages)}")
        if isinstance(event, (Interval, Refusal)) and event.call > len(trace.calls.get(event.client, [])):
            raise Unreadable(f"the report isn't of this trace: there is no call {event.call} of client {event.client}")
