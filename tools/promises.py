"""Which promise behind an answer is broken, worked out from a trace and its report by the rules of docs/formats.md, "The last line".

A report names only the first answer whose promises weren't kept; this judges each. The report doesn't tell between which rows of
the host a poll loaded the marker, only the rows that it read before and after; `UNCLEAR` says that the two ends of this span differ."""
from dataclasses import dataclass

from recording import PERIODS, Moved, Opening, Publication

UNCLEAR = ("unclear", 0)


@dataclass(frozen=True)
class Claim:
    """What an answer with an interval rests on: the publication that it read, and that of its base poll. Each is None where the
    image's record stands for it."""

    read: Publication | None
    base: Publication | None
    opened: Opening | None  # the last opening before the record was published, or before the answer where the image was read


def claim_of(events, answer):
    """The claim of an answer, by the events before it."""
    before = events[: events.index(answer)]
    read = opened = None
    for event in before:
        if isinstance(event, Publication) and event.generation == answer.generation:
            read = event
        elif isinstance(event, Moved) and event.generation == answer.generation:
            read = None
    life = before[: before.index(read)] if read else before
    for event in life:
        if isinstance(event, Opening):
            opened = event
    polls = {event.poll: event for event in before if isinstance(event, Publication)}
    return Claim(read, polls.get(read.base) if read else None, opened)


def marker_load_span(trace, publication):
    """The least and the greatest place of the host's rows that a poll's marker load can have come after."""
    least = trace.row(publication.asked).place
    greatest = trace.rows[publication.replied].place - 1 if publication.replied < len(trace.rows) else trace.places
    if trace.pages:
        least = max(least, trace.pages[publication.page].place)
        if publication.page + 1 < len(trace.pages):
            greatest = min(greatest, trace.pages[publication.page + 1].place - 1)
    return least, max(least, greatest)


def drifted(trace, row, marked_at):
    """Whether the offset changed by more than the drift since the row before this one, without a disruption as excuse."""
    before, row = trace.rows[row - 2], trace.rows[row - 1]
    if abs(row.offset - before.offset) * 10**9 <= (row.mono - before.mono) * trace.drift:
        return False
    return not any(before.place < place < row.place and place > marked_at for place in trace.disrupts)


def unheard_disruption(trace, marked_at, row, page):
    """The place of the first disruption after the base poll's marker load and before this clock row that no new marker told."""
    for place in trace.disrupts:
        if marked_at < place < row.place and not any(place < change.place for change in trace.changes if change.number <= page):
            return place
    return None


def repeated(trace, page):
    """The place of the first page, up to this number, that changed the marker to one of an earlier page."""
    for change in trace.changes:
        if change.number <= page and change.marker in [earlier.marker for earlier in trace.pages[: change.number]]:
            return change.place
    return None


def broken_at(trace, claim, answer, marked_at):
    """The first broken promise with the place that the report would name, or None; with the base poll's marker load after `marked_at`."""
    rows = trace.rows[claim.base.replied - 1 : answer.row]
    for row in rows:
        if row.truth is None:
            return "untold", row.number
    if abs(rows[0].offset) > claim.base.bound:
        return "bound", rows[0].number
    for row in rows[1:]:
        if drifted(trace, row.number, marked_at):
            return "drift", row.number
    place = unheard_disruption(trace, marked_at, trace.row(answer.row), answer.page)
    if place is not None:
        return "mark", place
    place = repeated(trace, answer.page)
    return None if place is None else ("repeat", place)


def broken_by_rows(trace, claim, answer):
    """The first broken promise but `wrap`, by the trace's rows; None where all were kept, UNCLEAR where it depends on the turns."""
    if claim.base is None:
        return "image", 0
    ends = [broken_at(trace, claim, answer, place) for place in marker_load_span(trace, claim.base)]
    return ends[0] if ends[0] == ends[1] else UNCLEAR


def broken_promise(trace, report, claim, answer):
    """The first broken promise of a trusted answer and its place; None where all were kept, UNCLEAR where the report leaves it open."""
    if report.premises == ["held"]:
        return None
    _, client, call, why, at = report.premises
    named = next(event for event in report.events if (getattr(event, "client", 0), getattr(event, "call", 0)) == (client, call))
    if answer == named:
        return why, at
    if report.events.index(answer) < report.events.index(named):
        return None
    if len(report.of_kind(Publication)) >= PERIODS[trace.layout]:
        return UNCLEAR  # a whole period may have fallen into the read
    return broken_by_rows(trace, claim, answer)
