#!/usr/bin/env python3
"""explain.py TRACE REPORT CLIENT CALL: why call CALL of client CLIENT was answered so, in sentences: the publication that the answer
rests on, the poll that gave its as-of and bound, the page and its marker, and which promise behind it was broken, and where.

REPORT is what `clockbound replay` writes for TRACE. Where the trace tells true time, it says too whether the interval contains it."""
import argparse
import datetime
import sys

from promises import UNCLEAR, broken_promise, claim_of
from recording import Interval, Moved, Opening, Publication, Refusal, Stop, Unreadable, read_report, read_trace, require_same_run


def civil(nanoseconds):
    """An instant as date and time of UTC."""
    seconds, rest = divmod(nanoseconds, 10**9)
    moment = datetime.datetime(1970, 1, 1) + datetime.timedelta(seconds=seconds)
    return f"{moment:%Y-%m-%dT%H:%M:%S}.{rest:09}Z"


def ns(number):
    """A number of nanoseconds, as a person reads it."""
    return f"{number:,} ns"


def ahead(offset):
    """An offset in words."""
    side = "ahead of" if offset > 0 else "behind"
    return f"{ns(abs(offset))} {side} true time" if offset else "exactly at true time"


def polls_named(polls):
    """Poll numbers in words: `poll 7`, `polls 7 to 9`."""
    return f"poll {polls[0]}" if len(polls) == 1 else f"polls {polls[0]} to {polls[-1]}"


class Explainer:
    """The sentences on one answer of a report."""

    def __init__(self, trace, report, answer):
        self.trace, self.report, self.answer = trace, report, answer
        self.before = report.events[: report.events.index(answer)]
        self.who = f"Call {answer.call} of client {answer.client}"

    def sentences(self):
        """All sentences, one a line."""
        if isinstance(self.answer, Refusal):
            return [self.say_refusal()]
        self.claim = claim_of(self.report.events, self.answer)
        self.record = self.claim.read or self.image_record()
        said = [self.say_interval(), self.say_record(), self.say_status(), self.say_base(), self.say_page(), self.say_truth(), self.say_promises()]
        return [text for text in said if text]

    # Answers without an interval.

    def say_refusal(self):
        """Why there is no interval."""
        kinds = {"notinit": self.say_notinit, "causality": self.say_causality, "pagebusy": self.say_pagebusy, "busy": self.say_busy}
        return kinds[self.answer.why](*self.answer.numbers)

    def say_notinit(self):
        """Nothing was published."""
        return f"{self.who} got no interval: nothing had been published when it read the segment."

    def say_causality(self, as_of, mono):
        """The clock lies too far before the record."""
        return (f"{self.who} got no interval: the record that it read is as of {as_of}, and the clock row that it read has the monotonic time "
                f"{mono}, {ns(as_of - mono)} before. More than 1,000 ns are no matter of rounding: clock and record don't belong together.")

    def say_pagebusy(self, first, last):
        """All tries of the page failed."""
        tries = self.trace.calls[self.answer.client][self.answer.call - 1]
        return f"{self.who} got no interval: {self.failed(tries, 'page', 'sequence count', first, last)}"

    def say_busy(self, tries, first, last):
        """All tries of the segment failed."""
        text = f"{self.who} got no interval: {self.failed(tries, 'segment', 'generation', first, last)}"
        return f"{text} {self.open_update()}" if first % 2 else text

    def failed(self, tries, what, count, first, last):
        """How the tries of a read failed, by the two counts of the last one."""
        said = f"its only try to read the {what} failed: it" if tries == 1 else f"each of its {tries} tries to read the {what} failed. The last"
        if first % 2:
            return f"{said} met the odd {count} {first}, so that the {what} was being written."
        return f"{said} met the {count} {first} at first and {last} at the end, so that the {what} was written in between."

    def open_update(self):
        """Whose update was open at this answer, and what ended it."""
        later = [event for event in self.report.events[len(self.before) :] if isinstance(event, (Publication, Moved))]
        if not later:
            end = "nothing in this report ends it"
        elif isinstance(later[0], Moved):
            end = f"it ended as the opening before poll {later[0].poll} moved the record to layout 3"
        else:
            end = f"it ended with publication {later[0].position}, of poll {later[0].poll}"
        last = next((event for event in reversed(self.before) if isinstance(event, (Stop, Publication, Opening))), None)
        if isinstance(last, Stop) and 0 < last.stores < 10:
            return f"That update is the one of poll {last.poll}, in which the daemon stopped after {last.stores} of its ten stores; {end}."
        return f"{end.capitalize()}."

    # Answers with an interval.

    def image_record(self):
        """The record of the segment's image, as a publication of no poll."""
        image = self.trace.image
        if image is None:
            raise Unreadable(f"the report isn't of this trace: nothing was published under generation {self.answer.generation}")
        return Publication(0, 0, self.answer.generation, 1, 0, 1, image.status, image.as_of, image.bound, image.marker, 0)

    def say_interval(self):
        """The interval, its status, and the clock row in its middle."""
        answer, row = self.answer, self.trace.row(self.answer.row)
        return (f"{self.who} got the interval from {answer.earliest} to {answer.latest}, {answer.status}: {ns(answer.latest - row.real)} to each "
                f"side of the time {row.real} ({civil(row.real)}) of clock row {row.number}.")

    def say_record(self):
        """The record that the call read."""
        record = self.record
        origin = f"publication {record.position}, which poll {record.poll} made" if record.poll else "the record of the segment's image, which the call read"
        return f"It rests on {origin} under generation {record.generation}: status {record.status}, marker {record.marker}."

    def say_status(self):
        """Why the interval has its status."""
        record, status = self.record, self.answer.status
        age = max(0, self.trace.row(self.answer.row).mono - record.as_of)
        if status == "disrupted":
            return self.say_mark() if record.status == "disrupted" else self.say_other_marker()
        if status == "unknown" and record.status != "unknown":
            return f"It is unknown because {ns(age)} have passed since as-of: after 1,000 s a record says nothing any more."
        if status == "freerunning" and record.status == "synchronized":
            return f"It is free running because {ns(age)} have passed since as-of, 5 s or more, without a newer record."
        if not record.poll:
            return f"It is {status} because that record is."
        if status == "unknown":
            return f"It is unknown because no poll had given a bound. {self.reasons(self.life())}"
        if status == "freerunning":
            return f"It is free running because no reply since the base poll was good. {self.reasons(self.life(), record.base)}"
        return f"It is synchronized because the reply of poll {record.poll} was good, and {ns(age)} have passed since as-of, fewer than 5 s."

    def say_other_marker(self):
        """Disrupted, as page and record differ."""
        page, record = self.trace.pages[self.answer.page], self.record
        if page.marker == record.marker:
            return "It is disrupted because the record was made without looking at a page, and there is one."
        later = [event for event in self.report.events[len(self.before) :] if isinstance(event, Publication)]
        after = f" Poll {later[0].poll}, the next that published, was {later[0].status}." if later else " No poll published after this."
        return (f"It is disrupted because the page that the call read has another marker than the record, {page.marker} against {record.marker}: "
                f"the host has told of a disruption of the counter that the record doesn't know of.{after}")

    def life(self):
        """The publications from the opening before the record up to the record."""
        life = []
        for event in self.before:
            if isinstance(event, Opening):
                life = []
            elif isinstance(event, Publication):
                life.append(event)
            if event == self.record:
                break
        return life

    def reasons(self, publications, after=0, guard=None):
        """What the polls of these publications brought, those after this one; neighbours with one reason are told together."""
        groups = []
        for poll in (self.trace.poll(event.poll) for event in publications if event.poll > after):
            same = poll.reply and guard and poll.reply.reference == guard
            reason = poll.fault or ("the guard's reference time" if same else "a good reply")
            if groups and groups[-1][0] == reason:
                groups[-1][1].append(poll.number)
            else:
                groups.append((reason, [poll.number]))
        said = "; ".join(f"{polls_named(numbers)}: {reason}" for reason, numbers in groups)
        return f"{said[:1].upper()}{said[1:]}."

    def marking_poll(self):
        """The poll that marked last at or before the record, and what it met."""
        life, opened = self.life(), self.claim.opened
        for earlier, later in reversed(list(zip(life, life[1:]))):
            if earlier.marker != later.marker:
                return later.poll, f"it met marker {later.marker}, and poll {earlier.poll} before it marker {earlier.marker}"
        if opened.kind == "torn":
            return life[0].poll, f"the daemon had just started and found an update that was abandoned under generation {opened.generation}"
        return life[0].poll, "the daemon had just started and found a record that was disrupted, without a marker, or with another marker than the page"

    def say_mark(self):
        """Disrupted, as the record is: which poll marked, and what hasn't come since."""
        if not self.record.poll:
            return "It is disrupted because that record is."
        marking, why = self.marking_poll()
        since = [event for event in self.life() if event.poll >= marking]
        guard = next((event.poll for event in since if self.trace.poll(event.poll).reply), None)
        text = f"It is disrupted because the record is. Poll {marking} marked: {why}."
        if guard is None:
            return f"{text} No readable reply had come since. {self.say_absorbed()}"
        text += (f" The guard is the reference time of the reply of poll {guard}, and only a later good reply with another one ends the disruption. "
                 f"None had come by poll {self.record.poll}. ")
        return f"{text}{self.reasons(since, 0, self.trace.poll(guard).reply.reference)} {self.say_absorbed()}"

    def say_absorbed(self):
        """Which later poll ended the disruption."""
        for event in self.report.of_kind(Publication):
            if event.position > self.record.position and event.status != "disrupted":
                return f"Poll {event.poll} ended it, at publication {event.position}."
        return "Nothing in this report ended it."

    def say_base(self):
        """The poll that gave as-of and bound, and what the bound was made of."""
        read, answer, base = self.record, self.answer, self.claim.base
        if base is None:
            return None if answer.status == "unknown" else "No poll of the trace gave its as-of and its bound."
        reply = self.trace.poll(base.poll).reply
        text = "Its as-of and bound are those of " + ("this poll itself" if base.poll == read.poll else f"poll {base.poll}, publication {base.position}")
        row = self.trace.row(answer.row)
        growth = answer.latest - row.real - read.bound
        parts = [ns(round(part)) for part in (abs(reply.correction), max(0, reply.dispersion), max(0, reply.delay) / 2)]
        return (f"{text}: it asked at clock row {base.asked} and had its reply by row {base.replied}. The bound is {ns(read.bound)}: about {parts[0]} "
                f"of correction, {parts[1]} of root dispersion and {parts[2]} of half the root delay. In the {ns(max(0, row.mono - read.as_of))} "
                f"since as-of it grew by {ns(growth)}, at a drift of {self.trace.drift:,} ppb.")

    def say_page(self):
        """The page that the call read."""
        if not self.trace.pages:
            return None
        page = self.trace.pages[self.answer.page]
        same = "as the record has" if page.marker == self.record.marker else f"and the record has {self.record.marker}"
        stored = "which stood at the start" if page.number == 0 else f"row {page.place} of the host"
        return f"The call read page {page.number}, {stored}: marker {page.marker}, {same}."

    def say_truth(self):
        """Whether the interval contains true time."""
        row, answer = self.trace.row(self.answer.row), self.answer
        if row.truth is None:
            return f"Clock row {row.number} doesn't tell true time, so that nothing is known of what the interval contains."
        if answer.earliest <= row.truth <= answer.latest:
            return f"The interval contains true time: the clock was {ahead(row.offset)}."
        return f"The interval misses true time by {ns(abs(row.offset) - (answer.latest - row.real))}: the clock was {ahead(row.offset)}."

    def say_promises(self):
        """The first broken promise, if there is one."""
        if not self.answer.is_trusted:
            return f"An answer that is {self.answer.status} claims nothing, and its promises aren't judged."
        broken = broken_promise(self.trace, self.report, self.claim, self.answer)
        if broken is None:
            return "All seven promises behind it were kept."
        if broken == UNCLEAR:
            return "Whether its promises were kept isn't to be told from the report: it names another answer, and this one depends on the turns."
        named = self.report.premises[1:3] == [self.answer.client, self.answer.call]
        fate = "can't be said to be kept" if broken[0] == "untold" else "weren't kept"
        who = f"The report's last line names this answer, the first whose promises {fate}" if named else f"Its promises {fate}"
        return f"{who}: {broken[0]}, at {broken[1]}. {self.say_broken(*broken)}"

    # What a broken promise means.

    def say_broken(self, why, at):
        """What was found where the last line's AT points."""
        kinds = {"wrap": self.why_wrap, "image": self.why_image, "untold": self.why_untold, "bound": self.why_bound, "drift": self.why_drift,
                 "mark": self.why_mark, "repeat": self.why_repeat}
        return kinds[why](at)

    def why_wrap(self, inside):
        """A whole period of publications fell into the read."""
        return f"{inside:,} publications fell into the read, as many as generations there are, so that it may have words of several records."

    def why_image(self, _):
        """No poll of the trace is the base."""
        return "As-of and bound are those of the image, and no poll of the trace vouches for them."

    def why_untold(self, number):
        """A clock row tells no true time."""
        return f"Clock row {number} tells no true time, so that nothing can be said of the rows from the base poll's reply to this answer."

    def why_bound(self, number):
        """The clock was further off than the base poll's bound."""
        offset, bound = self.trace.row(number).offset, self.claim.base.bound
        return f"At clock row {number}, where the base poll had its reply, the clock was {ahead(offset)}, and the bound of that reply is {ns(bound)}."

    def why_drift(self, number):
        """The clock moved too far between two rows."""
        before, row = self.trace.row(number - 1), self.trace.row(number)
        passed, change = row.mono - before.mono, row.offset - before.offset
        return (f"From clock row {number - 1} to row {number}, in {ns(passed)}, the clock moved by {ns(abs(change))} against true time; a drift of "
                f"{self.trace.drift:,} ppb allows {ns(passed * self.trace.drift // 10**9)}.")

    def why_mark(self, place):
        """A disruption that no page told."""
        return f"Row {place} of the host disturbed the counter behind the clock, and no page with a new marker had told it when the call looked."

    def why_repeat(self, place):
        """A marker came again."""
        return f"Row {place} of the host changed the marker to one that an earlier page had, so that a reader can't tell the two apart."


def explained(trace_path, report_path, client, call):
    """The sentences on the answer to a client's call, one a line."""
    trace, report = read_trace(trace_path), read_report(report_path)
    require_same_run(trace, report)
    for event in report.events:
        if isinstance(event, (Interval, Refusal)) and (event.client, event.call) == (client, call):
            return "\n".join(Explainer(trace, report, event).sentences()) + "\n"
    raise Unreadable(f"the report has no answer to call {call} of client {client}")


def main():
    """The command."""
    parser = argparse.ArgumentParser(description=__doc__.split("\n\n")[0])
    parser.add_argument("trace", help="what `clockbound replay` read")
    parser.add_argument("report", help="what it wrote")
    parser.add_argument("client", type=int, help="the number after `ans` in the report")
    parser.add_argument("call", type=int, help="the number after that")
    given = parser.parse_args()
    try:
        sys.stdout.write(explained(given.trace, given.report, given.client, given.call))
    except Unreadable as fault:
        print(f"explain.py: {fault}", file=sys.stderr)
        sys.exit(2)


if __name__ == "__main__":
    main()
