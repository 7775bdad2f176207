#!/usr/bin/env python3
"""capture.py SECONDS > my.trace: asks the chronyd of this machine for so long how far the clock may be off, and writes a trace for
`clockbound replay`.

Each poll has a clock row before the request and one after the reply, with a call at the latter; further calls have rows of their own. The
lines of the schedule let the poll load the row before its request, and after the reply the row after it. chronyd is asked by its
command protocol and nothing is changed in it. Where it doesn't answer, the poll has no reply; where it answered no poll, the exit status is 1."""
import argparse
import bisect
import os
import secrets
import socket
import struct
import sys
import time

MONOTONIC = {"monotonic": time.CLOCK_MONOTONIC, "monotonic_raw": time.CLOCK_MONOTONIC_RAW, "boottime": time.CLOCK_BOOTTIME}
COARSE_MONOTONIC, COARSE_REALTIME = 6, 5  # of Linux; Python's time doesn't name them
STEERED = ("CLOCK_REALTIME", "CLOCK_TAI")  # what chronyd steers: CLOCK_TAI is CLOCK_REALTIME and a whole number of seconds
LONGEST_TRACE = 16_777_216  # bytes that clockbound reads
READING_TRIES = 9


class Refused(Exception):
    """Why nothing can be captured, in one line."""


class Clock:
    """The machine's clock: a reading is a monotonic and a real time of one instant."""

    def __init__(self, name):
        self.name, self.number = name, MONOTONIC[name]

    def mono(self):
        """The monotonic time alone."""
        return time.clock_gettime_ns(self.number)

    def read(self):
        """MONO and REAL of one instant."""
        if self.name == "monotonic":
            return self.read_by_difference()
        pairs = []
        for _ in range(READING_TRIES):
            before = self.mono()
            real = time.time_ns()
            pairs.append((self.mono() - before, before, real))
        return min(pairs)[1:]

    def read_by_difference(self):
        """CLOCK_MONOTONIC and CLOCK_REALTIME differ by a whole number that changes only when the clock is set. So one reading does for
        both, with the difference of the two coarse clocks, which stand still between ticks."""
        while True:
            before, mono, after = difference(), self.mono(), difference()
            if before == after:
                return mono, mono + after


def difference():
    """CLOCK_REALTIME less CLOCK_MONOTONIC."""
    while True:
        before = time.clock_gettime_ns(COARSE_MONOTONIC)
        real = time.clock_gettime_ns(COARSE_REALTIME)
        if time.clock_gettime_ns(COARSE_MONOTONIC) == before:
            return real - before


class TrustedClock:
    """A second clock that is trusted to have true time: a PTP device, or a clock of the machine by its name in Python's time, which is
    of use only where chronyd doesn't steer it."""

    def __init__(self, name, seconds, clock):
        self.clock, self.shift, self.samples = clock, round(seconds * 10**9), []
        try:
            if name.startswith("CLOCK_"):
                self.number = getattr(time, name)
            else:
                self.number = (~os.open(name, os.O_RDONLY) << 3) | 3  # how Linux names the clock of an open device
            time.clock_gettime_ns(self.number)
        except (AttributeError, OSError):
            raise Refused(f"{name} is no clock that can be read") from None

    def sample(self):
        """Reads it between two readings of the monotonic clock, and keeps the try in which these are nearest."""
        tries = []
        for _ in range(READING_TRIES):
            before = self.clock.mono()
            true = time.clock_gettime_ns(self.number)
            after = self.clock.mono()
            tries.append((after - before, (before + after) // 2, true + self.shift))
        self.samples.append(min(tries)[1:])

    def at(self, mono):
        """True time by the samples next to a monotonic time. Neighbouring rows are nearer than a reading is exact, so that a reading for
        each row would look like drift."""
        after = bisect.bisect_right(self.samples, mono, 1, len(self.samples) - 1, key=lambda sample: sample[0])
        (first, first_true), (second, second_true) = self.samples[after - 1 : after + 1]
        return first_true + (mono - first) * (second_true - first_true) // (second - first)


class Chronyd:
    """chronyd's command port or socket."""

    def __init__(self, given):
        self.wait, self.own = given.wait, None
        family = socket.AF_UNIX if given.socket else socket.AF_INET6 if ":" in given.host else socket.AF_INET
        self.socket = socket.socket(family, socket.SOCK_DGRAM)
        try:
            if given.socket:
                self.bind_beside(given.socket)
            self.socket.connect(given.socket or (given.host, given.port))
        except OSError as fault:
            self.close()
            raise Refused(f"{given.socket or given.host}: {fault.strerror or fault}") from None

    def bind_beside(self, path):
        """chronyd answers only to a socket that has a name and that it may write to."""
        own = os.path.join(os.path.dirname(path), f"capture.{os.getpid()}.sock")
        self.socket.bind(own)
        self.own = own
        os.chmod(own, 0o666)

    def ask(self):
        """The reply to a tracking request, empty where none comes in time."""
        sequence = secrets.randbits(32)
        request = struct.pack(">BBHHHI92x", 6, 1, 0, 33, 0, sequence)
        deadline = time.monotonic() + self.wait
        try:
            self.socket.send(request)
            while (left := deadline - time.monotonic()) > 0:
                self.socket.settimeout(left)
                reply = self.socket.recv(1024)
                if len(reply) >= 20 and int.from_bytes(reply[16:20], "big") == sequence:
                    return reply
        except OSError:  # nobody there, or too late
            pass
        return b""

    def close(self):
        """Leaves no socket behind."""
        self.socket.close()
        if self.own:
            os.unlink(self.own)


class Capture:
    """The lines of a trace; a clock row stands as its two numbers until true time is known."""

    def __init__(self, given):
        self.given, self.clock, self.lines, self.polls, self.replies = given, Clock(given.clock), [], 0, 0
        self.trusted = TrustedClock(given.truth, given.truth_offset, self.clock) if given.truth else None
        self.chronyd = Chronyd(given)

    def run(self):
        """Polls and calls until the time is up, or until it is interrupted."""
        given, begin = self.given, time.monotonic()
        try:
            for poll in range(round(given.seconds / given.every)):
                self.sample()
                self.poll(begin + poll * given.every)
                for call in range(1, given.calls):
                    sleep_until(begin + (poll + call / given.calls) * given.every)
                    self.row()
                    self.call()
        except KeyboardInterrupt:
            pass  # what was taken so far is a trace too
        finally:
            self.chronyd.close()
        self.sample()
        if not self.lines:
            raise Refused("nothing was taken")

    def sample(self):
        """Reads the trusted clock, if there is one."""
        if self.trusted:
            self.trusted.sample()

    def poll(self, moment):
        """A row, a request with its reply, a row, and a call at it."""
        sleep_until(moment)
        self.row()
        reply = self.chronyd.ask()
        self.replies += bool(reply)
        self.lines.append(f"poll,{reply.hex()}")
        self.lines.append("run,d,1" if self.polls else "run,d,5")  # its first clock load, at first after the four of the opening
        self.polls += 1
        self.row()
        self.lines.append("do,d,1")
        self.call()

    def row(self):
        """Reads the clock, and lets the host do this row."""
        first = not self.lines
        self.lines.append(self.clock.read())
        if not first:
            self.lines.append("do,h,1")

    def call(self):
        """A call, done at once."""
        self.lines += ["call,1", "do,c1,1"]

    def warnings(self):
        """What a reader of the trace has to know: that chronyd answered no poll, or that true time is by the clock that it steers."""
        if self.given.truth in STEERED:
            yield f"{self.given.truth} is the clock that chronyd steers: as true time it tells nothing, unless that chronyd runs with -x"
        if not self.replies:
            place = self.given.socket or f"{self.given.host}, UDP port {self.given.port}"
            yield f"no poll was answered ({place}): is a chronyd running there, and does its cmdport or bindcmdaddress allow this (or --socket)?"

    def text(self):
        """The whole trace."""
        lines = ["clockbound-trace,1"] + [f"set,drift,{self.given.drift}"] * (self.given.drift is not None)
        for line in self.lines:
            if isinstance(line, tuple):
                mono, real = line
                line = f"clock,{mono},{real}" + (f",{self.trusted.at(mono)}" if self.trusted else "")
            lines.append(line)
        return "\n".join(lines) + "\n"


def sleep_until(moment):
    """Waits for a moment of the monotonic clock; not at all where it has gone by."""
    time.sleep(max(0, moment - time.monotonic()))


def words():
    """The words of the command line, with their help."""
    parser = argparse.ArgumentParser(description=__doc__.split("\n\n")[0])
    parser.add_argument("seconds", type=float, help="how long to ask")
    parser.add_argument("--every", type=float, default=1, metavar="SECONDS", help="from one poll to the next (1)")
    parser.add_argument("--calls", type=int, default=3, help="calls for each poll (3)")
    parser.add_argument("--host", default="127.0.0.1", help="chronyd's address (127.0.0.1)")
    parser.add_argument("--port", type=int, default=323, help="its command port (323)")
    parser.add_argument("--socket", help="its socket, as /run/chrony/chronyd.sock; instead of host and port")
    parser.add_argument("--wait", type=float, default=0.5, metavar="SECONDS", help="for a reply (0.5)")
    parser.add_argument("--clock", choices=MONOTONIC, default="monotonic", help="the clock of MONO (monotonic)")
    parser.add_argument("--drift", type=int, metavar="PPB", help="the drift that the trace sets")
    parser.add_argument("--truth", metavar="CLOCK", help="a trusted second clock, as /dev/ptp0; CLOCK_REALTIME where chronyd runs with -x")
    parser.add_argument("--truth-offset", type=float, default=0, metavar="SECONDS", help="to add to the trusted clock (0)")
    return parser


def check(given):
    """Refuses what makes no trace that can be replayed."""
    if given.seconds <= 0 or given.every <= 0 or given.wait <= 0 or round(given.seconds / given.every) < 1:
        raise Refused("seconds have to be above 0, and enough for one poll")
    if not 1 <= given.calls <= 100:
        raise Refused("1 to 100 calls for each poll")
    if not 1 <= given.port <= 65_535:
        raise Refused("a port is 1 to 65,535")
    if given.drift is not None and not 0 <= given.drift <= 10**9:
        raise Refused("a drift is 0 to 1,000,000,000 ppb")
    if given.seconds / given.every * (400 + 110 * given.calls) > LONGEST_TRACE:
        raise Refused(f"so many polls and calls may take more than {LONGEST_TRACE:,} bytes, and clockbound reads no more")


def main():
    """The command."""
    given = words().parse_args()
    try:
        check(given)
        capture = Capture(given)
        capture.run()
        for warning in capture.warnings():
            print(f"capture.py: {warning}", file=sys.stderr)
        sys.stdout.write(capture.text())
        sys.exit(0 if capture.replies else 1)
    except Refused as fault:
        print(f"capture.py: {fault}", file=sys.stderr)
        sys.exit(2)


if __name__ == "__main__":
    main()
