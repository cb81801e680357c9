"""The shortest script, as far as it is found in a minute, on which two programs still differ."""
import re, time

import rehearsals as r

MOST_SECONDS = 60
LIMIT = 4_000_000_000
TIMED = re.compile(rb'([QWCUDPOHMFT]) (\d{1,10})(.*)', re.S)


def time_of(line):
    timed = TIMED.fullmatch(line)
    return int(timed[2]) if timed and int(timed[2]) <= LIMIT else None


def moved(line, by):
    """The same line, so much earlier."""
    timed = TIMED.fullmatch(line)
    if time_of(line) is None or time_of(line) < by:
        return line
    return b'%s %d%s' % (timed[1], int(timed[2]) - by, timed[3])


def without_time(lines, start, end):
    """The script with no time passing before each of those lines; later lines come so much earlier."""
    passed, gap, closed = max((time_of(line) or 0 for line in lines[:start]), default=0), 0, []
    for at, line in enumerate(lines):
        if start <= at < end:
            gap = max(gap, (time_of(line) or 0) - passed)
        closed.append(moved(line, gap))
    return closed


class Shrinking:
    """A script that shows a difference, and the tries to make it shorter."""

    def __init__(self, second, program, script):
        self.second, self.program = second, program
        self.until = time.monotonic() + MOST_SECONDS
        self.lines, self.found = r.lines_of(script), None
        self.try_with(self.lines)

    def try_with(self, lines):
        """Takes these lines, up to the first that differs, if one does."""
        found = r.difference(self.second, self.program, b''.join(lines))
        if found:
            self.found, self.lines = found, lines[:found.line + 1]
        return bool(found)

    def in_time(self):
        return time.monotonic() < self.until

    def stretches(self):
        """The first line and the length of stretches of the script, each half as long as those before."""
        length = len(self.lines)
        while length >= 1:
            self.at = 0
            while self.at < len(self.lines) and self.in_time():
                yield self.at, length
            length //= 2

    def drop_lines(self):
        """With the time that passes in them, if they cannot be dropped without it."""
        for at, length in self.stretches():
            fewer = self.lines[:at] + self.lines[at + length:]
            closed = without_time(fewer, at, at + 1)
            if not self.try_with(fewer) and not (closed != fewer and self.try_with(closed)):
                self.at += length

    def close_gaps(self):
        """So that fewer waits fall due."""
        for at, length in self.stretches():
            closed = without_time(self.lines, at, at + length)
            if closed != self.lines:
                self.try_with(closed)
            self.at += length


def shortest(second, program, script):
    """The lines, and the difference that the last of them shows; None where the second try shows no difference."""
    shrinking = Shrinking(second, program, script)
    shrinking.try_with(without_time(shrinking.lines, 0, len(shrinking.lines)))
    before = None
    while shrinking.found and before != shrinking.lines and shrinking.in_time():
        before = shrinking.lines
        shrinking.drop_lines()
        shrinking.close_gaps()
    return shrinking.lines, shrinking.found
