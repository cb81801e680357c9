"""A script played: each line with its reply and with what the station's record then holds, told by the library itself."""
import collections, subprocess

from plainly import NotUnderstood
from running import MOST_SECONDS, PROGRAM, lines_of, ran, shown
from words import RUN, Words, built

NONE = '-'

# `words` are those of the line, of the reply's first line, and of each action.
Step = collections.namedtuple('Step', 'line event does charged reply clock slots queue words')
Event = collections.namedtuple('Event', 'letter time slot who label')
Does = collections.namedtuple('Does', 'slot label')
Charge = collections.namedtuple('Charge', 'slot start stop')
Slot = collections.namedtuple('Slot', 'channel phase due answered lost ship number words')
Waiting = collections.namedtuple('Waiting', 'due ship')


class NotPlayed(NotUnderstood):
    """Why there is no picture."""


def number(word):
    return None if word == NONE else int(word)


def told(rows, head):
    return [row[len(head) + 1:] for row in rows if row.startswith(head + ' ')]


def slot_of(row):
    words = row.split(' ', 16)
    return Slot(*map(number, words[2:13:2]), words[14], words[16])


def waiting_of(row):
    words = row.split()
    return Waiting(number(words[1]), number(words[3]))


def held(rows):
    """The slots and the queue of the record."""
    return [slot_of(row) for row in told(rows, 'slot')], [waiting_of(row) for row in told(rows, 'waiting')]


def next_due(reply, slots, queue):
    """Whose wait falls due next, behind the words of a reply's first line; of several that are due together, all."""
    due = number(reply.split()[3])
    names = [f'slot {place}, {slot.words}' for place, slot in enumerate(slots) if slot.due == due]
    names += [f'slot {place}, no carrier' for place, slot in enumerate(slots) if slot.lost == due]
    names += [f'ship {waiting.ship} in the queue' for waiting in queue if waiting.due == due]
    return f' ({"; ".join(names)})' if due is not None else ''


def step_of(line, rows, words):
    letter, time, slot, who, label = told(rows, 'event')[0].split(' ', 4)
    clock, reply = told(rows, 'clock'), told(rows, '=')
    slots, queue = held(rows)
    in_words = [words.of(text) for text in [b'> ' + line, *reply]]
    in_words[1] += next_due(reply[0], slots, queue)
    return Step(
        shown(line), Event(letter, number(time), number(slot), number(who), label),
        [Does(number(word), text) for word, text in (row.split(' ', 1) for row in told(rows, 'does'))],
        [Charge(*map(int, row.split())) for row in told(rows, 'charged')],
        reply, int(clock[0]) if clock else 0, slots, queue, in_words)


def record_of(script):
    """What record.c tells of each line."""
    done = subprocess.run([RUN, 'run', built('record')], input=script, capture_output=True)
    *groups, rest = done.stdout.decode('ascii').split('\n\n')
    if done.returncode != 0:
        raise NotPlayed(f'tools/classroom/record.c ended with status {done.returncode}: {" ".join(rest.splitlines()[-1:])}')
    return [group.split('\n') for group in groups]


class Record:
    """The same line by line: record.c as a program beside one's own."""

    def __init__(self):
        self.program = subprocess.Popen([RUN, 'run', built('record')], stdin=subprocess.PIPE, stdout=subprocess.PIPE)

    def __enter__(self):
        return self

    def __exit__(self, *_):
        self.program.communicate()

    def next_due(self, line):
        """Whose wait falls due next after this line."""
        self.program.stdin.write(line.rstrip(b'\n') + b'\n')
        self.program.stdin.flush()
        rows = ['']
        while rows[-1] != '\n':
            rows.append(self.program.stdout.readline().decode('ascii'))
            if not rows[-1]:
                raise NotPlayed(f'tools/classroom/record.c has ended: {rows[-2].strip()}')
        rows = [row.strip() for row in rows]
        return next_due(told(rows, '=')[0], *held(rows))


def check_same(steps, script):
    """The library's replies must be what the script program prints: then the picture is of the run that the class sees."""
    played = ran(PROGRAM, script, MOST_SECONDS)
    if played.ending:
        raise NotPlayed(f'tools/rehearse did not play the script: {played.ending}')
    wanted, printed = [row for step in steps for row in step.reply], played.output.decode('latin-1').splitlines()
    for place, (row, other) in enumerate(zip(wanted + [None], printed + [None])):
        if row != other:
            raise NotPlayed(f'line {place + 1} of the output is {other!r} by tools/rehearse and {row!r} by the library: '
                            'build both anew, and draw with the proved program')


def play(script):
    """The steps of a script, one for each of its lines."""
    lines = [line.rstrip(b'\n') for line in lines_of(script)]
    if not lines:
        raise NotPlayed('the script has no line')
    with Words() as words:
        steps = [step_of(line, rows, words) for line, rows in zip(lines, record_of(script))]
    check_same(steps, script)
    return steps
