"""A student's program on a lesson: whether it prints the lesson's output, and the first difference in plain words."""
import collections, os, re

import lessons, plainly, running
from running import NOTHING_MORE, shown

SECONDS = 5   # for one script
INDENT = '      '


class Mark(collections.namedtuple('Mark', 'lesson script ran difference')):
    """What came of one script; the difference is None where the output is right."""

    @property
    def passed(self):
        return self.difference is None and self.ran.ending is None

    @property
    def line(self):
        """The line of the script where the outputs part, without its line feed."""
        return running.lines_of(self.script.text)[self.difference.line].rstrip(b'\n')

    @property
    def answer(self):
        """The first line of the reply that should be printed there."""
        return running.answers_of(self.script.wanted)[self.difference.line][0]

    @property
    def printed(self):
        """What it prints there: one line."""
        return self.difference.got.split(b'\n')[0]


def seconds():
    """How long a program may take for a script."""
    given = os.environ.get('MARK_SECONDS') or str(SECONDS)
    if not re.fullmatch(r'\d+(\.\d+)?', given, re.ASCII):
        raise plainly.NotUnderstood(f'MARK_SECONDS is no number of seconds: {given}')
    return float(given)


def mark(program, lesson, script, complaints=None):
    ran = running.ran(running.located(program), script.text, seconds(), complaints)
    if ran.output + b'\n' == script.wanted:
        ran = ran._replace(output=script.wanted, ending=ran.ending or 'its last line has no line feed')
    same = ran.output == script.wanted
    return Mark(lesson, script, ran, None if same else running.first_difference(script.wanted, ran.output))


def fault(lesson):
    """Why nothing can be held against a lesson's output, in words; or None."""
    scripts = lessons.scripts(lesson)
    faults = [f'{lesson}: {script.name} {words}' for script in scripts if (words := lessons.fault(script))]
    return next(iter(faults), None if scripts else f'{lesson}: has no script')


def remark(one):
    """What is to be said of an output that differs, beside the two lines."""
    if not one.ran.output:
        return 'it printed nothing'
    if one.printed == one.difference.wanted + b'\r':
        return 'its line ends with a carriage return and a line feed; here a line ends with a line feed alone'
    if one.difference.wanted == NOTHING_MORE:
        return 'it prints more than it should'
    if one.difference.got == NOTHING_MORE:
        return 'it prints too little'
    return None


def briefly(line, most):
    text = shown(line)
    return text if len(text) <= most else text[:most - 3] + ' ..'


def in_one_line(one):
    """Where and how a script was failed, for a table."""
    if one.difference is None:
        return f'{one.script.name}: {one.ran.ending}'
    parts = [f'{one.script.name} line {one.difference.line + 1}, {briefly(one.line, 30)}:',
             f'{shown(one.difference.wanted)} should be printed, not {briefly(one.printed, 120) or "an empty line"}']
    remarks = '; '.join(words for words in (remark(one), one.ran.ending) if words)
    return ' '.join(parts) + (f' ({remarks})' if remarks else '')


def with_words(line, words):
    """A line of a script, marked `> `, or of its reply; and below it the same in words."""
    return [shown(line) or '(an empty line)', INDENT + words.of(line)]


def up_to(one):
    """What the words must have heard before the line that differs."""
    answers = running.answers_of(one.script.wanted)
    for number, line in enumerate(running.lines_of(one.script.text)[:one.difference.line + 1]):
        yield b'> ' + line
        yield from answers[number] if number < one.difference.line else answers[number][:one.difference.row]


def heard(one, row, words):
    """A row at the place of the difference, with its words."""
    if row == NOTHING_MORE:
        return [shown(row)]
    for line in up_to(one):
        words.of(line)
    return with_words(row, words)


def in_words(one, words):
    """The first difference with what the lesson's page says of it."""
    where = f'{one.lesson}, {one.script.name}: '
    if one.difference is None:
        return [where + f'all that it printed is right, but {one.ran.ending}']
    told = [where + f'the first difference is at line {one.difference.line + 1} of the script', *heard(one, b'> ' + one.line, words)]
    told += ['should print:', *heard(one, one.difference.wanted, words), 'prints:', *heard(one, one.printed, words)]
    told += [f'Note: {note}.' for note in (remark(one), one.ran.ending) if note]
    for heading, said in lessons.said_of(one.lesson, one.line, one.answer, one.difference.wanted, one.printed):
        told += [heading, *(INDENT + line for line in said.splitlines())]
    return told
