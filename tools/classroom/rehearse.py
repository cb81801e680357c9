"""A script with its replies, in numbers and below them in words: tools/rehearse --words, which tells more."""
import contextlib, os, re, select, subprocess, sys, threading

import plainly, running
from playing import Record
from words import Words

MOST_WAIT = 5     # seconds for a line of a reply
MOST_REST = 4000  # bytes that are looked at behind the last reply
BELOW = '      '  # before the words
PROMPT = '> '
WELCOME = 'A script, line by line. help tells what a line may be; quit ends.'
HELP = '''\
Times are tenths of a second; slots count from 0; lessons/sequence writes symbols; lessons/01-first-call/script is a first call.
A reply begins with four parts: the answer (0 done, 1 ignored, else a refusal), the clock, how many actions follow, and when
the next wait falls due (- where none runs). Then each action has a line: kind, slot, payload. lessons/README.md has the kinds.
help prints this; quit, exit and the end of the input end.'''


class Silent(Exception):
    """The program has no reply."""


class Program:
    """The script program at work: lines go in, their replies come out."""

    def __init__(self, options):
        self.child = subprocess.Popen([running.PROGRAM, *options], stdin=subprocess.PIPE, stdout=subprocess.PIPE, bufsize=0)
        self.read = b''

    def __enter__(self):
        return self

    def __exit__(self, *_):
        self.child.kill()

    def send(self, text, end=False):
        try:
            self.child.stdin.write(text)
            if end:
                self.child.stdin.close()
        except BrokenPipeError:
            pass   # then there is no reply, which is told

    def more(self):
        """Whether it prints more; waits for that."""
        ready, _, _ = select.select([self.child.stdout], [], [], MOST_WAIT)
        if not ready:
            raise Silent(f'not in {MOST_WAIT} s; a program must print each reply at once')
        more = os.read(self.child.stdout.fileno(), 1 << 16)
        self.read += more
        return bool(more)

    def row(self):
        while b'\n' not in self.read:
            if not self.more():
                raise Silent(running.how_it_ended(self.child.wait(), True, 0, 0) or 'it has ended')
        row, self.read = self.read.split(b'\n', 1)
        return row

    def reply(self):
        """Line by line; how many there are the first line tells."""
        first = self.row()
        yield first
        told = re.fullmatch(rb'\d+ \d+ (\d) (?:\d+|-)', first)
        for _ in range(int(told[1]) if told else 0):
            yield self.row()

    def rest(self):
        """What it prints behind the last reply; and, where that is all, how it failed to end well."""
        while self.more():
            if len(self.read) > MOST_REST:
                return self.read, None
        return self.read, running.how_it_ended(self.child.wait(), True, 0, 0)


def tell(mark, line, words, more=''):
    print(mark + running.shown(line), BELOW + words.of(mark.encode() + line) + more, sep='\n')


def tell_reply(line, program, words, record):
    """The reply to a line; where there is a record, also whose wait falls due next."""
    more = record.next_due(line) if record else ''
    for row in program.reply():
        tell('', row, words, more)
        more = ''


def play(script, program, words, record):
    """A whole script. A program that prints its replies late may do so here."""
    threading.Thread(target=program.send, args=(script, True), daemon=True).start()
    for line in running.lines_of(script):
        tell(PROMPT, line.rstrip(b'\n'), words)
        tell_reply(line, program, words, record)
    rest, ending = program.rest()
    if rest:
        plainly.tell(f'the program prints more than the replies: {running.shown(rest)}')
    if ending:
        plainly.tell(f'the program printed all replies, but {ending}')
    return 1 if rest or ending else 0


def typed():
    """The lines of a person at a terminal, up to the end."""
    while True:
        try:
            line = input(PROMPT)
        except EOFError:
            print()
            return
        if line.strip() in ('quit', 'exit'):
            return
        yield line


def converse(program, words, record):
    print(WELCOME)
    for line in typed():
        if line.strip() == 'help':
            print(words.help() + HELP)
        elif line.strip():
            line = line.encode(errors='surrogateescape')
            print(BELOW + words.of(PROMPT.encode() + line))
            program.send(line + b'\n')
            tell_reply(line, program, words, record)
        sys.stdout.flush()
    return 0


def main(options):
    """The options are those of tools/rehearse but --words: --old, or none. An old program has no record, and another's has none."""
    own = not options and not os.environ.get('REHEARSE')
    with Words(old='--old' in options) as words, Program(options) as program, Record() if own else contextlib.nullcontext() as record:
        try:
            if not sys.stdin.isatty():
                return play(sys.stdin.buffer.read(), program, words, record)
            sys.stdin.reconfigure(errors='surrogateescape')
            return converse(program, words, record)
        except Silent as silent:
            sys.stdout.flush()
            plainly.tell(f'the program has no reply: {silent}')
            return 1


if __name__ == '__main__':
    sys.argv[0] = running.PROGRAM
    try:
        import readline   # a person's lines can be edited and called back
    except ImportError:
        pass
    plainly.begin(main)
