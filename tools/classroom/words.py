"""A script and its replies in words, line by line: explain.c as a program beside one's own.

    with Words() as words:
        print(words.of('> T 261'))        a line of the script
        print(words.of('0 261 1 -'))      and, in their order, the lines of its reply
        print(words.of('2 0'))
"""
import functools, os, subprocess

from running import ROOT

RUN = os.path.join(ROOT, 'tools', 'x86-64')


class NoWords(SystemExit):
    """There are no words to be had. What catches nothing ends with this sentence and status 1."""


@functools.lru_cache(maxsize=None)
def built(name):
    """The path of a program of the classroom."""
    done = subprocess.run([os.path.join(ROOT, 'tools', 'classroom', 'build'), name], stdout=subprocess.PIPE, text=True)
    if done.returncode != 0:
        raise NoWords(f'tools/classroom/build {name} could not build the program: see above')
    return done.stdout.strip()


def built_last(name):
    """The same as it was built last, where it ever was: nothing is proved for it."""
    path = os.path.join(ROOT, 'target', 'classroom', name)
    return path if os.path.exists(path) else built(name)


class Words:
    """Lines are text or bytes, whatever stands in them; a line feed at the end may be left out."""

    def __init__(self, old=False):
        self.command = [RUN, 'run', built_last('explain') if old else built('explain')]
        self.program = subprocess.Popen(self.command, stdin=subprocess.PIPE, stdout=subprocess.PIPE)

    def __enter__(self):
        return self

    def __exit__(self, *_):
        self.program.communicate()

    def help(self):
        """What a line of a script may be, a line for each letter."""
        return subprocess.run([*self.command, 'help'], stdout=subprocess.PIPE, text=True, check=True).stdout

    def of(self, line):
        """One line in words."""
        if isinstance(line, str):
            line = line.encode(errors='surrogateescape')
        try:
            self.program.stdin.write(line.rstrip(b'\n').replace(b'\n', b'?') + b'\n')
            self.program.stdin.flush()
        except BrokenPipeError:
            pass
        words = self.program.stdout.readline()
        if not words.endswith(b'\n'):
            raise NoWords('the program that finds the words has ended')
        return words.decode().rstrip('\n')
