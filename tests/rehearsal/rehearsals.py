"""Scripts by their seeds, run by two programs, and the first line where these differ."""
import concurrent.futures, itertools, os, shlex, subprocess, sys

sys.path.insert(0, os.path.join(os.path.dirname(os.path.abspath(__file__)), '..', '..', 'tools', 'classroom'))
from running import PROGRAM, ROOT, answers_of, first_difference, lines_of, said, shown
from stations import Workshop

FIRST_SEED = 1
LINES = 200_000          # of the gate's run


class Room(Workshop):
    """A workshop with the generator of scripts beside it, and the program on trial with nothing around it: at_hand looks first."""

    def __enter__(self):
        super().__enter__()
        self.generator = self.path('generate')
        subprocess.run([os.path.join(ROOT, 'tests', 'rehearsal', 'build'), self.generator], check=True)
        mine = os.environ.get('REHEARSE')
        self.program = self.launcher('rehearse', *([os.path.abspath(mine)] if mine else ['tools/x86-64', 'run', 'target/bin/rehearse']))
        return self

    def launcher(self, name, *words):
        """A program that runs this command of the folder ROOT."""
        with open(self.path(name), 'w', encoding='utf-8') as run:
            print('#!/bin/sh', f'cd {shlex.quote(ROOT)} && exec {shlex.join(words)}', sep='\n', file=run)
        os.chmod(run.name, 0o755)
        return run.name

    def script(self, seed):
        """The script of a seed, and how often it reaches each situation."""
        made = subprocess.run([self.generator, str(seed)], capture_output=True, check=True)
        rows = (row.split('\t') for row in made.stderr.decode().splitlines())
        return made.stdout, {words: int(times) for words, times in rows}


def at_hand():
    """Whether the program on trial can be run; the project's own is built first where it is older than its sources."""
    return bool(os.environ.get('REHEARSE')) or subprocess.run([PROGRAM, '--build']).returncode == 0


def difference(second, program, script):
    wanted, got = said(second, script), said(program, script)
    return None if wanted == got else first_difference(wanted, got)


def compared(seeds, one):
    """What `one` gives for each seed, in the seeds' order, some of them at work at once."""
    workers = os.cpu_count() or 1
    with concurrent.futures.ThreadPoolExecutor(workers) as pool:
        while True:
            yield from pool.map(one, itertools.islice(seeds, 2 * workers))
