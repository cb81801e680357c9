"""The example host, ended at any of its writes and started again, held against its unbroken run."""
import itertools, os, shutil, struct, subprocess

ROOT = os.path.normpath(os.path.join(os.path.dirname(os.path.abspath(__file__)), '..', '..'))
EXAMPLES = os.path.join(ROOT, 'examples')
MEMORY = '/dev/shm' if os.access('/dev/shm', os.W_OK) else None  # for kept files: on a disk each rename is waited for
NAMES = ('main', 'exit', 'getchar', 'printf', 'fflush', 'creat', 'write', 'fsync', 'rename')  # as ending.c has them
THROUGH, STOPPED, ENDED = 0, 1 << 8, 99 << 8  # as waitpid has them
KILLED, POWER_CUT, FAILS = KINDS = range(3)   # how a play ends
REFUSES = 3
TO_THE_END = (0, 0, KILLED)
ACTION, SAVED = b'    channel ', b'= '
COUNT_AT, DONE_AT, LAST_CHANNEL_AT, STATION_AT, FIRST_PHASE_AT = 8, 12, 44, 45, 60  # in a kept file
SPOILT = [(0, 0), (COUNT_AT, 9), (DONE_AT, 9), (LAST_CHANNEL_AT, 1), (STATION_AT, 1), (FIRST_PHASE_AT, 13)]


def contents(path):
    with open(path, 'rb') as file:
        return file.read()


def written(path, data):
    with open(path, 'wb') as file:
        file.write(data)
    return path


def beside(name):
    """A feed, and what the host prints for it."""
    return contents(name + '.feed'), contents(name + '.printed')


def sample_feeds():
    """By their names."""
    return {'morning': beside(os.path.join(EXAMPLES, 'morning')), 'corners': beside(os.path.join(ROOT, 'tests', 'ended', 'corners'))}


def copied(room, name):
    """The example in a folder of its own."""
    return shutil.copytree(EXAMPLES, os.path.join(room, name))


def built(folder, build, *behind):
    """The host in this folder, as a program that ends itself, by this command and with these words behind it."""
    program = os.path.join(folder, 'ending')
    sources = [os.path.join(folder, name) for name in ('rack.c', 'feed.c', 'kept.c', 'words.c')]
    renamed = [f'-D{name}=host_{name}' for name in NAMES]
    sources.append(os.path.join(ROOT, 'tests', 'ended', 'ending.c'))
    subprocess.run([*build, program, *renamed, *sources, *behind], check=True)
    return program


def deeds_in(printed):
    """What was done, in order: actions, by their lines that were printed whole, and renames, by what was saved."""
    return [line for line in printed.split(b'\n')[:-1] if line.startswith((ACTION, SAVED))]


def without_saves(printed):
    return b''.join(line for line in printed.splitlines(True) if not line.startswith(SAVED))


class Differs(Exception):
    """What a run did that the unbroken one does not do."""


class Host:
    """The host on one feed, in a new folder; its unbroken run is played at once, and prints this where that is known."""

    def __init__(self, program, folder, feed, printed=None):
        os.mkdir(folder)
        self.kept, self.printed, older = (os.path.join(folder, name) for name in ('kept', 'printed', 'older'))
        feed = written(os.path.join(folder, 'feed'), feed)
        command = [os.path.join(ROOT, 'tools', 'x86-64'), 'run', program, feed, self.kept, self.printed, older]
        self.process = subprocess.Popen(command, stdin=subprocess.PIPE, stdout=subprocess.PIPE)
        self.writes = [self.unbroken(kind) for kind in KINDS]
        if printed not in (None, without_saves(self.whole)):
            raise Differs('the unbroken run prints something else than it should')

    def __enter__(self):
        return self

    def __exit__(self, *_):
        self.process.communicate()

    def play(self, at, part, kind):
        """Plays the feed from the kept file on: the count of writes, whether the last rename was lost, and the status."""
        try:
            self.process.stdin.write(b'%d %d %d\n' % (at, part, kind))
            self.process.stdin.flush()
            writes, undone, status = map(int, self.process.stdout.readline().split())
        except (BrokenPipeError, ValueError) as broken:
            raise Differs('it broke down') from broken
        return writes, undone, status

    def forget(self):
        if os.path.exists(self.kept):
            os.remove(self.kept)

    def unbroken(self, kind):
        """The count of writes; what is printed and kept is the same for each kind."""
        self.forget()
        writes, _, status = self.play(0, 0, kind)
        if status != THROUGH:
            raise Differs(f'the unbroken run has status {status}')
        self.whole, self.last = contents(self.printed), contents(self.kept)
        self.deeds = deeds_in(self.whole)
        return writes

    def every_write(self, kinds, chance):
        """An ending at each write, by each of these kinds."""
        return [(at, chance.randrange(1001), kind) for kind in kinds for at in range(1, self.writes[kind] + 1)]

    def ended_play(self, ending, begun):
        """One play, where so many deeds of the unbroken run are behind it. None where it gets through; else how many are then.
        It does the deeds that come next, in order; those behind the last save that held are done again by the next play, and
        among them is at most one action."""
        writes, undone, status = self.play(*ending)
        deeds = deeds_in(contents(self.printed))
        if deeds != self.deeds[begun:begun + len(deeds)]:
            raise Differs(f'something else is done or saved, from deed {begun + 1} on')
        if status == THROUGH and not 0 < ending[0] <= writes:
            if begun + len(deeds) != len(self.deeds):
                raise Differs(f'{len(self.deeds) - begun - len(deeds)} deeds are missing')
            return None
        if status != (STOPPED if ending[2] == FAILS else ENDED):
            raise Differs(f'status {status}')
        saves = [0] + [number for number, deed in enumerate(deeds, 1) if deed.startswith(SAVED)]
        held = saves[-1 - undone]
        if sum(deed.startswith(ACTION) for deed in deeds[held:]) > 1:
            raise Differs('more than one action was done and not noted')
        return begun + held

    def goes_on(self, endings):
        """Plays, is ended and plays again until it gets through, with the file that the unbroken run leaves; the count of plays."""
        self.forget()
        begun, tried = 0, []
        for ending in itertools.chain(endings, itertools.repeat(TO_THE_END)):
            tried.append(ending)
            try:
                begun = self.ended_play(ending, begun)
            except Differs as difference:
                raise Differs(f'{difference}; the plays, each with its write, thousandths and kind: {tried}') from difference
            if begun is None:
                break
        if contents(self.kept) != self.last:
            raise Differs('another file is kept at the end')
        return len(tried)

    def check_refused(self, files):
        """Each of these kept files is refused, with a word, and stays as it was."""
        names = [written(f'{self.kept}-{number}', data) for number, data in enumerate(files, 1)]
        refused, _, _ = self.play(len(files), 0, REFUSES)
        told = contents(self.printed).count(b' is damaged')
        if refused != len(files) or told != refused or any(contents(name) != data for name, data in zip(names, files)):
            raise Differs(f'only {refused} of {len(files)} damaged files are refused, told and left as they were')


def checked(kept):
    """A kept file with its check made right."""
    check = 2166136261
    for byte in kept[:-4]:
        check = (check ^ byte) * 16777619 % 2**32
    return kept[:-4] + struct.pack('<I', check)


def with_byte(kept, at, byte):
    return kept[:at] + bytes([byte]) + kept[at + 1:]


def damaged(kept, chance):
    """Such a file with each byte changed, cut off at each length, and with a byte more."""
    changed = [with_byte(kept, at, byte ^ chance.randrange(1, 256)) for at, byte in enumerate(kept)]
    return changed + [kept[:length] for length in range(len(kept))] + [kept + b'\0']


def spoilt(kept):
    """Such a file with a count, a version or a phase that cannot be, and a check that hides it."""
    return [checked(with_byte(kept, at, byte)) for at, byte in SPOILT]
