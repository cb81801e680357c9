"""The second implementation's script program, built for this machine: the true one, and the wrong ones, with one edit made in it."""
import filecmp, os, shutil, subprocess, tempfile

from running import ROOT

SECOND = os.path.join(ROOT, 'tests', 'second')
ENTRIES = os.path.join(ROOT, 'tests', 'c')          # for copies of it, which stand elsewhere
WRONG = os.path.join(ROOT, 'tests', 'rehearsal', 'wrong')
PARTS = ['sequence', 'actions', 'queue', 'waits', 'calls', 'ashore', 'request', 'sound', 'station', 'script']


class Workshop(tempfile.TemporaryDirectory):
    """A folder with the second script program and its parts, for others to be made of."""

    def __enter__(self):
        super().__enter__()
        for part in PARTS:
            self.compile('-c', os.path.join(SECOND, part + '.c'), '-o', self.path(part + '.o'))
        self.second = self.build(SECOND, 'second')
        return self

    def path(self, name):
        return os.path.join(self.name, name)

    def compile(self, *words):
        subprocess.run([os.environ.get('CC', 'cc'), '-std=c11', '-O0', '-w', '-I', ENTRIES, *words], check=True)

    def build(self, folder, name):
        """The script program of a copy of the second implementation; only what was changed there is compiled anew."""
        changed = {file for file in os.listdir(SECOND) if file.endswith(('.c', '.h')) and
                   not filecmp.cmp(os.path.join(SECOND, file), os.path.join(folder, file), shallow=False)}
        every = any(file.endswith('.h') for file in changed)
        anew = [part for part in PARTS if every or part + '.c' in changed]
        sources = [os.path.join(folder, part + '.c') for part in anew]
        objects = [self.path(part + '.o') for part in PARTS if part not in anew]
        self.compile(*sources, *objects, '-o', self.path(name))
        return self.path(name)

    def edited(self, name, edit):
        """The script program with an edit made in it; or None where the edit does not fit."""
        folder = self.path(f'of-{name}')
        shutil.copytree(SECOND, folder)
        if edit and subprocess.run([os.path.join(ROOT, 'tests', 'edited'), edit, folder]).returncode != 0:
            return None
        return self.build(folder, name)


def wrong_names():
    return sorted(name[:-len('.edit')] for name in os.listdir(WRONG) if name.endswith('.edit'))


def edit_of(name):
    return os.path.join(WRONG, name + '.edit')


def reason(name):
    """The words of the rule that a wrong station breaks."""
    with open(edit_of(name), encoding='utf-8') as edit:
        return edit.readline().lstrip('#').strip()
