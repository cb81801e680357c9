"""A tool that is told line by line what to do, by a file, by standard input, or by a person in a terminal. Its page tells the forms."""
import sys

import plainly
from forms import Forms
from rehearse import PROMPT, typed

REMARK = '#'
SYMBOL = (r'\d{1,2}|1\d\d|2[0-4]\d|25[0-5]', 'a number up to 255')
NUMBER = (r'\d{1,4}', 'a number')


def remark(line):
    return not line.strip() or line.lstrip().startswith(REMARK)


class Tool:
    """What the lines are about is made by `begun`; each form is a method of it, which gives the lines to be told."""

    def __init__(self, page, words, begun):
        self.page, self.begun = page, begun
        self.forms = Forms(page, words, f'{page.split()[0]} --help tells what a line may be')

    def follow(self, subject, line):
        """Prints what is to be told of a line."""
        form, *words = line.split()
        self.forms.names_of(form, words)
        for told in getattr(subject, form)(*(int(word) if word.isdecimal() else word for word in words)):
            print(told)

    def play(self, lines):
        subject = self.begun()
        for number, line in enumerate(lines, 1):
            print(line if remark(line) else PROMPT + line)
            try:
                if not remark(line):
                    self.follow(subject, line)
            except plainly.NotUnderstood as why:
                raise plainly.NotUnderstood(f'line {number}: {why}') from None

    def converse(self):
        subject = self.begun()
        for line in typed():
            try:
                if line.strip() == 'help':
                    print(self.page)
                elif not remark(line):
                    self.follow(subject, line)
            except plainly.NotUnderstood as why:
                print(why)

    def main(self, words):
        if len(words) > 1 or words[:1] and words[0].startswith('-'):
            return plainly.usage(self.page)
        if not words and sys.stdin.isatty():
            self.converse()
            return 0
        with open(words[0], encoding='utf-8', errors='backslashreplace') if words else sys.stdin as lines:
            self.play(lines.read().splitlines())
        return 0


def begin(page, words, begun):
    """The program with this page. What a word of a form must be stands in `words`, by its name."""
    plainly.begin(Tool(page, words, begun).main)
