"""The forms of a tool, which its own page tells: each a word with the names of the words behind it."""
import re

from plainly import NotUnderstood


class Forms:
    """A form is a line of the page: `    name WORD WORD..    what it does`, where `..` stands for one or more, [] for none as well.
    What a word must be goes by its name: a pattern, and the same in words."""

    def __init__(self, page, words, more):
        self.words, self.more = words, more   # more: where the forms are told
        self.named = dict(re.findall(r'^    ([a-z-]+)((?: [A-Z.\[\]]+)*)  ', page, re.M))

    def not_understood(self, words):
        return NotUnderstood(f'{words}; {self.more}')

    def check(self, name, word):
        pattern, words = self.words[name]
        if not re.fullmatch(pattern, word, re.ASCII):
            raise self.not_understood(f'{name} is {words}, not {word or "nothing"}')

    def names_of(self, form, words):
        """The names of a form's words, each of which must fit its own."""
        if form not in self.named:
            raise self.not_understood(f'there is no form {form}')
        names, told = self.named[form].split(), form + self.named[form]
        if names and '..' in names[-1]:
            names += names[-1:] * (len(words) - len(names))
        optional, names = [name.startswith('[') for name in names], [name.strip('[].') for name in names]
        if len(words) > len(names):
            raise self.not_understood(f'{told} has no place for {words[len(names)]}')
        if len(words) < len(names) and not optional[len(words)]:
            raise self.not_understood(f'{told}: there is no {names[len(words)]}')
        for name, word in zip(names, words):
            self.check(name, word)
        return names
