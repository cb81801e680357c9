"""Reads definitions: what modules of antt declare, and the expressions of their clauses. What is not understood is an error."""
import functools, re

OPERATORS = [{'∷', '++'}, {'&&'}, {'||'}, {'+', '*', '-'}]  # one expression has operators of one of these groups
TOKEN = re.compile(r'λ|[(){};]|\.\w+|[^\s(){};.]+|\.')
USUAL = ['data Bool where\n  true false : Bool', 'data Option where\n  none : Option\n  some : A → Option',
         'data List where\n  [] : List\n  ∷ : A → List → List']


class NotUnderstood(Exception):
    pass


class Parser:
    """An expression, or the left side of a clause: a name, number, lambda, record, field or call."""

    def __init__(self, text):
        self.text, self.tokens = text, TOKEN.findall(text)

    def fail(self):
        raise NotUnderstood(f'not understood from {" ".join(self.tokens[:4])!r} on: {self.text.strip()}')

    def at(self, *tokens):
        return bool(self.tokens) and self.tokens[0] in tokens

    def next(self, wanted=None):
        if not self.tokens or wanted not in (None, self.tokens[0]):
            self.fail()
        return self.tokens.pop(0)

    def expression(self, group=None):
        if self.at('λ'):
            return self.function()
        left = self.application()
        for operators in OPERATORS:
            if self.at(*operators):
                if group not in (None, operators):
                    self.fail()
                return ('call', ('name', self.next()), [left, self.expression(operators)])
        return left

    def function(self):
        names = []
        self.next('λ')
        while not self.at('.'):
            names.append(self.next())
        self.next('.')
        return ('lambda', names, self.expression())

    def application(self):
        found, given = self.projected(), []
        while self.tokens and not self.at(')', '}', ';', '.', *set.union(*OPERATORS)):
            given.append(self.projected())
        return call(found, given)

    def projected(self):
        found = self.atom()
        while self.tokens and self.tokens[0].startswith('.') and not self.at('.'):
            found = ('field', found, self.next()[1:])
        return found

    def atom(self):
        if self.at('('):
            self.next()
            found = self.expression()
            self.next(')')
            return found
        if self.at('record'):
            return self.record()
        if self.at(*'{});=.λ'):
            self.fail()
        token = self.next()
        return ('number', int(token)) if token.isdigit() else ('name', token)

    def record(self):
        fields = {}
        self.next('record')
        self.next('{')
        while not self.at('}'):
            name = self.next()
            self.next('=')
            fields[name] = self.expression()
            if not self.at('}'):
                self.next(';')
        self.next('}')
        return ('record', fields)


def call(head, given):
    return ('call', head, given) if given else head


def head_and_given(tree):
    return tree[1:] if tree[0] == 'call' else (tree, [])


@functools.cache
def parsed(text):
    parser = Parser(text)
    found = parser.expression()
    if parser.tokens:
        parser.fail()
    return found


class Definitions:
    """The clauses of each name; the constructors of each type, with the types of their arguments; the fields of each record."""

    def __init__(self, paths):
        self.clauses, self.variants, self.type_of, self.arguments, self.fields = {}, {}, {}, {}, {}
        for declaration in USUAL:
            self.declare(declaration)
        for path in paths:
            with open(path, encoding='utf-8') as file:
                text = re.sub(r'(?m)(^|\s)--(\s.*)?$', '', file.read())
            for statement in re.split(r'\n(?=[^\s}])', text.strip()):
                self.take(statement)

    def take(self, statement):
        if re.match(r'pub (data|record) ', statement):
            self.declare(statement.removeprefix('pub '))
        elif not re.match(r'(use|unfolding|abbrev|unfoldable) ', statement):
            clause = re.fullmatch(r'((\S+).*?)\s=\s(.*)', statement, re.S)
            if not clause:
                raise NotUnderstood(f'neither a declaration nor a clause: {statement}')
            self.clauses.setdefault(clause[2], []).append((clause[1], clause[3]))

    def declare(self, statement):
        kind, name = statement.split()[:2]
        for names, types in re.findall(r'(?m)^  (?:pub )?(\S.*?) : (.*?)\s*$', statement):
            types = re.split(r'\s*→\s*', types)
            if kind == 'record':
                self.fields.setdefault(name, []).append(names)
                continue
            for one in names.split():
                self.variants.setdefault(name, []).append(one)
                self.type_of[one], self.arguments[one] = name, types[:-1]
