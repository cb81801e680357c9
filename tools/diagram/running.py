"""Runs definitions on values that are partly unknown. Where the unknown decides, every way is taken."""
from reading import NotUnderstood, head_and_given, parsed


class Unknown:
    """A value of which nothing is known but where it comes from."""

    def __init__(self, text):
        self.text = text


class Built:
    """A constructor with its arguments."""

    def __init__(self, name, given=()):
        self.name, self.given = name, list(given)


class Function:
    """A name with the first of its arguments, or a lambda; it waits for the others."""

    def __init__(self, name, work):
        self.name, self.work = name, work


class Later:
    """A value that is worked out once, and only where it is wanted."""

    def __init__(self, work):
        self.work, self.found = work, None


class Way:
    """One way through the definitions: the first questions are answered as told, each other one by its first option."""

    def __init__(self, definitions, unopened, answers):
        self.definitions, self.unopened, self.answers = definitions, unopened, answers
        self.asked, self.known = [], {}

    def ask(self, question, options):
        if question not in self.known:
            told = self.answers[len(self.asked):]
            self.known[question] = told[0] if told else options[0]
            self.asked.append((question, self.known[question], options))
        return self.known[question]

    def value(self, given):
        """The outermost constructor of a value; of an unknown, what was answered."""
        while isinstance(given, Later):
            if given.work:
                given.found, given.work = given.work(), None
            given = given.found
        if isinstance(given, Unknown) and given.text in self.known:
            return self.opened(given, self.known[given.text])
        return given

    def opened(self, unknown, constructor):
        places = range(len(self.definitions.arguments[constructor]))
        return Built(constructor, (Unknown(f'{unknown.text}.{constructor}.{place}') for place in places))

    def built(self, given, kind):
        """The outermost constructor, asked for where it is unknown."""
        found = self.value(given)
        if isinstance(found, Unknown):
            found = self.opened(found, self.ask(found.text, self.definitions.variants[kind]))
        return found

    def holds(self, test):
        return self.built(test, 'Bool').name == 'true'

    def apply(self, function, given):
        return self.value(self.value(function).work(given))

    def field(self, record, name):
        record = self.value(record)
        return self.value(Unknown(f'{record.text} .{name}') if isinstance(record, Unknown) else record[name])

    def evaluate(self, tree, names):
        kind, first, *rest = tree
        if kind == 'number':
            return first
        if kind == 'name':
            return self.value(names[first]) if first in names else self.run(first, [])
        if kind == 'lambda':
            return Function('λ', lambda given: self.evaluate(rest[0], {**names, **dict(zip(first, given, strict=True))}))
        if kind == 'record':
            return {field: self.later(part, names) for field, part in first.items()}
        if kind == 'field':
            return self.field(self.evaluate(first, names), rest[0])
        given = [self.later(part, names) for part in rest[0]]
        if first[0] == 'name' and first[1] not in names:
            return self.run(first[1], given)
        return self.apply(self.evaluate(first, names), given)

    def later(self, tree, names):
        return Later(lambda: self.evaluate(tree, names))

    def run(self, name, given):
        if name in self.definitions.arguments:
            return Built(name, given)
        if name in self.unopened:
            return self.value(self.unopened[name](self, *given))
        for left, right in self.definitions.clauses.get(name, []):
            patterns = head_and_given(parsed(left))[1]
            if len(given) < len(patterns):
                return Function(name, lambda rest: self.run(name, given + rest))
            names = {}
            if all(self.fits(pattern, one, names) for pattern, one in zip(patterns, given)):
                found, over = self.evaluate(parsed(right), names), given[len(patterns):]
                return self.apply(found, over) if over else found
        raise NotUnderstood(f'no clause of {name} is known that fits')

    def fits(self, pattern, given, names):
        head, parts = head_and_given(pattern)
        kind = self.definitions.type_of.get(head[1])
        if not kind:
            names[head[1]] = given
            return True
        found = self.built(given, kind)
        return found.name == head[1] and all(self.fits(part, one, names) for part, one in zip(parts, found.given, strict=True))

    def shown(self, given):
        """A value as a text, all of it worked out."""
        found = self.value(given)
        if isinstance(found, Unknown):
            return found.text
        if isinstance(found, Built):
            return ' '.join([found.name, *(f'({self.shown(part)})' for part in found.given)])
        if isinstance(found, dict):
            return '{' + '; '.join(f'{name} = {self.shown(part)}' for name, part in found.items()) + '}'
        return str(found)


def ways(definitions, unopened, work):
    """Every way through some work: the questions that were asked, each with its answer, and the result."""
    answers = []
    while answers is not None:
        way = Way(definitions, unopened, answers)
        result = work(way)
        yield [(question, answer) for question, answer, options in way.asked], result
        answers = other_answers(way.asked)


def other_answers(asked):
    """The last answer that has another option behind it is changed to that, and what was asked later is forgotten."""
    *before, (question, answer, options) = asked or [(None, None, [None])]
    if answer != options[-1]:
        return [given for _, given, _ in before] + [options[options.index(answer) + 1]]
    return other_answers(before) if before else None
