"""The lessons: their folders with scripts, lines for tools, outputs and pages, and the table of lessons/README.md."""
import collections, os, re

from running import ROOT, answers_of, lines_of, shown

FOLDER = os.path.join(ROOT, 'lessons')
TABLE = os.path.join(FOLDER, 'README.md')
LINE_BY_LINE = {'air': '0 ', 'mast': r'0 [01] \d+ \d+ '}   # tools told so; what stands in their answers before a sequence
NAME = re.compile(r'\d\d-[a-z][a-z0-9]*(-[a-z0-9]+)*')
ROW = re.compile(r'^\| \[(?P<name>[^\]]*)\]\((?P<link>[^)]*)\) \| (?P<point>.*) \|$', re.M)
ANSWER = re.compile(r'\d+ \d+ \d+ (?:\d+|-)')
REPLY = re.compile(rb'\d+ \d+ \d+ (?:\d+|-)|\d+ \d+(?: \d+)*')
CODE = re.compile(r'`([^`]+)`')
QUOTE = re.compile(r'^    (right|wrong): (.*)$', re.M)
TO_FILL = 'TO BE FILLED IN'
NO_PROSE = ('#', '|', '![', '[![', '<', '    ')   # what a paragraph of a page begins with that is none

Script = collections.namedtuple('Script', 'name text output wanted')   # output: its file; wanted: None where that is missing
Quote = collections.namedtuple('Quote', 'kind line paragraph right')   # right: of a wrong line, the one that should stand there


def contents(path):
    with open(path, 'rb') as file:
        return file.read()


def names():
    """The folders of lessons/ that are called as lessons are."""
    return sorted(name for name in os.listdir(FOLDER) if NAME.fullmatch(name) and os.path.isdir(os.path.join(FOLDER, name)))


def rows():
    """The rows of the table: name, link and point."""
    return [match.groups() for match in ROW.finditer(contents(TABLE).decode())]


def points():
    """The point of each lesson, or a word that it has none."""
    told = {name: point for name, _, point in rows()}
    return {name: told.get(name, '(no row in lessons/README.md)') for name in names()}


def listed():
    return '\n'.join(f'{name:25} {point}' for name, point in points().items())


def none_such(word):
    return f'there is no lesson {word}; these there are:\n{listed()}'


def named(word):
    """The lesson of this name, number or folder, or None."""
    word = os.path.basename(word.rstrip('/'))
    fitting = [name for name in names() if word in (name, name.split('-')[0])]
    return fitting[0] if len(fitting) == 1 else None


def path_of(lesson, file=''):
    return os.path.join(FOLDER, lesson, file)


def with_outputs(lesson, pattern, name, output):
    """The files of a lesson that are called so, and a name may follow; each with its output, which is called after it."""
    found = sorted(file for file in os.listdir(path_of(lesson)) if re.fullmatch(pattern, file))
    outputs = [file.replace(name, output, 1) for file in found]
    return [Script(file, contents(path_of(lesson, file)), printed,
                   contents(path_of(lesson, printed)) if os.path.isfile(path_of(lesson, printed)) else None)
            for file, printed in zip(found, outputs)]


def scripts(lesson):
    """The scripts of a lesson with their outputs."""
    return with_outputs(lesson, r'script(-.+)?', 'script', 'output')


def told(lesson):
    """What a lesson has the tools do that are told line by line, and what they print: the tool of each file, and the file."""
    return [(tool, file) for tool in LINE_BY_LINE for file in with_outputs(lesson, rf'{tool}(-(?!output).+)?', tool, f'{tool}-output')]


def path_of_tool(tool):
    return os.path.join(FOLDER, tool)


def is_reply(line):
    """Whether a line is one that a script program prints: an answer or an action."""
    return REPLY.fullmatch(line) is not None


def fault(script):
    """What is wrong with a script and its output before anything is run, in words; or None."""
    if script.wanted is None:
        return 'has no output'
    if b'\r' in script.text + script.wanted:
        return 'has a carriage return, or its output has; a line ends with a line feed alone'
    rows = script.wanted.split(b'\n')
    if rows.pop() or not all(is_reply(row) for row in rows):
        return 'has an output with a line that no script program prints, or without a line feed at its end'
    try:
        whole = [len(answer) == 1 + int(answer[0].split()[2]) for answer in answers_of(script.wanted)]
    except (IndexError, ValueError):
        whole = [False]
    if not all(whole) or len(whole) != len(lines_of(script.text)):
        return 'has an output with more or fewer replies than it has lines, or a reply with more or fewer actions than it says'
    return None


class Page:
    """A lesson's page: what it quotes, each quote with the paragraph before it, and the rows of its tables."""

    def __init__(self, text):
        self.text, self.quotes, paragraph = text, [], ''
        for part in re.split(r'\n\s*\n', text):
            quoted, right = QUOTE.findall(part), None
            for kind, line in quoted:
                right = line if kind == 'right' else right
                self.quotes.append(Quote(kind, line, paragraph, right))
            if not quoted and not part.startswith(NO_PROSE):
                paragraph = part
        self.rows = re.findall(r'^\|(.*)\|$', text, re.M)

    def paragraphs(self, kind, line):
        """The paragraphs before the quotes of this kind that are this line, each once."""
        return list(dict.fromkeys(quote.paragraph for quote in self.quotes if (quote.kind, quote.line) == (kind, line)))

    def known(self, wanted, got):
        """The paragraphs on the mistake that prints this line: they call it wrong; or, with no wrong line, right in another place."""
        with_wrong, elsewhere = {quote.paragraph for quote in self.quotes if quote.kind == 'wrong'}, self.paragraphs('right', got)
        exchanged = [one for one in self.paragraphs('right', wanted) if one in elsewhere and one not in with_wrong]
        return self.paragraphs('wrong', got) or exchanged

    def mistakes(self, wanted):
        """The lines that are known to be printed in place of this one, each with its paragraph."""
        return [(quote.line, quote.paragraph) for quote in self.quotes if quote.kind == 'wrong' and quote.right == wanted]

    def rows_of(self, played, answer):
        """The rows for a line of the script that is answered so."""
        return [row for row in self.rows
                if any(fits(pattern, played) for pattern in CODE.findall(row)) and
                (answer in CODE.findall(row) or not any(ANSWER.fullmatch(code) for code in CODE.findall(row)))]


def page_of(lesson):
    return Page(contents(path_of(lesson, 'README.md')).decode('utf-8', 'replace'))


def fits(pattern, line):
    """Whether a line is the one that a page names, where `..` stands for what the page leaves out."""
    return re.fullmatch('.*'.join(re.escape(part) for part in pattern.split('..')), line) is not None


def said_of(lesson, played, answer, wanted, got):
    """What the lesson's page says of a line that should be printed and was not: headings, each with its words."""
    page, path = page_of(lesson), f'lessons/{lesson}/README.md'
    known = page.known(shown(wanted), shown(got))
    if known:
        return [(f'{path} knows this mistake:', words) for words in known]
    told = [(f'{path} on this line of the script:', row.strip()) for row in page.rows_of(shown(played), shown(answer))[:1]]
    told += [(f'A program that prints {line} there has made this mistake:', words) for line, words in page.mistakes(shown(wanted))]
    return told or [('The point of the lesson:', points()[lesson])]
