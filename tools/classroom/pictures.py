"""A script as a picture: an SVG by itself, and a page that has the same with every line in numbers and in words."""
import lessons
from columns import NARROWEST
from look import HATCH, PAGE, STYLE, legend, signs
from played import Played
from shapes import escape
from strip import draw

BETWEEN = 20  # height between two strips


def drawn(played):
    """The parts and the height of each strip; and the width of all."""
    return [draw(played, strip) for strip in played.strips], max([NARROWEST] + [strip.right for strip in played.strips]) + 4


def svg(played, title):
    """The picture by itself."""
    pieces, width = drawn(played)
    parts, y = [], 6
    for piece, height in [*pieces, legend(width)]:
        parts += [f'<g transform="translate(0 {y})">', *piece, '</g>']
        y += height + BETWEEN
    return '\n'.join([
        f'<svg xmlns="http://www.w3.org/2000/svg" width="{width}" height="{y}" viewBox="0 0 {width} {y}" role="group" '
        'aria-labelledby="title" aria-describedby="about">',
        f'<title id="title">{escape(title)}</title><desc id="about">{escape(played.summary())}</desc>',
        f'<style>{STYLE}</style>{HATCH}<rect class="paper" width="{width}" height="{y}"/>', *parts, '</svg>', ''])


def table(played):
    """Each line of the script and of its reply, its words beside it."""
    yield '<table>\n<thead><tr><th scope="col">line</th><th scope="col">script and reply</th><th scope="col">in words</th></tr></thead>'
    for place, step in enumerate(played.steps):
        number = f'<th scope="rowgroup" rowspan="{len(step.words)}">{place + 1}</th>'
        lines = zip([step.line, *step.reply], step.words)
        rows = [f'<td><code>{escape(line)}</code></td><td>{escape(words)}</td>' for line, words in lines]
        yield f'<tbody>\n<tr>{number}' + '</tr>\n<tr>'.join(rows) + '</tr>\n</tbody>'
    yield '</table>'


def page(played, title):
    """The picture, strip by strip, and a table of all lines; well-formed as XML too."""
    pieces, width = drawn(played)
    parts = []
    for number, (piece, height) in enumerate(pieces, 1):
        parts += [f'<svg viewBox="0 0 {width} {height + 2}" role="group" aria-label="part {number} of {len(pieces)}">', *piece, '</svg>']
    size = f'.wide svg{{width:100%;min-width:{width}px;max-width:{width * 3 // 2}px}}'
    return '\n'.join([
        '<!DOCTYPE html>', '<html lang="en">', '<head>', '<meta charset="utf-8"/>',
        '<meta name="viewport" content="width=device-width,initial-scale=1"/>', f'<title>{escape(title)}</title>',
        f'<style>{size}\n{PAGE}{STYLE}</style>', '</head>', '<body>', f'<h1>{escape(title)}</h1>',
        f'<p>{escape(played.summary())}.</p>', f'<svg class="hidden" width="0" height="0" aria-hidden="true">{HATCH}</svg>',
        '<div class="wide" tabindex="0" role="region" aria-label="the picture">', *parts, '</div>', *signs(), *table(played),
        '</body>', '</html>', ''])


def title_of(lesson, script):
    """The heading of the lesson's page, and the script's name where there are several."""
    heading = lessons.contents(lessons.path_of(lesson, 'README.md')).decode('utf-8', 'replace').split('\n')[0].lstrip('# ')
    return heading if len(lessons.scripts(lesson)) == 1 else f'{heading} ({script})'


def of_lesson(lesson):
    """The files of a lesson's pictures, and what has to stand in them."""
    for script in lessons.scripts(lesson):
        played, title, name = Played(script.text), title_of(lesson, script.name), script.name.replace('script', 'picture', 1)
        yield lessons.path_of(lesson, f'{name}.svg'), svg(played, title)
        yield lessons.path_of(lesson, f'{name}.html'), page(played, title)
