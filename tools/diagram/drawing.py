"""Boxes, arrows and labels in one SVG. One that would cover or cross another is an error."""
import html

from reading import NotUnderstood

LINE, LETTER = 19, 7.9  # a line's height, and the width of a letter on average
SHAPES = """  text { font: 16px Arial, Helvetica, sans-serif; }
  .name { font-weight: bold; }
  .box, .freed, .arrow { stroke-width: 2; }
  .group { fill: none; stroke-width: 1.5; stroke-dasharray: 7 5; }
  .arrow { fill: none; marker-end: url(#head); }
"""
COLOURS = """  .paper {{ fill: {paper}; }}
  text {{ fill: {ink}; }}
  .box {{ fill: {box}; stroke: {box_edge}; }}
  .freed {{ fill: {freed}; stroke: {freed_edge}; }}
  .group, .arrow {{ stroke: {line}; }}
  .head {{ fill: {line}; }}
"""
LIGHT = dict(paper='#ffffff', ink='#17202b', line='#48566a', box='#e8f1fb', box_edge='#2767a8', freed='#fbefd3', freed_edge='#96690f')
DARK = dict(paper='#11161d', ink='#e9eff6', line='#a9b8ca', box='#1b2b3e', box_edge='#74aee8', freed='#3b3013', freed_edge='#e2b650')
STYLE = f'\n{SHAPES}{COLOURS.format(**LIGHT)}  @media (prefers-color-scheme: dark) {{\n{COLOURS.format(**DARK)}  }}\n'
HEAD = ('<marker id="head" viewBox="0 0 10 10" refX="9" refY="5" markerWidth="9" markerHeight="9" markerUnits="userSpaceOnUse" '
        'orient="auto"><path class="head" d="M 0 0 L 10 5 L 0 10 z"/></marker>')


def height_of(lines):
    """An empty line is half as high."""
    return sum(LINE if line else LINE / 2 for line in lines)


class Drawing:
    def __init__(self, width, height):
        self.width, self.height, self.parts, self.covered = width, height, [], []

    def cover(self, what, left, top, right, bottom):
        for other, *edges in self.covered:
            if left < edges[2] and edges[0] < right and top < edges[3] and edges[1] < bottom:
                raise NotUnderstood(f'in the picture {what} covers {other}: another place is wanted')
        if left < 0 or top < 0 or right > self.width or bottom > self.height:
            raise NotUnderstood(f'in the picture {what} is outside')
        self.covered.append((what, left, top, right, bottom))

    def text(self, x, y, lines, anchor):
        """Lines between which, below and above, nothing else may stand; the first has its foot at the height y."""
        for line in lines:
            width = len(line) * LETTER
            left = x - {'start': 0, 'middle': width / 2}[anchor]
            if line:
                self.cover(repr(line), left, y - 13, left + width, y + 4)
                self.write(x, y, line, anchor)
            y += height_of([line])

    def write(self, x, y, line, anchor, style=''):
        self.parts.append(f'<text{style} x="{x:g}" y="{y:g}" text-anchor="{anchor}">{html.escape(line)}</text>')

    def box(self, place, lines, style='box', corner=8):
        """A box with its name and lines in the middle, which must fit into it."""
        x, y, width, height = place
        if max(map(len, lines)) * LETTER > width - 8 or height_of(lines) > height - 4:
            raise NotUnderstood(f'in the picture {lines[0]!r} does not fit into its box')
        self.cover(f'the box {lines[0]!r}', x, y, x + width, y + height)
        self.parts.append(f'<rect class="{style}" x="{x}" y="{y}" width="{width}" height="{height}" rx="{corner}"/>')
        foot = y + (height - height_of(lines)) / 2 + 14
        for number, line in enumerate(lines):
            self.write(x + width / 2, foot, line, 'middle', '' if number else ' class="name"')
            foot += height_of([line])

    def group(self, place):
        x, y, width, height = place
        self.parts.append(f'<rect class="group" x="{x}" y="{y}" width="{width}" height="{height}" rx="14"/>')

    def arrow(self, what, points):
        for (x, y), (to_x, to_y) in zip(points, points[1:]):
            left, right, top, bottom = min(x, to_x), max(x, to_x), min(y, to_y), max(y, to_y)
            self.cover(what, left + .1, top + .1, right - .1 + (x == to_x), bottom - .1 + (y == to_y))
        path = ' L '.join(f'{x:g} {y:g}' for x, y in points)
        self.parts.append(f'<path class="arrow" d="M {path}"/>')

    def svg(self, title, description):
        size = f'viewBox="0 0 {self.width} {self.height}"'
        return '\n'.join([
            f'<svg xmlns="http://www.w3.org/2000/svg" {size} role="img" aria-labelledby="title description">',
            f'<title id="title">{html.escape(title)}</title>',
            f'<desc id="description">{html.escape(description)}</desc>',
            f'<style>{STYLE}</style>', HEAD,
            f'<rect class="paper" width="{self.width}" height="{self.height}" rx="10"/>', *self.parts, '</svg>']) + '\n'
