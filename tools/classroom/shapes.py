"""The shapes of a picture of a script, as SVG. What stands for something has its words in <title>: on hover, and for a screen reader."""
import html

from columns import SMALL, width_of

BAR, WAIT, LINE, MARK = 36, 17, 16, 22  # heights: a phase, a wait, a line of text, an event


def escape(words):
    return html.escape(words, quote=False)


def text(x, y, words, style=''):
    named = f' class="{style}"' if style else ''
    return f'<text{named} x="{x}" y="{y}">{escape(words)}</text>'


def line(x, y, to_x, to_y, style):
    return f'<path class="{style}" d="M{x} {y}L{to_x} {to_y}"/>'


def titled(words, *parts):
    return f'<g role="img"><title>{escape(words)}</title>{"".join(parts)}</g>'


def bar(style, x, y, to_x, height, opens=(False, False)):
    """A bar; where it goes on beyond the strip, that side is open."""
    if opens == (True, True):
        return (f'<path class="{style} face" d="M{x} {y}H{to_x}v{height}H{x}z"/>'
                f'<path class="{style}" d="M{x} {y}H{to_x}m0 {height}H{x}"/>')
    if opens == (True, False):
        return f'<path class="{style}" d="M{x} {y}H{to_x}v{height}H{x}"/>'
    if opens == (False, True):
        return f'<path class="{style}" d="M{to_x} {y}H{x}v{height}H{to_x}"/>'
    return f'<rect class="{style}" x="{x}" y="{y}" width="{to_x - x}" height="{height}" rx="3"/>'


def fitting(x, y, to_x, words, letter=SMALL, style=''):
    """The words in a bar, where they fit: of a bar that goes on from strip to strip, an end may be short."""
    return [text(x + 6, y, words, style)] if words and x + 6 + width_of(words, letter) <= to_x else []


def wait_bar(x, y, to_x, opens, label, due=None, sign=None):
    """A wait as it runs. `due` is where it would have fallen due, and whether that lies in the strip; `sign` is that of its end."""
    parts = [bar('wait', x, y, to_x, WAIT, opens)] + fitting(x, y + 13, to_x, label)
    if sign:
        parts.append(f'<path class="{sign}" d="M{to_x - 7} {y}h7v{WAIT}h-7l5 -{WAIT // 2}z"/>')
    if due:
        place, here = due
        parts.append(line(to_x, y + WAIT // 2, place, y + WAIT // 2, 'left'))
        if here:
            parts.append(line(place, y + 3, place, y + WAIT - 4, 'end'))
    return parts


def free_line(x, y, to_x, label):
    """A slot that is free: no bar, but its label and a line behind it."""
    words = fitting(x, y + 4, to_x, label, style='dim free')
    begin = min(x + 10 + width_of(label), to_x) if words else x
    return [*words, line(begin, y, to_x, y, 'edge')]


def event_mark(x, y, letter, answer):
    """A disc where it was done, a ring where it was ignored, a square where it was refused."""
    shape = f'<circle class="{"done" if answer == 0 else "ignored"}" cx="{x}" cy="{y}" r="9"/>'
    if answer > 1:
        shape = f'<path class="refused" d="M{x - 9} {y - 9}h18v18h-18z"/>'
    return shape + text(x, y + 4, letter, 'on' if answer == 0 else 'off')


def action_mark(x, y, label):
    return f'<path class="act" d="M{x + 4} {y - 4}h10m-4 -4l4 4l-4 4"/>' + text(x + 18, y, label)
