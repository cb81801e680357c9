"""How a picture of a script looks, light and dark, and what its signs mean."""
import os, sys

sys.path.append(os.path.join(os.path.dirname(os.path.abspath(__file__)), '..', 'diagram'))
from drawing import DARK, LIGHT

from columns import width_of
from shapes import LINE, WAIT, action_mark, bar, event_mark, text, wait_bar

# Told apart by their words first, then by their edges, then by colours that colour-blind readers tell apart.
SHAPES = """text{font:12px Arial,Helvetica,sans-serif}
.name{font-weight:bold}.name,.number{font-size:13px}
.number,.tick,.on,.off{text-anchor:middle}
.on,.off{font-weight:bold}.off,.free{paint-order:stroke;stroke-width:3px}
path,rect,circle{stroke-width:1.5}
.grid{stroke-width:1}
.called{stroke-dasharray:6 3}.line{stroke-dasharray:2 2}.talks{stroke-width:3}.held{stroke-dasharray:9 2 2 2}
.left{stroke-dasharray:2 3}
.grid,.edge,.left,.end,.act,.together{fill:none}
.ignored{stroke-dasharray:3 2}
.charge{fill:url(#hatch)}
"""
COLOURS = """.paper,.wait,.refused,.ignored{{fill:{paper}}}text{{fill:{ink}}}.dim{{fill:{line}}}.on{{fill:{paper}}}
.grid{{stroke:{grid}}}.edge{{stroke:{edge}}}
.wait,.left,.end,.act,.refused,.ignored,.together{{stroke:{line}}}.done,.fires{{fill:{line}}}
.refused{{stroke:{bad}}}.off,.free{{stroke:{paper}}}
.asked{{fill:{asked};stroke:{asked_edge}}}.called{{fill:{called};stroke:{called_edge}}}.line{{fill:{on_line};stroke:{on_line_edge}}}
.talks{{fill:{talks};stroke:{talks_edge}}}.held,.taken{{fill:{held};stroke:{line}}}
.charge{{stroke:{talks_edge}}}.hatch{{stroke:{hatch}}}
"""
IN_LIGHT = dict(LIGHT, grid='#dfe4ea', edge='#b5bec9', bad='#b3261e', asked='#dcecfa', asked_edge='#2767a8', called='#fbe6cf',
                called_edge='#a85400', on_line='#f7f2bf', on_line_edge='#7d6f00', talks='#c3e8d9', talks_edge='#00694d', held='#e7e9ec',
                hatch='#9fd6c2')
IN_DARK = dict(DARK, grid='#29323d', edge='#48566a', bad='#ff8a80', asked='#1b2f47', asked_edge='#74aee8', called='#452c10',
               called_edge='#f0a04b', on_line='#3d3808', on_line_edge='#d8c93a', talks='#0d4535', talks_edge='#4fd0a5', held='#2a313a',
               hatch='#1d6b53')
PAGE = f"""body{{margin:0 auto;padding:1em;max-width:100em;font:16px/1.4 Arial,Helvetica,sans-serif}}
h1{{font-size:1.4em;margin:0}}
.hidden{{position:absolute}}
.wide{{overflow-x:auto}}
.wide svg{{display:block;margin-bottom:1em}}
.signs{{padding:0;display:flex;flex-wrap:wrap;gap:.4em 2em;list-style:none}}.signs svg{{vertical-align:middle;margin-right:6px}}
table{{border-collapse:collapse}}
tbody{{border-top:1px solid;break-inside:avoid}}
th,td{{text-align:left;vertical-align:top;padding:.15em .7em}}
code{{font:13px/1.5 monospace;overflow-wrap:anywhere}}
tr:first-child code{{font-weight:bold}}
:root{{color-scheme:light dark;color:{LIGHT['ink']};background:{LIGHT['paper']}}}
@media(prefers-color-scheme:dark){{:root{{color:{DARK['ink']};background:{DARK['paper']}}}}}
@media screen and (max-width:50em){{thead{{display:none}}td{{display:block;padding-left:0}}}}
@media print{{@page{{size:landscape}}body{{padding:0;font-size:12px}}code{{font-size:10px}}svg{{break-inside:avoid}}
.wide{{overflow:visible}}.wide svg{{min-width:0;max-height:98vh}}}}
"""
STYLE = f'{SHAPES}{COLOURS.format(**IN_LIGHT)}@media(prefers-color-scheme:dark){{{COLOURS.format(**IN_DARK)}}}\n.face{{stroke:none}}'
HATCH = ('<pattern id="hatch" width="6" height="6" patternUnits="userSpaceOnUse" patternTransform="rotate(45)">'
         '<path class="hatch" d="M0 0V6" stroke-width="5"/></pattern>')

NOTES = ['Not to scale: a longer time is drawn wider, but not in proportion.',
         'The clock stands at each line: in tenths, and below them in seconds.',
         'Below an event stand its ship, and the time that the line gives where the clock shows another.']
SIGNS = [
    (lambda y: event_mark(17, y, 'Q', 0), 26, 'an event by its letter: done'),
    (lambda y: event_mark(17, y, 'O', 1), 26, 'ignored'),
    (lambda y: event_mark(17, y, 'T', 32), 28, 'refused, with the number'),
    (lambda y: action_mark(6, y + 4, ''), 22, 'an action, in the order told'),
    (lambda y: bar('asked', 8, y - 9, 36, 18), 40, "a slot's phase, and its ship"),
    (lambda y: ''.join(wait_bar(8, y - 9, 36, (False, False), '', None, 'fires')), 40, 'a wait that ran out: it fell due'),
    (lambda y: ''.join(wait_bar(8, y - 9, 36, (False, False), '', None, 'together')), 40, 'due with others: one of them ran out'),
    (lambda y: ''.join(wait_bar(8, y - 9, 36, (False, False), '', (58, True))), 62, 'a wait that ended before it was due'),
    (lambda y: bar('charge', 8, y - 9, 36, WAIT), 40, 'a charge, from the answer to the stop'),
]
SIGN = max(wide + width_of(words) for _, wide, words in SIGNS) + 10


def signs():
    """What the signs mean, for a page."""
    yield f'<p>{" ".join(NOTES)}</p>\n<ul class="signs">'
    yield from (f'<li><svg width="{wide}" height="24" aria-hidden="true">{sign(12)}</svg>{words}</li>' for sign, wide, words in SIGNS)
    yield '</ul>'


def legend(width):
    """The signs in columns of one width, and the height."""
    across, top = width // SIGN, 26 + len(NOTES) * LINE
    parts = [text(8, 16 + row * LINE, words) for row, words in enumerate(NOTES)]
    for place, (sign, wide, words) in enumerate(SIGNS):
        x, y = place % across * SIGN, top + place // across * 26
        parts.append(f'<g transform="translate({x})">{sign(y)}{text(wide + 6, y + 4, words)}</g>')
    return parts, top + (len(SIGNS) - 1) // across * 26 + 16
