"""The phases as a picture. Where each stands is told here; what leads from one to another comes from the rules."""
import textwrap

from drawing import LINE, Drawing, height_of
from page import lengths, named, queue_rows
from reading import NotUnderstood
from slots import STAYS, conditions
from words import EVENTS, PHASES, QUEUE, lasting, listed, word

WIDTH, HEIGHT = 1000, 1496
PLACES = {  # left, top, width, height
    'taken': (20, 30, 110, 60), 'free': (250, 30, 230, 60), 'freed': (602, 30, 220, 60), 'offered': (250, 180, 230, 350),
    'first_ring_back': (602, 195, 220, 60), 'second_ring_back': (602, 335, 220, 60), 'acknowledged': (602, 470, 220, 70),
    'first_call': (612, 835, 190, 50), 'second_call': (612, 945, 190, 50), 'ringing': (612, 1062, 190, 50),
    'dialling': (250, 660, 230, 80), 'dialled_out': (250, 830, 230, 60), 'answered': (250, 1015, 230, 90), 'held': (250, 1285, 230, 80),
}
GROUPS = {  # phases in one frame, and where it stands; a frame around another comes first
    'ring-back': (['first_ring_back', 'second_ring_back'], (592, 180, 240, 230)),
    'ashore': (['first_call', 'second_call', 'ringing'], (592, 812, 230, 316)), 'called': (['first_call', 'second_call'], (602, 823, 210, 184)),
    'call': (['dialling', 'dialled_out', 'answered'], (240, 640, 335, 585)),
}
FREED = {  # on which side the slot is freed, and how high that arrow runs, or how far to the right
    'taken': ('down', 75), 'offered': ('left', 355), 'second_ring_back': ('right', 365), 'acknowledged': ('right', 505),
    'ashore': ('right', 890), 'second_call': ('right', 970), 'ringing': ('right', 1087),
    'dialling': ('left', 700), 'dialled_out': ('left', 860), 'call': ('left', 1165), 'held': ('left', 1325),
}
STUBS = {('free', 'first_call'): 706}  # arrows that begin at their phase's name once more, and how high that stands
# Arrows that do not simply go from the middle of one side to the middle of another.
AT = {('offered', 'dialling'): 285, ('call', 'offered'): 405}
BENT = {
    ('acknowledged', 'dialling'): [(707, 540), (707, 680), (480, 680)],
    ('dialling', 'answered'): [(480, 725), (560, 725), (560, 1037), (480, 1037)], ('ringing', 'answered'): [(612, 1087), (480, 1087)],
}
LABELLED = {('ringing', 'answered'): 528}  # a label that does not stand in the middle of its arrow
QUEUE_PLACE = (620, 1234, 260, 110)
UNSAID = ['from its ship', 'from a ship that does not wait', 'for a ship that does not wait']
NOTES = ['An arrow from a dashed frame, and what stands free in it, is that of each phase in it. Times are tenths of a second;',
         "a wait falls due one tenth after its length. Sequences are those of the slot's own ship."]


# ── what is drawn ─────────────────────────────────────────────────────────────

def said(asked):
    return [one for one in conditions(asked) if one not in UNSAID]


def label(rules, phase, event, asked):
    """The lines of an arrow: the event, then where; a wait with its length."""
    wait = event.split()[-1]
    if wait in rules.waits.get(phase, {}):
        return (f'{word(EVENTS, event)}:', *(lengths([case]) for case in rules.waits[phase][wait]), *said(asked))
    return in_lines(word(EVENTS, event), said(asked))


def in_lines(event, where, end=''):
    *before, last = [event, *where]
    return (*(f'{line},' for line in before), last + end)


def freed_to(rules):
    """What a slot becomes that is freed, by whether a ship waits: what is told where the queue is asked last."""
    found = {}
    for events in rules.events.values():
        for asked, outcome in (case for cases in events.values() for case in cases):
            if asked and asked[-1][0] == 'queue' and found.setdefault(asked[-1], outcome.follows) != outcome.follows:
                raise NotUnderstood(f'a slot that is freed becomes {found[asked[-1]]} or {outcome.follows}')
    return found


def arrows_of(rules, phase, freed):
    """Each arrow of a phase: where it leads, and its label."""
    for event, _ in named(rules):
        for asked, outcome in rules.events[phase][event]:
            asking = [one for one in asked if one[0] == 'queue']
            if asking and freed[asking[0]] == outcome.follows:
                yield 'freed', label(rules, phase, event, asked[:asked.index(asking[0])])
            elif outcome.follows:
                yield outcome.follows, label(rules, phase, event, asked)


def inside_of(rules, phase):
    """What an event does while the phase stays, where it is named for the phase."""
    for event, _ in named(rules):
        for asked, outcome in rules.events[phase][event]:
            if outcome.kind == 'changes' or outcome == STAYS and 'from its ship' in conditions(asked):
                yield *in_lines(word(EVENTS, event), said(asked), ':'), outcome.text


def shared(by_phase):
    """What every phase of a group has is the group's own."""
    found = {phase: list(dict.fromkeys(ones)) for phase, ones in by_phase.items()}
    for group, (members, _) in GROUPS.items():
        found[group] = [one for one in found[members[0]] if all(one in found[member] for member in members)]
        for member in members:
            found[member] = [one for one in found[member] if one not in found[group]]
    return found


# ── how ───────────────────────────────────────────────────────────────────────

def joined(blocks):
    """The lines of several, an empty one between two."""
    return [line for number, block in enumerate(blocks) for line in ([''] if number else []) + list(block)]


def name_of(source):
    """A phase's name, the phases of a group, or `freed`."""
    members = GROUPS[source][0] if source in GROUPS else [source]
    return listed([PHASES.get(member, member) for member in members], 'or')


def place_of(name):
    if name in GROUPS:
        return GROUPS[name][1]
    if name not in PLACES:
        raise NotUnderstood(f'no place for {name!r}: tools/diagram/picture.py wants one')
    return PLACES[name]


def points_between(source, target):
    (x, y, width, height), (to_x, to_y, to_width, to_height) = place_of(source), place_of(target)
    left, right = max(x, to_x), min(x + width, to_x + to_width)
    top, bottom = max(y, to_y), min(y + height, to_y + to_height)
    if left < right:
        at = AT.get((source, target), (left + right) / 2)
        return [(at, y + height), (at, to_y)] if y < to_y else [(at, y), (at, to_y + to_height)]
    if top < bottom:
        at = AT.get((source, target), (top + bottom) / 2)
        return [(x, at), (to_x + to_width, at)] if x > to_x else [(x + width, at), (to_x, at)]
    raise NotUnderstood(f'no way for the arrow from {source} to {target}: tools/diagram/picture.py wants one')


def draw_label(drawing, points, lines, middle=None):
    """Above an arrow that lies, beside one that stands."""
    (x, y), (to_x, to_y) = points[:2]
    if y == to_y:
        drawing.text(middle or (x + to_x) / 2, y + LINE - 8 - height_of(lines), lines, 'middle')
    else:
        drawing.text(x + 9, (y + to_y) / 2 + 14 - height_of(lines) / 2, lines, 'start')


def draw_freed(drawing, source, lines):
    if source not in FREED:
        raise NotUnderstood(f'no place where {source} is freed: tools/diagram/picture.py wants one')
    (side, at), (x, y, width, height) = FREED[source], place_of(source)
    if side == 'down':
        pill, points = (at - 34, y + height + 76, 68, 30), [(at, y + height), (at, y + height + 76)]
    elif side == 'left':
        pill, points = (20, at - 15, 68, 30), [(x, at), (88, at)]
    else:
        pill, points = (WIDTH - 76, at - 15, 68, 30), [(x + width, at), (WIDTH - 76, at)]
    drawing.box(pill, ['freed'], 'freed', 15)
    drawing.arrow(f'the arrow by which {source} is freed', points)
    draw_label(drawing, points, lines)


def draw_stub(drawing, source, target):
    """The name of a phase that stands elsewhere, above the one that an arrow leads to."""
    (x, y, width, _), top = place_of(target), STUBS[source, target]
    drawing.box((x + width / 2 - 34, top, 68, 30), [name_of(source)], corner=15)
    return [(x + width / 2, top + 30), (x + width / 2, y)]


def draw_arrows(drawing, found):
    for source, ones in found.items():
        for target in dict.fromkeys(target for target, _ in ones):
            lines = joined(lines for to, lines in ones if to == target)
            if target == 'freed':
                draw_freed(drawing, source, lines)
                continue
            if (source, target) in STUBS:
                points = draw_stub(drawing, source, target)
            else:
                points = BENT.get((source, target)) or points_between(source, target)
            drawing.arrow(f'the arrow from {source} to {target}', points)
            draw_label(drawing, points, lines, LABELLED.get((source, target)))


def draw_queue(drawing, rules, rung_back):
    """The queue has its own corner: who joins it, and who leaves."""
    rows = {}
    for text, event, where in queue_rows(rules):
        rows[text] = (word(EVENTS, event), [one for one in where if one not in UNSAID])
    joins, asks, leaves, oldest = (QUEUE[name] for name in ('++', 'mod_at', 'drop_at', 'queue.∷.1'))
    if set(rows) != {joins, asks, leaves, oldest}:
        raise NotUnderstood(f'no place for what becomes of the queue: {set(rows)}')
    x, y, width, height = QUEUE_PLACE
    drawing.box(QUEUE_PLACE, ['in the queue', *textwrap.wrap(f'{rows[asks][0]}: {asks}', 30)])
    drawing.box((x - 15, y + height + 70, 110, 30), [rung_back], corner=15)
    drawing.box((x + 125, y + height + 70, 145, 30), [leaves], 'freed', 15)
    due = [f'{rows[leaves][0]}:', lasting(rules.queue_wait)]
    for at, top, lines in [(130, -70, in_lines(*rows[joins])), (40, height, [oldest]), (200, height, due)]:
        points = [(x + at, y + top), (x + at, y + top + 70)]
        drawing.arrow(f'the arrow {lines[0]!r}', points)
        draw_label(drawing, points, lines)


def described(found):
    """The same in words, for who cannot see it."""
    parts = []
    for source, ones in found.items():
        ways = (f'{" ".join(lines)}, to {name_of(target)}' for target, lines in ones)
        parts += [f'From {name_of(source)}: {"; ".join(ways)}.'] if ones else []
    return ' '.join(parts)


def picture(rules):
    freed = freed_to(rules)
    arrows = shared({phase: arrows_of(rules, phase, freed) for phase in rules.slots})
    arrows['freed'] = [(follows, (conditions([asked])[0],)) for asked, follows in freed.items()]
    inside = shared({phase: inside_of(rules, phase) for phase in rules.slots})
    drawing = Drawing(WIDTH, HEIGHT)
    for group, (_, place) in GROUPS.items():
        drawing.group(place)
        lines = joined(inside[group])
        drawing.text(place[0] + place[2] / 2, place[1] + place[3] + 6 - height_of(lines), lines, 'middle')
    for phase in rules.slots:
        drawing.box(place_of(phase), joined([[word(PHASES, phase)], *inside[phase]]))
    drawing.box(PLACES['freed'], ['the slot is freed'], 'freed', 30)
    draw_arrows(drawing, arrows)
    draw_queue(drawing, rules, word(PHASES, freed['queue', '∷']))
    drawing.text(20, HEIGHT - 32, NOTES, 'start')
    return drawing.svg('The phases of a slot', described(arrows))
