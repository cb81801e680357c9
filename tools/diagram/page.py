"""The phases as a page of tables."""
import textwrap

from slots import IGNORED, STAYS, conditions, settled
from words import EVENTS, OF_OTHERS, PHASES, WAITS, lasting, listed, word

HEAD = """# The phases of a slot

Drawn by `tools/phases` from the definitions, and not written by hand: it runs `step` of `crates/rules/specs/Rules/Verdict.antt`, which is
all of the rules for an event, on a slot in each phase and takes every way through its clauses. Times are tenths of a second. A wait falls
due one tenth after its length. A call number is taken to be left: [MANUAL.md](MANUAL.md#call-numbers) tells what happens otherwise.

![The phases of a slot, and what leads from one to another; the tables below say the same.](phases.svg)
"""
MATRIX = """
## What each event does

What a slot is afterwards, where the event is about this slot: a sequence comes from its ship, a call from shore is for its ship. *Stays*:
answered 0, and this slot is as it was. *Ignored*: answered 1. *Refused*: with that number; a call from shore with 38 where its ship has a
slot or waits, else with 37 where no slot is free. Of any other cell that names several, the next table tells which it is.
"""
ARROWS = """
## Every way from one phase to another

Also what changes while the phase stays. A request from a ship that has another slot is about that slot, and a call from shore for such a
ship, one in a hold too, is refused.
"""
QUEUE = """
## The queue

A ship in the queue has no slot. Its wait is {}.
"""


def table(heads, rows):
    yield ''
    for row in [heads, ['---'] * len(heads), *rows]:
        yield f'| {" | ".join(row)} |'.replace('  ', ' ')


def lengths(cases):
    return ', '.join(' '.join([lasting(length), *conditions(asked)]) for asked, length in cases)


def waits(rules, phase):
    return '; '.join(f'{word(WAITS, wait)} {lengths(cases)}' for wait, cases in rules.waits[phase].items())


def phases(rules):
    rows = []
    for phase, slot in rules.slots.items():
        kept = listed([*rules.kept(slot)] or ['nothing'], 'and')
        rows.append([word(PHASES, phase), f'`{phase}`', kept, waits(rules, phase) or 'none'])
    return table(['phase', 'in the rules', 'what the slot keeps', 'its waits'], rows)


def named(rules):
    """The events with their words, in the order of the words."""
    found = {event for events in rules.events.values() for event in events}
    words = {event: word(EVENTS, event) for event in found}
    return [(event, name) for event, name in EVENTS.items() if event in words]


def cell(cases):
    own = [outcome.text for asked, outcome in cases if not OF_OTHERS.intersection(conditions(asked))]
    return listed(list(dict.fromkeys(own)), 'or')


def matrix(rules):
    rows, quiet = [], {}
    for event, name in named(rules):
        cells = [cell(events[event]) for events in rules.events.values()]
        if set(cells) in ({STAYS.text}, {IGNORED.text}):
            quiet.setdefault(cells[0], []).append(name)
        else:
            rows.append([name, *cells])
    yield from table(['', *(word(PHASES, phase) for phase in rules.slots)], rows)
    yield ''
    yield from (textwrap.fill(f'- {text} in every phase: {"; ".join(names)}', 130, subsequent_indent='  ') for text, names in quiet.items())


def event_words(rules, phase, event):
    wait = event.split()[-1]
    return f'{word(EVENTS, event)}, {lengths(rules.waits[phase][wait])}' if wait in rules.waits[phase] else word(EVENTS, event)


def arrows(rules):
    rows = []
    for phase, events in rules.events.items():
        for event, _ in named(rules):
            for asked, outcome in events[event]:
                if outcome.moves():
                    to = outcome.text if outcome.follows else f'stays, {outcome.text}'
                    rows.append([word(PHASES, phase), event_words(rules, phase, event), ', '.join(conditions(asked)), to])
    return table(['from', 'at', 'where', 'to'], rows)


def queue_rows(rules):
    """What becomes of the queue, at which event, and where; of several ways the one that asks for least."""
    found = {}
    for events in rules.queue.values():
        for event, cases in events.items():
            for text in dict.fromkeys(text for _, texts in cases for text in texts):
                ways = [conditions(asked) for asked, so in settled([(asked, text in texts) for asked, texts in cases]) if so]
                found.setdefault((text, event), []).extend(ways)
    return [(text, event, min(asked, key=len)) for (text, event), asked in found.items()]


def queue(rules):
    rows = {}
    for text, event, where in queue_rows(rules):
        rows.setdefault((text, ', '.join(where)), []).append(word(EVENTS, event))
    rows = [[text, listed(events, 'or'), where] for (text, where), events in rows.items()]
    return table(['what becomes of it', 'at', 'where'], rows)


def page(rules):
    parts = [HEAD.rstrip('\n'), *phases(rules), MATRIX.rstrip('\n'), *matrix(rules), ARROWS.rstrip('\n'), *arrows(rules),
             QUEUE.format(lasting(rules.queue_wait)).rstrip('\n'), *queue(rules)]
    return '\n'.join(parts) + '\n'
