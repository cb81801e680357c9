"""A station of which one slot is known, and what of the rules is not looked into."""
from reading import NotUnderstood
from running import Built, Unknown

# What every accepted event passes, whatever the slot's phase; and a call number is left.
PASSED = {'sound': 'true', 'overtaken': 'false', 'slot_there': 'true', 'is_done': 'true', 'names_ship': 'true', 'names_mode': 'true',
          'names_number': 'true', 'used_up': 'false'}
WITHIN = ['leb room_needed event .room', 'leb event .time limit', 'leb clock event .time']
# Not looked into: who asks for what, what the symbols say, when and how long.
CLOSED = ['is', 'is_for', 'same', 'ltb', 'length', 'meaning', 'ashore_request', 'due_after', 'lasted', 'room_needed', 'limit']
# Where a lookup may find a slot, if this one passes and if not: a ship is looked for here alone, and of the free ones the lowest is found.
LOOKUPS = {'owns': (['here'], ['none']), 'keeps_for': (['here'], ['none']), 'is_free': (['here', 'elsewhere'], ['none', 'elsewhere'])}


class Slots:
    """The slots of a station, of which one is looked at: the one that an event names."""

    def __init__(self, slot):
        self.slot = slot


def closed(name):
    return lambda way, *given: Unknown(' '.join([name, *map(way.shown, given)]))


def same_party(way, one, other):
    """Of a sequence it is asked from whom it is, of a caller ashore for whom."""
    return closed('is_for' if way.shown(one).startswith('ashore_request') else 'is')(way, one, other)


def at_most(way, *given):
    test = closed('leb')(way, *given)
    return Built('true') if test.text in WITHIN else test


def slot_at(way, slots, place, otherwise):
    if way.shown(place) == 'elsewhere':
        raise NotUnderstood('the rules look into another slot')
    return way.value(slots).slot


def changed_at(way, change, place, held):
    held = way.value(held)
    if not isinstance(held, Slots):
        return Unknown(f'{way.shown(held)} mod_at')
    return held if way.shown(place) == 'elsewhere' else Slots(way.apply(change, [held.slot]))


def lowest(way, test, held):
    """Of the queue it is asked whether any waiting ship passes."""
    name, held = way.value(test).name, way.value(held)
    if not isinstance(held, Slots):
        return Built('none') if way.shown(held) == '[]' else Unknown(way.shown(way.apply(test, [Unknown('waiting')])))
    if name not in LOOKUPS:
        raise NotUnderstood(f'nothing is known of the lookup {name}')
    options = LOOKUPS[name][0 if way.holds(way.apply(test, [held.slot])) else 1]
    found = way.ask(name, options) if options[1:] else options[0]
    return Built('none') if found == 'none' else Built('some', [Built(found)])


def fitting(way, clock, wait, due):
    """Soundness tells how long each wait is: what it allows is noted, and holds."""
    way.noted.append((way.shown(due), way.value(wait)))
    return Built('true')


UNOPENED = {
    **{name: closed(name) for name in CLOSED},
    **{name: lambda way, *given, answer=answer: Built(answer) for name, answer in PASSED.items()},
    'fires': lambda way, time, station: Unknown('event .wait'),
    'next_call': lambda way, station: Unknown('next call'),
    'cond': lambda way, test, one, other: one if way.holds(test) else other,
    'not': lambda way, test: Built('false' if way.holds(test) else 'true'),
    '&&': lambda way, test, other: other if way.holds(test) else Built('false'),
    '||': lambda way, test, other: Built('true') if way.holds(test) else other,
    '++': lambda way, queue, others: Unknown(f'{way.shown(queue)} ++'),
    'drop_at': lambda way, place, queue: Unknown(f'{way.shown(queue)} drop_at'),
    'is': same_party, 'leb': at_most, 'get_or': slot_at, 'mod_at': changed_at, 'lowest': lowest, 'fits': fitting,
}
