"""What lasts in a played script, from the line that begins it to the line after which the record has it no more: phases, waits, stays in
the queue, charges. All of it is read off the record and off the charges; nothing here knows a rule."""
import collections

FREE = 0
RAN_OUT, TOGETHER, EARLY = 'when it fell due', 'at its due time', 'before it was due'   # how a wait ended

# Columns are lines of the script; `end` is None where it still stands at the end. `due` is None where nothing falls due.
Span = collections.namedtuple('Span', 'kind row begin end label ship due phase')


def runs(values):
    """Each longest run of one value that is not None: the value, where it begins, and where another follows, or None."""
    begin = 0
    for place in range(1, len(values) + 1):
        if place == len(values) or values[place] != values[begin]:
            if values[begin] is not None:
                yield values[begin], begin, place if place < len(values) else None
            begin = place


def seen(steps, slot, what):
    """What each step's record has of a slot; None before the station stands."""
    return [what(step.slots[slot]) if step.slots else None for step in steps]


def phases(steps, slot):
    for found, begin, end in runs(seen(steps, slot, lambda s: (s.phase, s.words, s.ship))):
        phase, words, ship = found
        yield Span('phase', slot, begin, end, words, ship, None, phase)


def waits(steps, slot):
    """Each phase has a wait of its own; that of a lost carrier goes on from phase to phase."""
    for (_, due), begin, end in runs(seen(steps, slot, lambda s: None if s.due is None else (s.phase, s.due))):
        yield Span('wait', slot, begin, end, f'due {due}', None, due, None)
    for due, begin, end in runs(seen(steps, slot, lambda s: s.lost)):
        yield Span('wait', slot, begin, end, f'no carrier: due {due}', None, due, None)


def charges(steps, slot):
    """Each from the line that answered the call, which is as far back as the record has that answer, to the line that charges it."""
    answered = seen(steps, slot, lambda s: s.answered)
    for end, step in enumerate(steps):
        for charge in (charge for charge in step.charged if charge.slot == slot):
            begin = end
            while begin and answered[begin - 1] == charge.start:
                begin -= 1
            label = next(does.label for does in step.does if does.slot == slot and does.label.startswith('charge'))
            yield Span('charge', slot, begin, end, label, None, None, None)


def queue(steps):
    """A row for each ship that waits: the first row that is free when it comes."""
    ships = dict.fromkeys(waiting for step in steps for waiting in step.queue)
    stays = [(begin, end, waiting) for waiting in ships
             for _, begin, end in runs([True if waiting in step.queue else None for step in steps])]
    ends = []
    for begin, end, waiting in sorted(stays, key=lambda stay: stay[0]):
        end_of = len(steps) if end is None else end
        row = next((row for row, free in enumerate(ends) if free <= begin), len(ends))
        ends[row:row + 1] = [end_of]
        yield Span('queue', row, begin, end, f'{waiting.ship}, due {waiting.due}', waiting.ship, waiting.due, None)


def ends_due(steps, span):
    """Whether it was gone when the clock stood at its due time."""
    return span.end is not None and span.due == steps[span.end].clock


class Spans:
    def __init__(self, steps):
        self.slots = max(len(step.slots) for step in steps)
        each = range(self.slots)
        self.phases = [span for slot in each for span in phases(steps, slot)]
        self.waits = sorted((span for slot in each for span in waits(steps, slot)), key=lambda span: span.begin)
        self.charges = [span for slot in each for span in charges(steps, slot)]
        self.queue = list(queue(steps))
        self.ends_due = collections.Counter(span.end for span in [*self.waits, *self.queue] if ends_due(steps, span))
        self.all = [*self.phases, *self.waits, *self.charges, *self.queue]

    def ending(self, steps, span):
        """How a wait has ended. The record does not say which ran out where several that were due are gone after one line."""
        if span.due is None or span.end is None:
            return None
        return EARLY if not ends_due(steps, span) else RAN_OUT if self.ends_due[span.end] == 1 else TOGETHER
