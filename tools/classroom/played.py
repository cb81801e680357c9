"""A script that was played, what lasts in it, where it stands along the picture, and the words for all of it."""
from columns import seconds_of, strips
from playing import play
from spans import FREE, Spans

MOST_TOLD, MOST_SLOTS = 10, 4  # phases of a slot or charges, and slots, in a summary


def some(names, most, what=''):
    """The names, or the first of them and how many more there are."""
    return names if len(names) <= most else [*names[:most], f'and {len(names) - most} more{what}']


class Played:
    def __init__(self, script):
        self.steps = play(script)
        self.spans = Spans(self.steps)
        self.strips = strips(self.steps, self.spans.all)

    def row_of(self, column):
        """The slot that an event is about; None where it is about none that stands."""
        step = self.steps[column]
        return step.event.slot if step.event.slot is not None and step.event.slot < len(step.slots) else None

    def channel(self, slot):
        return self.steps[-1].slots[slot].channel

    def event_words(self, column):
        line, reply, *_ = self.steps[column].words
        return f'Line {column + 1}. {line}. {reply}'

    def action_words(self, column, place):
        return self.steps[column].words[2 + place]

    def whose(self, span):
        """Of a phase: the ship, and the number or numbers that it asks for."""
        if span.kind != 'phase' or not span.ship:
            return ''
        numbers = dict.fromkeys(step.slots[span.row].number for step in self.steps[span.begin:span.end])
        return f', ship {span.ship}, number {", then ".join(numbers)}'

    def span_words(self, span):
        slot = '' if span.kind == 'queue' else f'slot {span.row}, channel {self.channel(span.row)}: '
        what = {'queue': 'in the queue, ship ', 'wait': 'a wait, '}.get(span.kind, '')
        due = '' if span.due is None else f' ({seconds_of(span.due)})'
        words = f'{slot}{what}{span.label}{due}{self.whose(span)}, from {seconds_of(self.steps[span.begin].clock)}'
        if span.end is None:
            return f'{words} on'
        how = self.ending(span)
        return f'{words} to {seconds_of(self.steps[span.end].clock)}{f", {how}" if how else ""}'

    def ending(self, span):
        return self.spans.ending(self.steps, span)

    def slot_words(self, slot):
        names = [span.label for span in self.spans.phases if span.row == slot and span.phase != FREE]
        return f'slot {slot}, channel {self.channel(slot)}: {", ".join(some(names, MOST_TOLD)) or "free"}'

    def summary(self):
        """What a reader without the picture has to know of it."""
        told = some([self.slot_words(slot) for slot in range(self.spans.slots)], MOST_SLOTS, ' slots')
        count, charges = len(self.spans.queue), [span.label for span in self.spans.charges]
        told += [f'queue: {count} {"ship waits" if count == 1 else "ships wait"}'] if count else []
        told += [', '.join(some(charges, MOST_TOLD))] if charges else []
        words = '; '.join(told) or 'no station stands'
        return words[0].upper() + words[1:]
