"""What the rules do with a slot: `step`, their one definition of an event, is run on a slot in each phase, with all else unknown."""
import re
from typing import NamedTuple

from reading import Definitions, NotUnderstood
from running import Built, Unknown, Way, ways
from station import CLOSED, UNOPENED, Slots
from words import ANSWERS, CHANGED, KEPT, PHASES, QUEUE, word

RULES = ['Places', 'Words', 'Waits', 'Heard', 'Station', 'Sound', 'Requests', 'Ashore', 'Calls', 'Verdict']


class Outcome(NamedTuple):
    """What an event does to a slot. Of the kinds, `goes` leads to another phase, and `changes` leaves the phase as it is."""
    kind: str
    text: str
    follows: str = ''

    def moves(self):
        return self.kind in ('goes', 'changes')


NO_WAIT, IGNORED, STAYS = Outcome('no wait', 'no such wait'), Outcome('ignored', 'ignored'), Outcome('stays', 'stays')


def is_event(question):
    return question.startswith(('event', 'meaning'))


def settled(cases):
    """Cases, each with what was asked and an outcome, without the questions that make no difference."""
    if all(outcome == cases[0][1] for _, outcome in cases):
        return [([], cases[0][1])]
    question, by_answer = cases[0][0][0][0], {}
    for ((_, answer), *asked), outcome in cases:
        by_answer.setdefault(answer, []).append((asked, outcome))
    parts = {answer: settled(found) for answer, found in by_answer.items()}
    first = next(iter(parts.values()))
    if all(part == first for part in parts.values()):
        return first
    return [([(question, answer), *asked], outcome) for answer, part in parts.items() for asked, outcome in part]


def conditions(asked):
    """The words for what was asked: a test goes by its name, anything else by where it comes from."""
    names = ((question.split()[0] if question.split()[0] in CLOSED else question, answer) for question, answer in asked)
    return [word(ANSWERS, f'{name} {answer}') for name, answer in names]


class Rules:
    """Of each phase: its waits, and for each event the cases, what becomes of the slot and of the queue."""

    def __init__(self, root):
        paths = [f'{root}/crates/rules/specs/Rules/{module}.antt' for module in RULES]
        self.definitions = Definitions([*paths, f'{root}/crates/sequence/specs/Refusals.antt'])
        blank = Way(self.definitions, UNOPENED, [])
        self.slots = {self.phase_of(blank, slot): slot for slot in self.built('Slot')}
        self.waits = {phase: self.waits_of(slot) for phase, slot in self.slots.items()}
        self.queue_wait = self.queue_waits()
        self.queue = {phase: self.stepped(slot, queue_after) for phase, slot in self.slots.items()}
        self.events = {phase: self.events_of(phase) for phase in self.slots}

    def built(self, kind):
        """Every value of a type as far as the rules' own types go: numbers, records and lists are unknown."""
        for constructor in self.definitions.variants[kind]:
            rows = [[]]
            for place, part in enumerate(self.definitions.arguments[constructor]):
                parts = list(self.built(part)) if part in self.definitions.variants else [Unknown(f'{constructor}.{place}')]
                rows = [[*row, one] for row in rows for one in parts]
            yield from (Built(constructor, row) for row in rows)

    def typed(self, slot):
        return zip(self.definitions.arguments[slot.name], slot.given, strict=True)

    def phase_of(self, way, slot):
        """The slot's constructor, or those of the rules' own types inside it."""
        inside = [way.built(part, kind).name for kind, part in self.typed(slot) if kind in self.definitions.variants]
        return ' '.join(inside) or slot.name

    def kept(self, slot):
        """The words for what a slot keeps."""
        for kind, part in self.typed(slot):
            if isinstance(part, Built):
                yield from self.kept(part)
            else:
                fields = [f'{kind}.{field}' for field in self.definitions.fields.get(kind, [])]
                yield from (word(KEPT, name) for name in fields or [part.text])

    def ways(self, work):
        return list(ways(self.definitions, UNOPENED, work))

    # ── waits ─────────────────────────────────────────────────────────────────

    def noted(self, test, held):
        def work(way):
            way.noted = []
            way.holds(way.run(test, [Unknown('clock'), held]))
            return way.noted
        return self.ways(work)

    def waits_of(self, slot):
        """The waits that run in a slot, each with its cases: what was asked, and how long it is."""
        listed = Built('∷', [slot, Built('[]')])
        running = {}
        for _, dues in self.ways(lambda way: list(dues_in(way, way.run('slot_table', [Unknown('place'), listed])))):
            running.update(dues)
        lengths = self.noted('slot_fits', slot)
        unknown = {due for _, noted in lengths for due, _ in noted} ^ set(running)
        if unknown:
            raise NotUnderstood(f'a wait without its length, or a length without its wait: {unknown}')
        return {wait: length_cases(lengths, due) for due, wait in running.items()}

    def queue_waits(self):
        """How long a ship waits in the queue: one length, whatever else."""
        [(_, [(_, length)])] = self.noted('place_fits', Unknown('waiting'))
        return length

    # ── events ────────────────────────────────────────────────────────────────

    def stepped(self, slot, outcome):
        """For each event its cases: what was asked beside the event, and the outcome."""
        station = {'clock': Unknown('clock'), 'slots': Slots(slot), 'queue': Unknown('queue'), 'last_call': Unknown('last call')}
        given, cases = [Unknown('config'), station, Unknown('event')], {}
        for asked, result in self.ways(lambda way: outcome(way, way.run('step', given))):
            event = ' '.join(answer for question, answer in asked if is_event(question))
            cases.setdefault(event, []).append(([one for one in asked if not is_event(one[0])], result))
        return {event: settled(found) for event, found in cases.items()}

    def events_of(self, phase):
        slot, slot_waits = self.slots[phase], {wait for waits in self.waits.values() for wait in waits}
        events = self.stepped(slot, lambda way, out: self.slot_after(way, phase, out))
        for wait in slot_waits - set(self.waits[phase]):
            events[f'tick some {wait}'] = [([], NO_WAIT)]
        return events

    def slot_after(self, way, phase, out):
        answer, before, after = way.shown(out['answer']), self.slots[phase], way.value(way.field(out['next'], 'slots').slot)
        if way.shown(after) == way.shown(before):
            return {'0': STAYS, '1': IGNORED}.get(answer, Outcome('refused', f'refused {answer}'))
        if answer != '0':
            raise NotUnderstood(f'a slot is changed by an event that is answered {answer}')
        follows = self.phase_of(way, after)
        self.check_waits(follows, way.shown(after))
        if follows != phase:
            return Outcome('goes', word(PHASES, follows), follows)
        return Outcome('changes', changes(way, before, after))

    def check_waits(self, phase, slot):
        """A wait that an event begins is as long as soundness says."""
        begun = {int(length) for length in re.findall(r'due_after [^()]* (\d+)', slot)}
        known = {length for cases in self.waits[phase].values() for _, length in cases}
        if begun - known:
            raise NotUnderstood(f'in the phase {phase} an event begins a wait of {begun}, and soundness allows {known}')


def changes(way, before, after):
    """The words for what is changed of a slot whose phase stays."""
    names = []
    for place, (old, new) in enumerate(zip(before.given, after.given)):
        if way.shown(new) != way.shown(old):
            new = way.value(new)
            names.append(f'{after.name}.{place} {new.name}' if isinstance(new, Built) else f'{after.name}.{place}')
    return ' and '.join(word(CHANGED, name) for name in names)


def dues_in(way, dues):
    """Of a list of waits that run: when each falls due, and which it is."""
    dues = way.built(dues, 'List')
    if dues.name == '∷':
        first, others = dues.given
        yield way.shown(way.field(first, 'at')), way.built(way.field(first, 'what'), 'Wait').name
        yield from dues_in(way, others)


def length_cases(lengths, due):
    cases = settled([(asked, dict(noted).get(due)) for asked, noted in lengths])
    cases = [(asked, length) for asked, length in cases if length is not None]
    always = [one for one in cases[0][0] if all(one in asked for asked, _ in cases)]
    return [([one for one in asked if one not in always], length) for asked, length in cases]


def queue_after(way, out):
    """The words for what becomes of the queue, one after the other."""
    found = (word(QUEUE, name) for name in way.shown(way.field(out['next'], 'queue')).split())
    return [one for one in found if one]
