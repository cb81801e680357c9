"""One strip of the picture: the lines of the script and the clock at its head, then a row for the station, one for each slot with its
phases, waits, charges, events and actions, and the queue."""
from columns import LARGE, answer_of, below, seconds_of
from shapes import BAR, LINE, MARK, WAIT, action_mark, bar, event_mark, fitting, free_line, line, text, titled, wait_bar
from spans import EARLY, FREE, RAN_OUT, TOGETHER

HEAD, PAD = 52, 6
STYLES = {1: 'asked', 4: 'asked', 2: 'called', 3: 'called', 10: 'called', 11: 'called', 5: 'line', 9: 'line', 12: 'line',
          6: 'talks', 7: 'held', 8: 'taken'}
SIGNS = {RAN_OUT: 'fires', TOGETHER: 'together'}   # at the end of a wait


class Drawn:
    """A strip under way: its parts, and how far down it has come."""

    def __init__(self, played, strip):
        self.played, self.strip, self.y, self.parts = played, strip, 0, []
        self.columns = range(strip.first, strip.last + 1)

    def opens(self, span):
        return span.begin < self.strip.first, span.end is None or span.end > self.strip.last

    def ends(self, span):
        return self.strip.begin_of(span), self.strip.end_of(span)

    # ── the head, and lines across ────────────────────────────────────────────

    def head(self):
        for row, name in enumerate(('line', 'clock, tenths', 'clock, seconds')):
            self.parts.append(text(8, 14 + row * LINE, name, 'dim'))
        before = None
        for column in self.columns:
            x, clock = self.strip.at(column), self.played.steps[column].clock
            self.parts.append(text(x, 14, str(column + 1), 'number'))
            style = 'tick dim' if clock == before else 'tick'
            self.parts += [text(x, 30, str(clock), style), text(x, 46, seconds_of(clock), style)]
            before = clock
        self.y = HEAD

    def across(self, style):
        self.parts.append(line(0, self.y, self.strip.right, self.y, style))

    def grid(self):
        lines = ''.join(f'M{self.strip.at(column)} {HEAD}V{self.y}' for column in self.columns)
        self.parts.insert(0, f'<path class="grid" d="{lines}"/>')

    # ── marks ─────────────────────────────────────────────────────────────────

    def events(self, chosen):
        """The events of these columns, in one line of marks."""
        most = 0
        for column in chosen:
            step, x = self.played.steps[column], self.strip.at(column)
            parts = [event_mark(x, self.y + 11, step.event.letter, answer_of(step)), text(x + 14, self.y + 15, step.event.label)]
            parts += [text(x + 14, self.y + 29 + row * 14, words, 'dim') for row, words in enumerate(below(step))]
            self.parts.append(titled(self.played.event_words(column), *parts))
            most = max(most, MARK + 14 * len(below(step)) + 4)
        self.y += most

    def actions(self, slot):
        """What is to be done there, one below the other in the order told."""
        most = 0
        for column in self.columns:
            mine = [place for place, does in enumerate(self.played.steps[column].does) if does.slot == slot]
            for row, place in enumerate(mine):
                label = self.played.steps[column].does[place].label
                mark = action_mark(self.strip.at(column), self.y + 12 + row * LINE, label)
                self.parts.append(titled(self.played.action_words(column, place), mark))
            most = max(most, len(mine))
        self.y += most * LINE + (2 if most else 0)

    # ── what lasts ────────────────────────────────────────────────────────────

    def phases(self, spans):
        high = WAIT if all(span.phase == FREE for span in spans) else BAR
        for span in spans:
            x, to_x = self.ends(span)
            if span.phase == FREE:
                parts = free_line(x, self.y + high // 2, to_x, span.label)
            else:
                parts = [bar(STYLES[span.phase], x, self.y, to_x, BAR, self.opens(span))]
                parts += fitting(x, self.y + 15, to_x, span.label, LARGE, 'name') + fitting(x, self.y + 30, to_x, str(span.ship or ''))
            self.parts.append(titled(self.played.span_words(span), *parts))
        self.y += high + 3

    def ends_here(self, span):
        return span.end is not None and span.end <= self.strip.last

    def sign(self, span):
        return SIGNS.get(self.played.ending(span)) if self.ends_here(span) else None

    def due_place(self, span):
        """Where a wait that was ended here would have fallen due."""
        if not self.ends_here(span) or self.played.ending(span) != EARLY:
            return None
        return self.strip.place_of(self.played.steps, span.due, span.end)

    def waits(self, spans):
        lanes = []
        for span in spans:
            (x, to_x), due = self.ends(span), self.due_place(span)
            lane = next((lane for lane, free in enumerate(lanes) if free <= x), len(lanes))
            lanes[lane:lane + 1] = [max(to_x, due[0] if due else 0)]
            parts = wait_bar(x, self.y + lane * (WAIT + 3), to_x, self.opens(span), span.label, due, self.sign(span))
            self.parts.append(titled(self.played.span_words(span), *parts))
        self.y += len(lanes) * (WAIT + 3)

    def charges(self, spans):
        for span in spans:
            x, to_x = self.ends(span)
            parts = [bar('charge', x, self.y, to_x, WAIT, self.opens(span))] + fitting(x, self.y + 13, to_x, span.label, LARGE, 'name')
            self.parts.append(titled(self.played.span_words(span), *parts))
        self.y += (WAIT + 3) if spans else 0

    # ── rows ──────────────────────────────────────────────────────────────────

    def named(self, y, *names):
        for row, name in enumerate(names):
            self.parts.append(text(8, y + 17 + row * LINE, name, '' if row else 'name'))

    def station_row(self):
        self.across('edge')
        top, self.y = self.y, self.y + PAD
        self.named(top, 'station')
        self.events([column for column in self.columns if self.played.row_of(column) is None])
        self.actions(None)
        self.y = max(self.y, top + 26)

    def goes_through(self, span):
        return span.begin < self.strip.first and (span.end is None or span.end > self.strip.last)

    def quiet(self, slot, phases, waits):
        """Whether a slot only stays in its phase."""
        steps = self.played.steps[self.strip.first:self.strip.last + 1]
        marked = any(does.slot == slot for step in steps for does in step.does) or any(self.played.row_of(c) == slot for c in self.columns)
        return not marked and len(phases) == 1 and (phases[0].phase == FREE or all(map(self.goes_through, phases + waits)))

    def through(self, span, waits):
        """A quiet slot, in one line."""
        if span.phase == FREE:
            self.phases([span])
            return
        x, to_x = self.ends(span)
        words = ', '.join([f'{span.label} {span.ship or ""}'.strip(), *(wait.label for wait in waits)])
        parts = bar(STYLES[span.phase], x, self.y, to_x, WAIT, self.opens(span)), *fitting(x, self.y + 13, to_x, words)
        self.parts.append(titled(self.played.span_words(span), *parts))
        self.y += WAIT + 3

    def slot_row(self, slot):
        phases, waits, charges = ([span for span in spans if span.row == slot and self.strip.has(span)]
                                  for spans in (self.played.spans.phases, self.played.spans.waits, self.played.spans.charges))
        self.across('edge')
        top, self.y = self.y, self.y + PAD
        if self.quiet(slot, phases, waits):
            self.through(phases[0], waits)
        else:
            self.events([column for column in self.columns if self.played.row_of(column) == slot])
            if phases:
                self.phases(phases)
            self.waits(waits)
        self.charges(charges)
        self.actions(slot)
        high = self.y > top + 34
        self.y = max(self.y + 2, top + (42 if high else 26))
        channel = self.played.channel(slot)
        if high:
            self.named(top, f'slot {slot}', f'channel {channel}')
        else:
            self.named(top, f'slot {slot}')
            self.parts.append(text(72, top + 17, f'ch. {channel}'))

    def queue_rows(self):
        self.across('edge')
        self.named(self.y, 'queue')
        top, self.y = self.y, self.y + PAD
        spans = [span for span in self.played.spans.queue if self.strip.has(span)]
        rows = {row: place for place, row in enumerate(sorted({span.row for span in spans}))}
        for span in spans:
            (x, to_x), y = self.ends(span), self.y + rows[span.row] * (WAIT + 3)
            parts = wait_bar(x, y, to_x, self.opens(span), span.label, None, self.sign(span))
            self.parts.append(titled(self.played.span_words(span), *parts))
        self.y = max(self.y + len(rows) * (WAIT + 3) + 2, top + 26)


def draw(played, strip):
    """The parts of a strip, and its height."""
    drawn = Drawn(played, strip)
    drawn.head()
    drawn.station_row()
    for slot in range(played.spans.slots):
        drawn.slot_row(slot)
    if played.spans.slots:
        drawn.queue_rows()
    drawn.across('edge')
    drawn.grid()
    return drawn.parts, drawn.y
