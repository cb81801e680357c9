"""Where each line of a script stands along the picture. A longer time is wider, by its logarithm, and every label has its room; where the
width of a page is used up, a new strip begins. Whole numbers alone, so that every machine draws the same."""
LEFT, MARGIN = 118, 18               # the rows' names, and what is free before the first line
NARROWEST, WIDEST = 760, 1060        # a strip
LARGE, SMALL = 9, 7                  # the width of a letter, bold and large or as usual: of no usual font a text is wider


def width_of(text, letter=SMALL):
    return len(text) * letter


def log_of(tenths):
    """Sixteen times the logarithm to base 2 of one more, straight between two powers."""
    power = (tenths + 1).bit_length() - 1
    return 16 * power + ((tenths + 1) * 16 >> power) - 16


def stride(tenths):
    return 16 + log_of(tenths) * 5 // 16 * 2


def seconds_of(tenths):
    """As the words have it: 26.1 s."""
    return f'{tenths // 10}.{tenths % 10} s'


def answer_of(step):
    return int(step.reply[0].split()[0])


def below(step):
    """What stands below an event's label: whose it is; the time that the line gives where the clock shows another; how it was answered."""
    answer, time = answer_of(step), step.event.time
    who = [] if step.event.who is None else [f'{step.event.who:09}']
    when = [] if time in (None, step.clock) else [f'at {time}']
    return who + when + ([] if answer == 0 else ['ignored'] if answer == 1 else [f'refused: {answer}'])


def room_of_marks(step):
    events = [width_of(words) + 28 for words in [step.event.label, *below(step)]]
    return max(events + [width_of(does.label) + 24 for does in step.does])


def half_clock(step):
    """Half of what the clock at the head of a column takes."""
    return max(width_of(str(step.clock)), width_of(seconds_of(step.clock))) // 2 + 4


def room_of_span(span):
    label = width_of(span.label, LARGE if span.kind in ('phase', 'charge') else SMALL)
    return 14 + max(label, width_of(str(span.ship)) if span.kind == 'phase' and span.ship else 0)


class Strip:
    """The lines from `first` on that stand beside each other, with their places."""

    def __init__(self, first, room):
        self.first, self.places, self.right = first, [LEFT + max(MARGIN, room)], 0

    @property
    def last(self):
        return self.first + len(self.places) - 1

    def at(self, column):
        return self.places[column - self.first]

    def begin_of(self, span):
        return self.at(span.begin) if span.begin >= self.first else LEFT

    def end_of(self, span):
        return self.right if span.end is None or span.end > self.last else self.at(span.end)

    def has(self, span):
        return span.begin <= self.last and (span.end is None or span.end >= self.first)

    def place_of(self, steps, time, after):
        """The place of a time from the column `after` on, and whether it lies in this strip."""
        column = after
        while column < self.last and steps[column + 1].clock <= time:
            column += 1
        past = max(time - steps[column].clock, 0)
        if column == self.last:
            place = self.at(column) + stride(past)
            return min(place, self.right), place <= self.right
        whole = max(log_of(steps[column + 1].clock - steps[column].clock), 1)
        return self.at(column) + (self.at(column + 1) - self.at(column)) * log_of(past) // whole, True


class Rooms:
    """What each column needs: of the marks at it, of all that begins at it, and which spans end at it."""

    def __init__(self, steps, spans):
        self.marks, self.clocks = [room_of_marks(step) for step in steps], [half_clock(step) for step in steps]
        self.begun, self.ending = self.marks[:], [[] for _ in steps]
        for span in spans:
            self.begun[span.begin] = max(self.begun[span.begin], room_of_span(span))
            if span.end is not None:
                self.ending[span.end].append((span, room_of_span(span)))


def next_place(strip, steps, rooms, column):
    """The least place of the column behind the strip's last one."""
    before = strip.at(column - 1)
    wanted = [before + stride(steps[column].clock - steps[column - 1].clock), before + rooms.marks[column - 1]]
    wanted.append(before + rooms.clocks[column - 1] + rooms.clocks[column])
    return max(wanted + [strip.begin_of(span) + room for span, room in rooms.ending[column]])


def within(steps, rooms, width):
    """The strips, none wider than this but where one line alone is."""
    found = [Strip(0, rooms.clocks[0])]
    for column in range(1, len(steps)):
        place = next_place(found[-1], steps, rooms, column)
        if place + rooms.begun[column] > width:
            found.append(Strip(column, rooms.clocks[column]))
        else:
            found[-1].places.append(place)
    for strip in found:
        strip.right = max(width, strip.places[-1] + rooms.begun[strip.last])
    found[-1].right = found[-1].places[-1] + max(rooms.begun[-1], 60)
    return found


def strips(steps, spans):
    """As few as there can be, and then as narrow."""
    rooms = Rooms(steps, spans)
    few = len(within(steps, rooms, WIDEST))
    return next(found for width in range(NARROWEST, WIDEST + 20, 20) for found in [within(steps, rooms, width)] if len(found) <= few)
