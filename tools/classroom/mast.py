"""What two receivers on a mast hear, and the first sequence in it, which the library finds."""
from orders import ask, numbers_of
from plainly import NotUnderstood
from rehearse import BELOW

RECEIVERS = ['first', 'second']
BOTH = 'both'
LARGEST_SYMBOL = 127
LOST = 255     # stands where a receiver lost a symbol
COLUMNS = 24   # places in a row


def cell_of(heard, place):
    if place >= len(heard):
        return ''
    return heard[place] if heard[place] <= LARGEST_SYMBOL else '-'


def row_of(name, cells):
    return f'{name:6}{"".join(f"{cell:>4}" for cell in cells)}'.rstrip()


def where(receiver, place, length):
    return f": {length} symbols, in the {RECEIVERS[receiver]} receiver's bytes at places {place} to {place + length - 1}"


class Mast:
    """The bytes of each receiver that are handed over. Each method gives the lines to be told."""

    def __init__(self):
        self.heard = {receiver: [] for receiver in RECEIVERS}

    def hear(self, receiver, *symbols):
        for heard in self.with_bytes(receiver):
            heard += symbols
        return self.counted()

    def fade(self, receiver, *places):
        for heard in self.with_bytes(receiver, max(places) + 1):
            for place in places:
                heard[place] = LOST
        return self.show(*places)

    def drop(self, receiver, count):
        for heard in self.with_bytes(receiver, count):
            del heard[:count]
        return self.counted()

    def next(self, count=0):
        for heard in self.heard.values():
            del heard[:max(0, len(heard) - count)]
        return self.counted()

    def show(self, *places):
        most = max(map(len, self.heard.values()))
        if places and max(places) >= most:
            raise NotUnderstood(f'no receiver has a place {max(places)}')
        places = places or range(most)
        parts = [places[start:start + COLUMNS] for start in range(0, len(places), COLUMNS)]
        return [row for part in parts for row in self.rows(part)] or self.counted()

    def find(self):
        first, second = self.heard.values()
        row, words, *said = ask('mast', 'find', [len(first), *first, *second])
        _, *found = numbers_of(row)
        return [row, *(BELOW + line for line in [words + (where(*found[:3]) if found else ''), *said])]

    # ── what they have heard ──────────────────────────────────────────────────

    def with_bytes(self, receiver, count=0):
        """What one of them has heard, or each of both; all must have so many bytes."""
        chosen = RECEIVERS if receiver == BOTH else [receiver]
        for name in chosen:
            if len(self.heard[name]) < count:
                raise NotUnderstood(f'the {name} receiver has too few bytes: {len(self.heard[name])}, counted from place 0')
        return [self.heard[name] for name in chosen]

    def counted(self):
        first, second = map(len, self.heard.values())
        return [f'{BELOW}bytes: first {first}, second {second}']

    def rows(self, places):
        yield row_of('place', places)
        for receiver, heard in self.heard.items():
            yield row_of(receiver, [cell_of(heard, place) for place in places])
