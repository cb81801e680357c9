"""A transmission on its way: sent, spoiled, shown and read, by the library's own entries. A place is that of a character as it was sent."""
import collections

from orders import ask, numbers_of
from plainly import NotUnderstood
from rehearse import BELOW

NO_SYMBOL, NO_CHARACTER = 128, 1024   # the library's "none", and what stands for a character that the modem lost
NO_PHASING = 51
UNITS = 10
DX_PHASING, RX_PHASING = 6, 8
STRAY = '-'                           # the place of a character that was not sent
PARTS = ['format', *['address'] * 5, 'category', *['self-identification'] * 5, 'first telecommand', 'second telecommand',
         *['channel field'] * 3, 'odd or even']

Character = collections.namedtuple('Character', 'place part sent number')   # sent: the symbol; number: as it was received


def symbols_of(characters):
    return numbers_of(ask('air', 'symbols', characters)[0])


def places(count):
    """Each place of a transmission of so many symbols, in the order sent, with what stands there."""
    parts = [*PARTS, *['number'] * (count - len(PARTS) - 2), 'end', 'check']
    dx = [*['phasing'] * DX_PHASING, 'format', 'format, again', *parts[1:], 'end, again', 'end, again']
    rx = [*['phasing'] * RX_PHASING, *(f'repeat of DX{place}' for place in range(DX_PHASING + 1, len(dx) - 1))]
    for place, pair in enumerate(zip(dx, rx), 1):
        yield from zip((f'DX{place}', f'RX{place}'), pair)


def copies_of(symbol):
    """The places of a symbol's copies, symbols counted from 0: the format has four."""
    return [f'DX{8 + symbol}', f'RX{10 + symbol}'] if symbol else ['DX7', 'DX8', 'RX9', 'RX10']


def in_units(number):
    """The seven units of a symbol and the three of the count, in the order sent; of a lost character there are none."""
    units = ''.join('BY'[number >> unit & 1] for unit in range(UNITS)) if number != NO_CHARACTER else '-' * UNITS
    return f'{units[:7]} {units[7:]}'


def row_of(character, symbol):
    number, read = (STRAY if character.number == NO_CHARACTER else character.number), ('none' if symbol == NO_SYMBOL else symbol)
    changed = f', sent as {character.sent}' if symbol not in (NO_SYMBOL, character.sent) else ''
    return f'{character.place:5} {in_units(character.number)}  {number:>4}  {read:>4}  {character.part}{changed}'


class Air:
    """What was sent last, and what is received of it. Each method gives the lines to be told."""

    def __init__(self):
        self.symbols, self.received = [], []

    def send(self, *symbols):
        row, words = ask('air', 'write', symbols)
        answer, *written = numbers_of(row)
        if answer:
            self.symbols, self.received = [], []
            return [str(answer), f'{BELOW}{words}; nothing is on the air']
        self.symbols, sent = symbols, zip(places(len(symbols)), symbols_of(written), written)
        self.received = [Character(*place, symbol, number) for place, symbol, number in sent]
        return [f'{answer} {len(written)}', f'{BELOW}{words}: {len(symbols)} symbols in {len(written)} characters']

    def again(self):
        self.check_on_the_air()
        return self.send(*self.symbols)

    def stray(self, *symbols):
        self.check_on_the_air()
        characters = zip(symbols, numbers_of(ask('air', 'characters', symbols)[0]))
        return self.receive([Character(STRAY, 'stray', *each) for each in characters] + self.received)

    def lose(self, count):
        return self.receive(self.received[self.count_of(count):])

    def cut(self, count):
        return self.receive(self.received[:len(self.received) - self.count_of(count)])

    def spoil(self, *given):
        for index in [self.index_of(place) for place in given]:   # nothing is spoiled where one of them is not there
            self.change(index, NO_CHARACTER)
        return self.show(*given)

    def flip(self, place, *units):
        index = self.index_of(place)
        number = self.received[index].number
        if number == NO_CHARACTER:
            raise NotUnderstood(f'{place} is lost, and has no units')
        for unit in units:
            number ^= 1 << unit - 1
        self.change(index, number)
        return self.show(place)

    def show(self, *given):
        self.check_on_the_air()
        chosen = [self.received[self.index_of(place)] for place in given] if given else self.received
        return [row_of(*each) for each in zip(chosen, symbols_of([character.number for character in chosen]))]

    def read(self):
        self.check_on_the_air()
        row, words, *said = ask('air', 'read', [character.number for character in self.received])
        answer, *symbols = numbers_of(row)
        counted = f': {len(symbols)} symbols' + ', as sent' * (symbols == [*self.symbols]) if symbols else ''
        told = self.left(answer) if answer else self.compared(symbols)
        return [row, *(BELOW + line for line in [words + counted, *told, *said])]

    # ── what is received ──────────────────────────────────────────────────────

    def check_on_the_air(self):
        if not self.symbols:
            raise NotUnderstood('nothing is on the air')

    def receive(self, characters):
        self.received = characters
        return [f'{BELOW}{len(characters)} characters are received']

    def count_of(self, count):
        self.check_on_the_air()
        if count > len(self.received):
            raise NotUnderstood(f'only {len(self.received)} characters are received')
        return count

    def index_of(self, place):
        self.check_on_the_air()
        found = [index for index, character in enumerate(self.received) if character.place == place]
        if not found:
            raise NotUnderstood(f'{place} is not among what is received')
        return found[0]

    def change(self, index, number):
        self.received[index] = self.received[index]._replace(number=number)

    # ── what is read of it ────────────────────────────────────────────────────

    def good(self):
        """The symbol at each place that has one."""
        symbols = symbols_of([character.number for character in self.received])
        return {character.place: symbol for character, symbol in zip(self.received, symbols) if symbol != NO_SYMBOL}

    def left(self, answer):
        """What is good of a transmission that is refused."""
        good, received = self.good(), [character.place for character in self.received]
        if answer == NO_PHASING:
            phasing = [character.place for character in self.received if character.part == 'phasing' and character.place in good]
            return [f'left of its phasing: {", ".join(phasing) or "nothing"}']
        bad = [f'place {place} ({", ".join(copy + (" none" if copy in received else " not received") for copy in copies)})'
               for place in range(len(self.symbols)) if not good.keys() & set(copies := copies_of(place))]
        return [f'no good copy: {", ".join(bad)}'] if bad else []

    def compared(self, symbols):
        """How the symbols that were read stand to those that were sent, and which copies they came from."""
        good = self.good()
        copies = [next((copy for copy in copies_of(place) if copy in good), None) for place in range(len(symbols))]
        if symbols != [good.get(copy) for copy in copies]:
            return ['read from another start than that of what was sent']
        told = [f'place {place} is {read}, and was sent as {sent}'
                for place, (read, sent) in enumerate(zip(symbols, self.symbols)) if read != sent]
        repeats = [f'place {place} ({copy})' for place, copy in enumerate(copies) if copy != copies_of(place)[0]]
        return told + [f'from a repeat: {", ".join(repeats)}'] * bool(repeats)
