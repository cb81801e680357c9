"""An event's way from C to the rules and back, on the example of a working call. Each name is looked up in the code."""
import glob, re

from drawing import Drawing
from reading import NotUnderstood

WIDTH, HEIGHT, STEP = 960, 1120, 100
LEFT, RIGHT, FULL, HALF = 20, 540, 400, 230
# A step: its function and crate, where it stands, what it does, the definitions that its contract names.
STEPS = {
    'coast_heard_on_slot': ('coast', LEFT, 1, FULL, 'the entry for this kind of event', ['returned', 'station_after', 'room_left']),
    'station_from': ('lent_layout', LEFT, 2, FULL, 'bytes to a station by value', ['station_from']),
    'heard_on_slot, heard_there, hears': ('station', LEFT, 3, FULL, 'the method for this kind of event', ['stepped_by', 'room_after', 'Judged']),
    'looked': ('station', LEFT, 4, FULL, 'is it sound, and which wait is due first', ['Sees']),
    'judge_slot': ('gate', LEFT, 5, FULL, "the refusals, in document 01's order", ['asked_on_slot', 'first_refusal']),
    'read': ('reading', LEFT, 6, FULL, 'symbols to their meaning, or a refusal', ['reading_of']),
    'heard_in': ('hearing', LEFT, 7, FULL, 'which kind of sequence, and who asks for what', ['heard_of', 'addressed']),
    'by_kind': ('station', LEFT, 8, FULL, 'which rule it is for', ['by_kind']),
    'working_call': ('deciding', LEFT, 9, FULL, "an outcome, by the slot's phase", ['working_by']),
    'enact': ('station', RIGHT, 9, FULL, 'the outcome is carried out', ['out_at', 'handed_back', 'room_laid']),
    'tell': ('telling', RIGHT, 8, FULL, 'its actions are laid into the room', ['telling', 'acts_of']),
    'turn_of, queue_change': ('outcomes', RIGHT, 7, FULL, 'what becomes of the slot, and of the queue', ['turn_of', 'queue_change']),
    'refused': ('station', RIGHT, 6, HALF, 'the station as it was', ['due_image']),
    'hand_back': ('coast', RIGHT, 2, FULL, 'one number: answer, count, next due time', ['packed', 'kept']),
    'lay_station': ('lent_layout', RIGHT, 1, FULL, 'the next station to bytes, if accepted', ['station_laid']),
}
CALLS = {  # what each calls
    'coast_heard_on_slot': ['station_from', 'heard_on_slot', 'hand_back'],
    'heard_on_slot, heard_there, hears': ['looked', 'judge_slot', 'read', 'refused', 'heard_in', 'by_kind', 'enact'],
    'by_kind': ['working_call'], 'enact': ['tell', 'turn_of', 'queue_change'], 'hand_back': ['lay_station'],
}
# Where definitions and laws say what the picture says of them: a file, what stands there, and the names in that line.
SAID = {
    'crates/deciding/proofs/RuleLaws.antt': ('pub working-is : ', ['out_of', 'working_by', 'working_on']),
    'crates/station/specs/Step.antt': ('stepped_by s e = ', ['act', 'refusal']),
}
NOTES = ['In brackets the crate, below it the definitions that', "the contract names. stepped_by is the rules' own act,",
         'or their refusal.']


# ── held to the code ──────────────────────────────────────────────────────────

def text_of(path):
    with open(path, encoding='utf-8') as file:
        return file.read()


def functions(root, step):
    """The contracts of a step's functions, and their bodies."""
    source = ''.join(map(text_of, sorted(glob.glob(f'{root}/crates/{STEPS[step][0]}/src/*.rt'))))
    for name in step.split(', '):
        found = re.search(rf'^( *)(?:pub(?:\(crate\))? )?(?:extern "C" )?fn {name}(\(.*?)^\1\{{\n(.*?)^\1\}}', source, re.M | re.S)
        if not found:
            raise NotUnderstood(f'no function {name} in the crate {STEPS[step][0]}')
        yield found[2], found[3]


def must_name(what, text, names):
    for name in names:
        if not re.search(rf'(?<![\w-]){re.escape(name)}(?![\w-])', text):
            raise NotUnderstood(f'{what} does not name {name}')


def check(root):
    for step, (*_, definitions) in STEPS.items():
        must_name(f'the contract of {step}', ''.join(contract for contract, _ in functions(root, step)), definitions)
    for caller, called in CALLS.items():
        must_name(caller, ''.join(body for _, body in functions(root, caller)), called)
    for path, (begins, names) in SAID.items():
        line = re.search(rf'{re.escape(begins)}.*', text_of(f'{root}/{path}'))
        must_name(f'{path}, {begins!r},', line[0] if line else '', names)


# ── drawn ─────────────────────────────────────────────────────────────────────

def height(row):
    return 20 + row * STEP


def draw_step(drawing, step):
    crate, left, row, width, does, definitions = STEPS[step]
    drawing.box((left, height(row), width, 74), [f'{step} ({crate})', does, f'contract: {", ".join(definitions)}'])


def draw_hosts(drawing):
    lends = ['a host in C', "lends the station's bytes, the symbols heard,", 'and a room for the actions']
    has = ['the host again', 'has the number, the next station in its bytes,', 'and the actions in its room']
    drawing.box((LEFT, height(0), FULL, 74), lends, 'freed')
    drawing.box((RIGHT, height(0), FULL, 74), has, 'freed')


def draw_arrows(drawing):
    down = [(LEFT + FULL / 2, height(row) + 74, height(row + 1)) for row in range(9)]
    up = [(320, 9, 8), (320, 8, 7), (320, 7, 2), (115, 6, 2), (200, 2, 1), (200, 1, 0)]
    up = [(RIGHT + x, height(row), height(to) + 74) for x, row, to in up]
    for x, start, end in down + up:
        drawing.arrow('an arrow', [(x, start), (x, end)])
    for row, word in ((6, 'refused'), (9, 'outcome')):
        drawing.arrow('an arrow', [(LEFT + FULL, height(row) + 37), (RIGHT, height(row) + 37)])
        drawing.text((LEFT + FULL + RIGHT) / 2, height(row) + 29, [word], 'middle')
    drawing.text(LEFT + FULL / 2 + 9, height(7) - 8, ['accepted'], 'start')


def draw_rule(drawing):
    rule = ['working_on (rules)', 'the rule itself: a definition, and no code', 'law working-is: what the outcome means (out_of)']
    drawing.box((LEFT, height(10), FULL, 74), rule, 'freed')
    drawing.arrow('an arrow', [(LEFT + FULL / 2, height(9) + 74), (LEFT + FULL / 2, height(10))])
    drawing.text(RIGHT, height(10) + 19, NOTES, 'start')


def described():
    steps = [f'{step} of {crate}, {does}: {", ".join(definitions)}' for step, (crate, *_, does, definitions) in STEPS.items()]
    law = 'The outcome is what the rule working_on says, by the law working-is.'
    return f'Each step with the definitions that its contract names. {"; ".join(steps)}. {law}'


def event(root):
    check(root)
    drawing = Drawing(WIDTH, HEIGHT)
    draw_hosts(drawing)
    for step in STEPS:
        draw_step(drawing, step)
    draw_arrows(drawing)
    draw_rule(drawing)
    return drawing.svg("An event's way from C to the rules and back", described())
