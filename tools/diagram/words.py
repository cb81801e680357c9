"""The words for what the rules name. A name without its word is an error, so that nothing new is left out."""
from reading import NotUnderstood

PHASES = {
    'free': 'free', 'taken': 'taken', 'offered': 'offered', 'first_ring_back': 'ring-back', 'second_ring_back': 'ring-back repeated',
    'acknowledged': 'acknowledged', 'first_call': 'called', 'second_call': 'called again', 'ringing': 'ringing',
    'dialling': 'dialling', 'dialled_out': 'dialled out', 'answered': 'answered', 'held': 'hold',
}
EVENTS = {
    'on_channel70 call_request': 'call request', 'on_channel70 data_request': 'data request', 'from_ashore': 'call from shore',
    'on_channel70 bq': 'BQ', 'on_channel70 declined': 'BQ with 104', 'on_slot heard working_call': 'working call',
    'on_slot heard end_of_call': 'end of call', 'on_slot signal line_dialled_out': 'dialling ended', 'on_slot signal line_lifted': 'off-hook',
    'on_slot signal line_hung': 'on-hook', 'on_slot signal carrier_heard': 'carrier up', 'on_slot signal carrier_lost': 'carrier down',
    'on_slot operator hand_takes': 'operator takes', 'on_slot operator hand_gives': 'operator gives back', 'tick some main': 'wait due',
    'tick some loss': 'carrier wait due', 'tick some of_queue': 'queue wait due', 'tick none': 'tick with nothing due',
    'on_channel70 working_call': 'working call on channel 70', 'on_channel70 end_of_call': 'end of call on channel 70',
    'on_channel70 nothing': 'any other sequence on channel 70', 'on_slot heard call_request': 'call request on the working channel',
    'on_slot heard data_request': 'data request on the working channel', 'on_slot heard bq': 'BQ on the working channel',
    'on_slot heard declined': 'BQ with 104 on the working channel', 'on_slot heard nothing': 'any other sequence on the working channel',
}
# What the rules ask, and each answer: from whom a sequence is, and for whom a call from shore.
ANSWERS = {
    'is true': 'from its ship', 'is false': 'from another ship', 'same true': 'the same request', 'same false': 'another request',
    'ltb true': 'the queue has room', 'ltb false': 'the queue is full', 'queue []': 'nobody waits', 'queue ∷': 'a ship waits',
    'is none': 'from a ship that does not wait', 'is some': 'from a ship that waits', 'is_for true': 'for its ship',
    'is_for false': 'for another ship', 'is_for none': 'for a ship that does not wait', 'is_for some': 'for a ship that waits',
    'is_free here': 'no lower slot is free', 'is_free elsewhere': 'a lower slot is free', 'is_free none': 'no slot is free',
    'busy.0 .request .mode simplex': 'simplex', 'busy.0 .request .mode duplex': 'duplex', 'busy.2 none': 'carrier present',
    'busy.2 some': 'carrier absent',
}
OF_OTHERS = {'from another ship', 'for another ship'}
# What a slot keeps: each argument of its constructors, and each field of their records.
KEPT = {
    'Dealing.request': 'the request', 'Dealing.call_number': 'the call number', 'pending.2': 'the due time',
    'dialling.0': "the dialling's due time", 'dialled_out.0': "the reply's due time", 'answered.0': 'since when',
    'busy.2': "a lost carrier's due time", 'held.1': 'the duration told', 'held.2': 'the due time',
}
# What may change of it while the phase stays.
CHANGED = {'pending.1': 'new call', 'pending.2': 'new wait', 'busy.2 none': 'no carrier wait', 'busy.2 some': 'carrier wait begun'}
WAITS = {'main': 'wait', 'loss': 'carrier wait', 'of_queue': 'queue wait'}
# The queue as it was, without its oldest ship, and what is done with either.
QUEUE = {
    'queue': '', '[]': '', 'queue.∷.1': 'the oldest leaves', '++': 'that ship joins', 'drop_at': 'that ship leaves',
    'mod_at': 'that ship asks for something else, its place and due time kept',
}


def word(table, name):
    if name not in table:
        raise NotUnderstood(f'no word for {name!r}: tools/diagram/words.py wants one')
    return table[name]


def listed(words, last):
    """One, two or more: a, b or c."""
    *before, end = words
    return f'{", ".join(before)} {last} {end}' if before else end


def lasting(tenths):
    seconds = tenths / 10
    return f'{tenths} ({seconds / 60:g} min)' if seconds > 60 else f'{tenths} ({seconds:g} s)'
