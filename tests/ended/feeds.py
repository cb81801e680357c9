"""A feed for the example host, drawn from a seed: calls that run into each other, with all that may go wrong."""
import random

SHIPS = [('211000001', 'duplex', '5551234'), ('232000002', 'simplex', '020123'), ('257000003', 'duplex', '7'),
         ('244000004', 'simplex', '112233'), ('265000005', 'duplex', '99')]
CHANNELS = [26, 27]
LATENESS = ['0', '0', '0.4', '3.0', '25.0']
ODD = ['tick', 'tick', 'take {c}', 'give-back {c}', 'up {c}', 'off-hook 12', 'heard 70 symbols 1 2 3', 'hears nothing',
       'heard 70 {ship} asks data {number}', 'late {late}', 'late {late}']
BETWEEN_CALLS = 110   # tenths
LONGEST_STEP = 90     # tenths


def end_of_a_call(chance):
    return chance.choice([['heard {c} {ship} ends {number}'] * 2, ['on-hook {c}'], ['down {c}'], ['down {c}', 'up {c}', 'down {c}'], []])


def steps_of_a_call(chance):
    """A call as a ship and the shore may make it; the channel is guessed, since the station chooses it."""
    end = end_of_a_call(chance)
    asks = ['heard 70 {ship} asks {mode} {number}'] * chance.choice([1, 1, 2])
    agrees = ['heard 70 {ship} agrees {c} {mode} {number}'] * chance.choice([0, 1])
    dialled = ['dialled {c}'] * chance.choice([0, 1, 1, 2])
    calls = ['heard {c} {ship} calls {mode} {number}', *dialled, 'off-hook {c}']
    return [*asks, *agrees, *calls, chance.choice(ODD), *end, chance.choice(ODD)]


def steps_from_ashore(chance):
    """A call that somebody ashore makes. One of the two channels is right: the ship agrees to either, and often comes to either."""
    asks = ['heard 70 {ship} asks {mode} {number}'] * chance.choice([0, 0, 1])
    agrees = [f'heard 70 {{ship}} agrees {channel} {{mode}} {{number}}' for channel in CHANNELS] * chance.choice([0, 1, 1])
    answer = chance.choice([['heard 70 {ship} declines {number}'], ['up {c}', 'off-hook {c}'], [f'up {channel}' for channel in CHANNELS]])
    return ['from-ashore {ship} {mode} {number}', *asks, *agrees, *answer, *end_of_a_call(chance), chance.choice(ODD)]


def drawn(seed, calls):
    """The feed's bytes. Twice the station is set up anew, and time begins again at 0; behind the second time calls come from ashore."""
    chance = random.Random(seed)
    text = ''
    for channels, steps in (CHANNELS, steps_of_a_call), (CHANNELS[::-1], steps_of_a_call), (CHANNELS, steps_from_ashore):
        happens = []
        for number in range(calls // 3):
            ship, mode, dialled = chance.choice(SHIPS)
            words = {'ship': ship, 'mode': mode, 'number': dialled, 'c': chance.choice(CHANNELS)}
            time = number * BETWEEN_CALLS
            for step in steps(chance):
                time += chance.randrange(LONGEST_STEP)
                happens.append((time, step.format(late=chance.choice(LATENESS), **words)))
        happens.sort(key=lambda one: one[0])
        text += f'\n# Drawn.\nstation 002001234 on {" ".join(map(str, channels))}\n'
        text += ''.join(f'{time // 10}.{time % 10} {words}\n' for time, words in happens)
    return text.encode()
