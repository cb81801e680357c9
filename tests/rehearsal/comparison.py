"""Two script programs on the same lively scripts, up to the first that they differ on, and whether enough was tried."""
import collections, itertools, os, sys

import rehearsals as r
import shrinking

ANSWERS = [0, 1, *range(11, 21), *range(31, 39), 40, 41]   # 21, 29 and 30 are for hosts: no script reaches them
ACTIONS = range(1, 11)
ENOUGH_ANSWERS, ENOUGH_SITUATIONS = 100, 20


def tell(words):
    print(f'{os.path.basename(sys.argv[0])}:', words, flush=True)


def one_script(room, model, trial, seed):
    """The seed, its script, what was reached, the model's answers, and whether the two agree."""
    script, reached = room.script(seed)
    wanted, got = r.said(model, script), r.said(trial, script)
    return seed, script, reached, r.answers_of(wanted), wanted == got


def tell_difference(model, trial, seed, script):
    lines, found = shrinking.shortest(model, trial, script)
    if not found:
        tell(f'the script of seed {seed} differs in one run and not in the next')
        return
    tell(f'the script of seed {seed} differs. The shortest script found that still does, {len(lines)} lines:')
    for line in lines:
        print(r.shown(line))
    tell(f'its last line should give: {r.shown(found.wanted)}')
    tell(f'and the program prints:    {r.shown(found.got)}')


def hardly(name, table, wanted, enough):
    """Prints the table, and gives what was seen too seldom."""
    tell(f'{name} ' + ', '.join(f'{what}: {table[what]}' for what in wanted))
    return [what for what in wanted if table[what] < enough]


def status(room, model, trial, lines, seed):
    """0 where the program on trial prints what the model does, for at least so many lines of the scripts from that seed on."""
    scripts, done = 0, 0
    answers, actions, situations = collections.Counter(), collections.Counter(), collections.Counter()
    for seed, script, reached, told, agree in r.compared(itertools.count(seed), lambda s: one_script(room, model, trial, s)):
        if not agree:
            tell_difference(model, trial, seed, script)
            return 1
        scripts, done = scripts + 1, done + len(told)
        situations.update(reached)
        answers.update(int(answer[0].split()[0]) for answer in told)
        actions.update(int(action.split()[0]) for answer in told for action in answer[1:])
        if done >= lines:
            break
    tell(f'{done} lines of {scripts} scripts agree')
    seldom = hardly('answers', answers, ANSWERS, ENOUGH_ANSWERS) + hardly('actions', actions, ACTIONS, ENOUGH_ANSWERS)
    rarest = [words for words, _ in sorted(situations.items(), key=lambda item: item[1])]
    tell(f'{len(rarest)} situations, the rarest: ' + '; '.join(f'{w} ({situations[w]})' for w in rarest[:5]))
    seldom += [words for words in rarest if situations[words] < ENOUGH_SITUATIONS]
    if seldom:
        tell(f'hardly tried: {seldom}')
    return 1 if seldom else 0
