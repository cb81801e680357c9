"""Script programs at work, and what they print: its lines, its answers, and the first line where two outputs part."""
import collections, contextlib, errno, os, re, select, signal, subprocess, sys, tempfile, time

ROOT = os.path.normpath(os.path.join(os.path.dirname(os.path.abspath(__file__)), '..', '..'))
PROGRAM = os.path.join(ROOT, 'tools', 'rehearse')   # the project's own, or the one that REHEARSE names
MOST_SECONDS = 60        # for one script; a program of ours that takes longer has stopped answering
MOST_BYTES = 1 << 20     # of what a student's program prints; no lesson has a hundredth of it
NOTHING_MORE = b'(nothing more)'
NOT_AT_HAND = 77         # the status of a program of ours that is not built, or is older than its sources; it says so itself
ONE_FILE = ('a program is named by its file alone, without arguments: one in Python has #!/usr/bin/env python3 for its first line, '
            'and may be run after chmod +x')

Difference = collections.namedtuple('Difference', 'line row wanted got')
Ran = collections.namedtuple('Ran', 'output ending status')   # ending: in words, where it did not end well; status: None, not begun


def said(program, script):
    """What a program of ours prints for a script; where it does not end well, that stands behind it."""
    try:
        done = subprocess.run([program], input=script, capture_output=True, timeout=MOST_SECONDS)
    except subprocess.TimeoutExpired as late:
        return (late.stdout or b'') + b'(no end)'
    return done.stdout if done.returncode == 0 else done.stdout + b'(status %d)' % done.returncode


def lines_of(script):
    return re.findall(rb'[^\n]*\n|[^\n]+', script)


def answers_of(output):
    """The answers, one a script line: the line of numbers with the lines of its actions."""
    rows, answers = output.split(b'\n')[:-1], []
    while rows:
        count = 1 + int(rows[0].split()[2])
        answers.append(rows[:count])
        rows = rows[count:]
    return answers


def first_difference(wanted, got):
    """The script line where two outputs part, the row of its answer, both counted from 0, and what each prints there."""
    printed, place, line, answer = got.split(b'\n'), 0, 0, []
    if not printed[-1]:
        printed.pop()
    for line, answer in enumerate(answers_of(wanted)):
        for row, right in enumerate(answer):
            other = printed[place] if place < len(printed) else NOTHING_MORE
            if other != right:
                return Difference(line, row, right, other)
            place += 1
    return Difference(line, len(answer), NOTHING_MORE, b'\n'.join(printed[place:]))


def shown(line):
    """A line that can be printed, whatever bytes it has."""
    text = line.rstrip(b'\n').decode('latin-1').encode('unicode_escape').decode()
    return text if len(text) <= 400 else f'{text[:80]}.. ({len(text)} characters)'


def located(program):
    """A program of the working folder is found without ./ in front of its name."""
    return os.path.join(os.curdir, program) if os.path.exists(program) and not os.path.dirname(program) else program


def ran(program, script, seconds, complaints=None):
    """A student's program on a script, which may do anything: its output, and in words how it failed to end well."""
    with tempfile.TemporaryFile() as handed:
        handed.write(script)
        handed.seek(0)
        try:
            child = subprocess.Popen([program], stdin=handed, stdout=subprocess.PIPE, stderr=complaints, start_new_session=True)
        except OSError as failed:
            return Ran(b'', no_start(program, failed), None)
    ended = False
    try:
        output, ended = printed_by(child, time.monotonic() + seconds)
    finally:
        if not ended:
            with contextlib.suppress(ProcessLookupError):
                os.killpg(child.pid, signal.SIGKILL)
            child.wait()
        child.stdout.close()
    return Ran(output, how_it_ended(child.returncode, ended, len(output), seconds), child.returncode)


def replies(script):
    """What the project's own program prints for a script; without that the whole ends here."""
    done = ran(PROGRAM, script, MOST_SECONDS)
    if done.status == NOT_AT_HAND:
        sys.exit(NOT_AT_HAND)
    if done.ending:
        sys.exit(f'the script program did not answer: {done.ending}')
    return done.output


def printed_by(child, until):
    """What it prints, up to the limits; and whether it has ended within them."""
    output = b''
    while len(output) <= MOST_BYTES:
        ready, _, _ = select.select([child.stdout], [], [], max(0, until - time.monotonic()))
        if not ready:
            return output, False
        more = os.read(child.stdout.fileno(), 1 << 16)
        if not more:
            break
        output += more
    else:
        return output, False
    try:
        child.wait(max(0, until - time.monotonic()))
    except subprocess.TimeoutExpired:
        return output, False
    return output, True


def how_it_ended(status, ended, count, seconds):
    if count > MOST_BYTES:
        return f'it printed over {MOST_BYTES} bytes, and was stopped'
    if not ended:
        return f'it had not ended after {seconds:g} s, and was stopped'
    if status < 0:
        return f'it was killed by signal {-status}, {signal.strsignal(-status) or "of no name"}'
    return f'it ended with status {status}, not 0' if status else None


def no_start(program, failed):
    if os.path.isdir(program):
        return f'{program} is a folder, not a program'
    if isinstance(failed, FileNotFoundError) and os.path.exists(program):
        return f'{program} cannot be run: what its first line names behind #! is not there'
    if isinstance(failed, FileNotFoundError):
        return f'there is no program {program}' + (f'; {ONE_FILE}' if ' ' in program else '')
    if isinstance(failed, PermissionError):
        return f'{program} may not be run: chmod +x {program}'
    if failed.errno == errno.ENOEXEC:
        return f'{program} cannot be run: it is no program for this machine, or has no first line like #!/usr/bin/env python3'
    return f'{program} cannot be run: {failed.strerror}'
