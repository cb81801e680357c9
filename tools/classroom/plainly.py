"""A program's way to its end in plain words, whatever happens: no traceback."""
import os, subprocess, sys

WRONG_USAGE = 2
INTERRUPTED = 130


class NotUnderstood(Exception):
    """What a program was told and does not understand, in words."""


def tell(words):
    print(f'{os.path.basename(sys.argv[0])}: {words}', file=sys.stderr)


def usage(words):
    """What a program is called with that it does not understand."""
    print(words, file=sys.stderr)
    return WRONG_USAGE


def tell_usage():
    """What the program says of itself."""
    print(sys.modules['__main__'].__doc__)
    return 0


def begin(main):
    """Ends the program with the status that `main` gives for its arguments, or with a message."""
    if sys.stdout is None:
        tell('its standard output is closed')
        sys.exit(1)
    sys.stdout.reconfigure(errors='backslashreplace')
    try:
        status = tell_usage() if '--help' in sys.argv[1:] else main(sys.argv[1:])
        sys.stdout.flush()
    except NotUnderstood as told:
        status = ended(told, WRONG_USAGE)
    except KeyboardInterrupt:
        status = ended('interrupted', INTERRUPTED)
    except BrokenPipeError:
        status = ended('nobody reads what it prints any more', 1)
    except OSError as failed:
        status = ended(f'{failed.filename or "its output"}: {failed.strerror}', 1)
    except subprocess.CalledProcessError as failed:
        status = ended(f'{failed.cmd[0]} ended with status {failed.returncode}', 1)
    sys.exit(status)


def ended(words, status):
    """Says why, and drops what could not be written, which would be tried once more."""
    tell(words)
    os.dup2(os.open(os.devnull, os.O_WRONLY), sys.stdout.fileno())
    return status
