"""What a program of the classroom says to an order and numbers; orders.h reads them there."""
import subprocess

from plainly import WRONG_USAGE, NotUnderstood
from words import RUN, built


def ask(program, order, numbers):
    """The lines that the program of this name says."""
    done = subprocess.run([RUN, 'run', built(program), order, *map(str, numbers)], stdout=subprocess.PIPE, text=True)
    if done.returncode == WRONG_USAGE:
        raise NotUnderstood('a number is too large, or there are too many')
    done.check_returncode()
    return done.stdout.splitlines()


def numbers_of(row):
    return [int(word) for word in row.split()]
