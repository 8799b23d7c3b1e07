"""How many of the modules that were written by hand the checker accepts."""
import glob
import os
from contextlib import suppress

from reading.certificates import Refusal, make
from reading.counts import uncounted
from reading.scripts import MOST_MODULES, Ended, TooBig, read_chain
from reading.texts import FaultyText, assemble_alone, print_module

TOP = os.path.dirname(os.path.dirname(os.path.dirname(os.path.abspath(__file__))))
# `NAME.before` has a mistake that filters have, `NAME.after` has it mended.
PLACES = ['tests/cases/*.script', 'examples/*.script', 'filters/*.mod', 'filters/patterns/*.before', 'filters/patterns/*.after']


def modules_of(path):
    """The modules of a script or a module text; none where a text is faulty."""
    with open(path, 'rb') as file:
        text = file.read()
    with suppress(Ended, TooBig, FaultyText):
        if path.endswith('.script'):
            return [module for module, _ in read_chain(text, MOST_MODULES)[0]]
        return [assemble_alone(text)]
    return []


def is_accepted(module):
    try:
        make(module)
    except Refusal:
        return False
    return True


def hand_written():
    """Of the files of each pattern: the pattern, how many different modules of it are accepted, and how many there are."""
    with uncounted():
        for pattern in PLACES:
            found = {print_module(module): module for path in sorted(glob.glob(os.path.join(TOP, pattern))) for module in modules_of(path)}
            yield pattern, sum(map(is_accepted, found.values())), len(found)
