"""Growths of memory that are refused to the driver, `acceptance`, one at a time, and what is right then.

The answers are those of the plain run up to the command that met the refused growth. That one answers `refused NoMemory`, and nothing else
changes: the later answers are those of the script without it, and asked again it succeeds, with all answers as in the plain run. Or it answers
`refused Broken(NoMemory)`: its connection stands broken, and the others answer as in the plain run. Or memory is lacking for the text of an
answer, and the driver ends with a front of what is due.
"""
import os
import sys

from reading.counts import arose

sys.path.append(os.path.dirname(os.path.dirname(os.path.abspath(__file__))))
from refusals import is_broken_well, stands_broken       # noqa: E402

REFUSED, BROKEN = b'refused NoMemory\n', b'refused Broken(NoMemory)\n'


def is_told(line):
    """Whether a line tells the device to fail: it has no answer."""
    return line.startswith(b'fail_at ')


def parted(lines, output):
    """The answers to lines, as they stand in an output, and what is left of it."""
    left, found, at = output.splitlines(True), [], 0
    for line in lines:
        end = at + (not is_told(line))
        while line == b'pools' and end < len(left) and left[end - 1] != b'ok\n':
            end += 1
        found.append(b''.join(left[at:end]))
        at = end
    return found, b''.join(left[at:])


def of_lines(answers):
    """Answers as lists of lines, as tests/refusals.py has them."""
    return [answer.splitlines() for answer in answers]


def shares(trial):
    """Whether what a connection does may matter to others: names run out, or the device counts its calls."""
    return b'NamesSpent' in trial.due or any(map(is_told, trial.lines))


def stands_alone_broken(commands, conn, answers, well):
    """Whether a broken connection answers as it should, up to its close, whatever the others answer."""
    for command, answer, whole in zip(commands, answers, well):
        if command.split(b' ')[1:2] == [conn] and not is_told(command):
            if not stands_broken(command, answer, whole):
                return False
            if command.startswith(b'close '):
                return True
    return True


class Growths:
    """Refuses growths to the driver."""

    def __init__(self, driver):
        self.driver = driver

    def answers(self, script, growth):
        """What is answered to a script where a growth is refused, and the status."""
        return self.driver.play(script, growth)[:2]

    def fault(self, rng, trial, most=5):
        """Refuses some growths of a trial, mostly while its commands are done; gives the first at which an answer is not as it should be."""
        before, calls = (self.driver.play(script)[3] for script in (trial.script([]), trial.script()))
        chosen = rng.sample(range(1, calls + 1), min(calls, 1))
        chosen += rng.sample(range(before + 1, calls + 1), max(0, min(calls - before, most - 1)))
        for growth in chosen:
            arose('growth that is refused to the driver')
            if not self.is_well(trial, growth):
                return growth
        return None

    def is_well(self, trial, growth):
        """Whether the driver answers as it should where this growth is refused."""
        output, status, errors, _ = self.driver.play(trial.script(), growth)
        if status == 1:
            arose('growth refused, and the driver ends')
            return trial.due.startswith(output) and not any(b'no script' in line for line in errors)
        if output == trial.due:
            return status == 0
        found, rest = parted(trial.lines, output)
        place = next((place for place, answer in enumerate(found) if answer != trial.answers[place]), None)
        if status != 0 or rest or place is None or any(line.startswith(b'fault ') for line in output.splitlines()):
            return False
        if found[place] == REFUSED:
            return self.changed_nothing(trial, growth, place, found)
        return found[place] == BROKEN and self.is_broken_well(trial, place, found)

    def changed_nothing(self, trial, growth, place, found):
        """Whether the command at a place, which was refused, changed nothing. A `bring` opens its files first, which the device counts."""
        line = trial.lines[place]
        word = line.decode('latin-1').split(' ')[0]
        arose('%s refused for lack of memory by the driver' % word)
        if word == 'bring' and b' file ' in line and any(map(is_told, trial.lines)):
            return True
        without = trial.lines[:place] + trial.lines[place + 1:]
        later = b''.join(found[:place] + found[place + 1:])
        return self.answers(trial.script(without), 0) == (later, 0) and self.succeeds_again(trial, growth, place)

    def succeeds_again(self, trial, growth, place):
        """Whether the command at a place succeeds where it is asked again. The longer script may take a growth more to be read."""
        again = trial.script(trial.lines[:place] + [trial.lines[place]] + trial.lines[place:])
        due = b''.join(trial.answers[:place] + [REFUSED] + trial.answers[place:])
        for nearby in (growth, growth + 1, growth - 1):
            output, status = self.answers(again, nearby)
            if parted(trial.lines, output)[0][place] == REFUSED:
                return (output, status) == (due, 0)
        return False

    def is_broken_well(self, trial, place, found):
        """Whether the connection that is broken at a place stands so, and the others answer as where memory lasts."""
        word, conn = trial.lines[place].split(b' ')[:2]
        arose('%s broken for lack of memory by the driver' % word.decode('latin-1'))
        later = trial.lines[place + 1:], conn, of_lines(found[place + 1:]), of_lines(trial.answers[place + 1:])
        if shares(trial):
            return stands_alone_broken(*later)
        arose('other connections compared where one is broken for lack of memory')
        return is_broken_well(*later)
