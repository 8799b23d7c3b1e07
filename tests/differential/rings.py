#!/usr/bin/env python3
"""Prints the line that `acceptance` must print of its ten thousand commands on rings: the rule of
crates/acceptance/src/commands.rt, played on lists.

    python3 tests/differential/rings.py            # ends with status 0 where crates/acceptance/stdout has that line
"""
import os

TOP = os.path.dirname(os.path.dirname(os.path.dirname(os.path.abspath(__file__))))
COMMANDS = 10000


class Rings:
    """Lists of (birth, letter) by the names of rings. Rings and buckets share one count of names."""

    def __init__(self):
        self.lists, self.next = {}, 1

    def name(self):
        self.next += 1
        return self.next - 1

    def ring(self):
        """A new ring without buckets."""
        ring = self.name()
        self.lists[ring] = []
        return ring


def at(buckets, place):
    """A place in a list, or its last one; None where it is empty."""
    return min(place, len(buckets) - 1) if buckets else None


def play(rings, names, which, a, b, place, other, letter):
    """Makes one command of two of the four rings that are named."""
    ring, to = names[a], names[b]
    mine, others = rings.lists[ring], rings.lists[to]
    i, j = at(mine, place), at(others, other)
    if which < 6:
        mine.insert(len(mine) if which < 3 else 0, (rings.name(), letter))
    elif which < 12 and i is not None:
        mine.insert(i + (which >= 9), (rings.name(), letter))
    elif 12 <= which < 16 and i is not None:
        bucket = mine.pop(i)
        others.insert(len(others) if which < 14 else 0, bucket)
    elif 16 <= which < 18 and i is not None and j is not None and mine[i] != others[j]:
        before = others[j]
        bucket = mine.pop(i)
        others.insert(others.index(before), bucket)
    elif 18 <= which < 22 and ring != to and (which < 20 or i is not None):
        place = i if which >= 20 else 0
        others += mine[place:]
        del mine[place:]
    elif 22 <= which < 25 and i is not None:
        del mine[i]
    elif which == 25 and i is not None:
        mine[i] = mine[i][0], letter
    elif 26 <= which < 28:
        mine += [(rings.name(), letter), (rings.name(), ord('z'))]
    elif which == 28:
        mine.clear()
    elif which == 29:
        del rings.lists[ring]
        names[a] = rings.ring()
    elif which == 30 and a != b:
        del rings.lists[ring], rings.lists[to]
        names[a], names[b] = rings.ring(), rings.ring()
        rings.lists[names[b]] += [(rings.name(), letter), (rings.name(), ord('z'))]
    elif which == 31:
        rings.next += place


def line():
    rings = Rings()
    names = [rings.ring() for _ in range(4)]
    number, total = 1, 0
    for _ in range(COMMANDS):
        number = (number * 6364136223846793005 + 1442695040888963407) % 2 ** 64
        rest, digits = number >> 33, []
        for base in (32, 4, 4, 8, 8):
            rest, digit = divmod(rest, base)
            digits.append(digit)
        play(rings, names, *digits, ord('a') + rest % 26)
        for name in names:
            for told, letter in [(name, 0)] + rings.lists[name]:
                total = (total * 31 + told * 256 + letter) % 2 ** 64
    return 'equal after %d of them, and the sum is %d' % (COMMANDS, total)


def main():
    print(line())
    with open(os.path.join(TOP, 'crates', 'acceptance', 'stdout')) as file:
        return int(line() not in file.read().splitlines())


if __name__ == '__main__':
    raise SystemExit(main())
