#!/usr/bin/env python3
"""What `mtreplay trial NUMBER STEPS` prints, computed by a sorted list and without that program: bench/trial.py NUMBER STEPS.

It is written from the definition (`crates/mt_workload/specs`): a state below 2^31, from which numbers are drawn, and the steps that
these mean, on one tree for allocation. No call lacks nodes there: a tree may have more ranges than these steps store. This shows
that the program prints the same:
    ./mtreplay trial 7 100000 | diff - <(bench/trial.py 7 100000)
"""

import bisect
import sys

# The indexes that are asked for are below this one.
END = 4194304
WORDS = "ok start was none exists invalid busy nomem entry range".split()


class Draws:
    """Numbers that are drawn, one after another."""

    def __init__(self, state):
        self.state = state

    def below(self, bound):
        self.state = (1103515245 * self.state + 12345) % 2**31
        return self.state * bound // 2**31


class Ranges:
    """The first and the last index of each range in order, and how many free indexes lie below each. A range behind all indexes
    that are asked for ends the list. Entries are not kept: no word tells of them, and neighbours are not joined."""

    def __init__(self):
        self.firsts, self.lasts, self.rooms = [END], [END], [END]

    def place(self, index):
        """The place of the first range that ends at an index or above, and whether it holds the index."""
        place = bisect.bisect_left(self.lasts, index)
        return place, self.firsts[place] <= index

    def put(self, begin, end, ranges):
        """These ranges stand in place of those from `begin` up to, but without, `end`."""
        self.firsts[begin:end] = [first for first, _ in ranges]
        self.lasts[begin:end] = [last for _, last in ranges]
        places = range(begin, begin + len(ranges) + 1)
        self.rooms[begin : end + 1] = [self.firsts[i] - (self.lasts[i - 1] + 1 if i else 0) for i in places]

    def store(self, first, last):
        begin, end = self.place(first)[0], bisect.bisect_right(self.firsts, last)
        below = [(start, first - 1) for start in self.firsts[begin:end] if start < first]
        above = [(last + 1, stop) for stop in self.lasts[begin:end] if stop > last]
        self.put(begin, end, below + [(first, last)] + above)
        return "ok"

    def erase(self, index):
        place, held = self.place(index)
        if held:
            self.put(place, place + 1, [])
        return "was" if held else "none"

    def roomy(self, size):
        """The places below which so many indexes are free, in order. Where none of many places has room, all are passed over."""
        for begin in range(0, len(self.rooms), 256):
            rooms = self.rooms[begin : begin + 256]
            if max(rooms) >= size:
                yield from (begin + i for i, room in enumerate(rooms) if room >= size)

    def alloc(self, size, lowest):
        """Stores where there is room for so many indexes, at the lowest place or at the highest."""
        places = self.roomy(size)
        place = next(places, None) if lowest else max(places, default=None)
        if place is None:
            return "busy"
        start = self.firsts[place] - (self.rooms[place] if lowest else size)
        self.put(place, place, [(start, start + size - 1)])
        return "start"

    def walk(self, index, most):
        """The words of so many steps of a walk from an index on, which ends where no range is left."""
        found = len(self.firsts) - 1 - self.place(index)[0]
        return ["range"] * min(found, most) + ["none"] * (found < most)


def step(tree, draws):
    """The words that a step is answered."""
    deed = draws.below(16)
    if deed <= 7:
        first = draws.below(4190000) if deed == 7 else 0
        size, _entry = draws.below(509) + 4, draws.below(1000000)
        return [tree.store(first, first + size - 1) if deed == 7 else tree.alloc(size, deed < 6)]
    index = draws.below(END)
    if deed <= 9:
        return [tree.erase(index)]
    if deed <= 13:
        return ["entry" if tree.place(index)[1] else "none"]
    return tree.walk(index, 1 if deed == 14 else 4)


def main():
    number, steps = map(int, sys.argv[1:])
    tree, draws, times = Ranges(), Draws(number), dict.fromkeys(WORDS, 0)
    for _ in range(steps):
        for word in step(tree, draws):
            times[word] += 1
    told = " ".join(f"{word} {times[word]}" for word in WORDS)
    print(f"trial {steps} {told} ranges {len(tree.firsts) - 1}")


main()
