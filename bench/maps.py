"""A map of disjoint ranges, by the meaning of the log's words: what the scripts of this folder hold replies against."""

import bisect


class Map:
    """A map of disjoint ranges: their first indexes in order, and the last index and the entry of each. For a call it returns what a
    transcript of this version reports."""

    def __init__(self, version):
        self.version = version
        self.firsts = []
        self.rest = {}

    def add(self, first, last, entry):
        bisect.insort(self.firsts, first)
        self.rest[first] = (last, entry)

    def remove(self, place):
        first = self.firsts.pop(place)
        return (first, *self.rest.pop(first))

    def ranges(self):
        return [(first, *self.rest[first]) for first in self.firsts]

    def told(self, place):
        if not 0 <= place < len(self.firsts):
            return ["none"]
        first = self.firsts[place]
        last, entry = self.rest[first]
        return ["range", str(first), str(last), str(entry)]

    def holder(self, index):
        """The place of the range that holds the index, or None."""
        place = bisect.bisect_right(self.firsts, index) - 1
        return place if place >= 0 and self.rest[self.firsts[place]][0] >= index else None

    def place_from(self, index):
        """The place of the first range that ends at the index or above."""
        place = self.holder(index)
        return bisect.bisect_right(self.firsts, index) if place is None else place

    def store(self, first, last, entry):
        place = self.place_from(first)
        said = ["ok"]
        if self.version == 2 and place < len(self.firsts) and self.firsts[place] <= last:
            said = ["over", self.told(place)[3]]
        while place < len(self.firsts) and self.firsts[place] <= last:
            old_first, old_last, old_entry = self.remove(place)
            if old_first < first:
                self.add(old_first, first - 1, old_entry)
                place += 1
            if old_last > last:
                self.add(last + 1, old_last, old_entry)
        if entry != 0:
            self.add(first, last, entry)
        return said

    def insert(self, first, last, entry):
        place = self.place_from(first)
        if place < len(self.firsts) and self.firsts[place] <= last:
            return ["exists"]
        self.add(first, last, entry)
        return ["ok"]

    def erase(self, index):
        place = self.holder(index)
        if place is None:
            return ["none"]
        held = self.told(place)[1:]
        self.remove(place)
        return ["was", *(held if self.version == 2 else held[2:])]

    def room(self, size, least, greatest):
        """The lowest start of so many free indexes in a window, or None."""
        start = least
        for place in range(self.place_from(least), len(self.firsts)):
            first = self.firsts[place]
            if first >= start + size:
                break
            start = max(start, self.rest[first][0] + 1)
        return start if start + size - 1 <= greatest else None

    def gap(self, size, least, greatest):
        start = self.room(size, least, greatest)
        return ["busy"] if start is None else ["start", str(start)]

    def alloc(self, size, least, greatest, entry):
        start = self.room(size, least, greatest)
        if start is None:
            return ["busy"]
        self.add(start, start + size - 1, entry)
        return ["start", str(start)]

    def answer(self, word, index):
        above = bisect.bisect_right(self.firsts, index)
        holder = self.holder(index)
        if word == "load":
            return ["none"] if holder is None else ["entry", self.told(holder)[3]]
        if word == "find":
            return self.told(above if holder is None else holder)
        if word == "next":
            return self.told(above)
        if word == "rfind":
            return self.told(above - 1)
        return self.told(above - 1 if holder is None else holder - 1)
