#!/usr/bin/env python3
"""Judges transcripts of small logs by the definition (`crates/mt_log/specs/Run.antt`, `crates/mt_base/specs`), without the program.

verify.py judge [ROWS] < INPUT          a log, a line `---` and a transcript: prints `verified C R`, or `refused` and why
verify.py play < LOG                    the transcript of a log of one lane, if no call lacks nodes
verify.py change MTREPLAY SEED COUNT    makes logs of a few steps and transcripts of them, half played by the program and half drawn,
                                        changes these (mutants), and has each judged here and by `MTREPLAY verify`: prints each on
                                        which the two do not agree, and at the end how many both verified and both refused

It is slow and plain: a map is a list of ranges, each pair of steps is compared, and each read is tried after every number of calls.
The input of `judge` must begin with a log: it does not say what is wrong with one that is none.
"""

import functools
import random
import re
import subprocess
import sys
from dataclasses import dataclass, field

ROWS = 65504
DEEPEST, MOST_TAKEN = 9, 28
TOPS = {"range": 2**64 - 1, "alloc": 2**64 - 1, "range32": 2**32 - 1, "alloc32": 2**32 - 1}
NUMBER = "(0|[1-9][0-9]*)"
# The fields of each step behind its tree: an index or a bound, or a size, an entry or a count.
STORES = {"store": "iie", "pstore": "iie", "insert": "iie"}
SEARCHES = {"alloc": "eiie", "ralloc": "eiie", "gap": "eii", "rgap": "eii"}
CALLS = {**STORES, "erase": "i", "clear": "", **SEARCHES}
READS = {"load": "i", "find": "ii", "next": "ii", "prev": "ii", "rfind": "ii"}
FIELDS = {**CALLS, **READS, "scan": "iie"}


class Refused(Exception):
    """Why a transcript is of no run."""


# ---- maps: lists of ranges (first, last, entry) in order


def reserved(entry):
    return entry < 4096 and entry % 4 == 2


def over(ranges, first, last, entry):
    below = [(f, min(l, first - 1), e) for f, l, e in ranges if f < first]
    above = [(max(f, last + 1), l, e) for f, l, e in ranges if l > last]
    return below + [(first, last, entry)] * (entry != 0) + above


def met(ranges, first, last):
    return [r for r in ranges if r[0] <= last and first <= r[1]]


def room(ranges, size, least, greatest, lowest):
    """The lowest start of so many free indexes in a window is its first index or right behind a range; so with the highest."""
    if lowest:
        starts = [least] + [last + 1 for _, last, _ in ranges]
    else:
        starts = [greatest - size + 1] + [first - size for first, _, _ in ranges]
    free = [s for s in starts if least <= s and s + size - 1 <= greatest and not met(ranges, s, s + size - 1)]
    return (min if lowest else max)(free, default=None)


def stored(kind, ranges, word, first, last, entry):
    if last < first or last > TOPS[kind] or reserved(entry) or (word == "insert" and entry == 0):
        return ranges, ("invalid",)
    held = met(ranges, first, last)
    if word == "insert" and held:
        return ranges, ("exists",)
    return over(ranges, first, last, entry), (("over", held[0][2]) if held else ("ok",))


def sought(kind, ranges, word, size, least, greatest, entry=None):
    window = greatest >= least and greatest <= TOPS[kind] and 0 < size <= greatest - least + 1
    if not kind.startswith("alloc") or not window or (entry is not None and (entry == 0 or reserved(entry))):
        return ranges, ("invalid",)
    start = room(ranges, size, least, greatest, word in ("alloc", "gap"))
    if start is None:
        return ranges, ("busy",)
    return (ranges if entry is None else over(ranges, start, start + size - 1, entry)), ("start", start)


def acted(kind, ranges, call):
    """The map and the reply after a call on a tree of this kind."""
    word, *fields = call
    if word in STORES:
        return stored(kind, ranges, word, *fields)
    if word == "clear":
        return [], ("ok",)
    if word == "erase":
        held = met(ranges, fields[0], fields[0])
        return [r for r in ranges if r not in held], (("was", *held[0]) if held else ("none",))
    return sought(kind, ranges, word, *fields)


def answer(ranges, query):
    """The range that answers a query, or none."""
    word, index, *bound = query
    if word == "load":
        found = met(ranges, index, index)
    elif word == "find":
        found = [r for r in ranges if index <= bound[0] and index <= r[1] and r[0] <= bound[0]]
    elif word == "next":
        found = [r for r in ranges if index < r[0] <= bound[0]]
    elif word == "prev":
        found = [r for r in ranges if bound[0] <= r[1] < index][-1:]
    else:
        found = [r for r in ranges if bound[0] <= index and r[0] <= index and bound[0] <= r[1]][-1:]
    return found[0] if found else None


def words(*fields):
    return " ".join(map(str, fields))


def reply_text(version, reply):
    if version == 1 and reply[0] == "over":
        return "ok"
    if version == 1 and reply[0] == "was":
        return words("was", reply[3])
    return words(*reply)


def answer_text(query, found):
    if found is None:
        return "none"
    return words("entry", found[2]) if query[0] == "load" else words("range", *found)


# ---- logs


@dataclass
class Tree:
    name: str
    kind: str
    phase: int
    source: int = None  # of which tree it is a copy


@dataclass
class Asked:
    """A line that is answered."""

    line: int
    lane: int
    phase: int
    tree: int
    word: str
    fields: tuple


@dataclass
class Log:
    version: int
    trees: list = field(default_factory=list)
    asked: list = field(default_factory=list)


def number(text, most):
    return most if text == "max" else int(text, 16 if text.startswith("0x") else 10)


def log_of(text):
    lines = text.split("\n")[:-1]
    log, lane, phase, places = Log(int(lines[0].removeprefix("mtlog "))), 0, 0, {}
    for at, line in enumerate(lines[1:], 2):
        if line == "" or line.startswith("#"):
            continue
        word, *rest = line.split(" ")
        if word == "join":
            lane, phase = 0, phase + 1
        elif word == "lane":
            lane = number(rest[0], 0)
        elif word == "tree":
            places[rest[0]] = len(log.trees)
            log.trees.append(Tree(rest[0], rest[1], phase))
        elif word == "dup":
            source = places[rest[0]]
            places[rest[1]] = len(log.trees)
            log.trees.append(Tree(rest[1], log.trees[source].kind, phase, source))
            log.asked.append(Asked(at, 0, phase, source, word, ()))
        elif word == "check":
            log.asked.append(Asked(at, 0, phase, places[rest[0]], word, ()))
        else:
            tree = places[rest[0]]
            mosts = [TOPS[log.trees[tree].kind] if sort == "i" else 2**64 - 1 for sort in FIELDS[word]]
            log.asked.append(Asked(at, lane, phase, tree, word, tuple(map(number, rest[1:], mosts))))
    return log


# ---- what a transcript tells


@dataclass
class Step:
    """What came of a line, or of one find of a scan: a call with its number, a read with its window, or a count."""

    asked: Asked
    told: str
    number: int = None
    query: tuple = None
    lo: int = None
    hi: int = None

    def is_call(self):
        return self.number is not None

    def is_read(self):
        return self.query is not None


class Lines:
    """The lines of a transcript, taken one by one."""

    def __init__(self, text):
        self.left = text.split("\n")

    def take(self, asked, form):
        """What the fields of the next line are, where it has this form."""
        found = re.fullmatch(f"{asked.line} {form}", self.left.pop(0)) if len(self.left) > 1 else None
        if found is None:
            raise Refused(f"line {asked.line} is not told")
        return found.groups()

    def read(self, asked, query):
        lo, hi, told = self.take(asked, f"{NUMBER} {NUMBER} (.*)")
        return Step(asked, told, query=query, lo=int(lo), hi=int(hi))


def scanned(lines, asked):
    """The finds of a scan: each goes on behind the range that the one before told, and one that begins nowhere finds nothing."""
    index, most, count = asked.fields
    steps = []
    while len(steps) < count:
        query = ("find", index, most) if index is not None and index <= most else ("find", 1, 0)
        steps.append(lines.read(asked, query))
        if steps[-1].told == "none":
            break
        found = re.fullmatch(f"range {NUMBER} {NUMBER} {NUMBER}", steps[-1].told)
        if found is None:
            raise Refused(f"line {asked.line} tells no range")
        index = int(found[2]) + 1 if int(found[2]) < most else None
    return steps


def steps_of(log, text):
    """The steps that a transcript tells, and what stands behind them."""
    lines, steps = Lines(text), []
    for asked in log.asked:
        if asked.word in CALLS:
            made, told = lines.take(asked, f"{NUMBER} (.*)")
            steps.append(Step(asked, told, number=int(made)))
        elif asked.word in READS:
            steps.append(lines.read(asked, (asked.word, *asked.fields)))
        elif asked.word == "scan":
            steps.extend(scanned(lines, asked))
        else:
            word = "copied" if asked.word == "dup" else "lawful"
            steps.append(Step(asked, lines.take(asked, f"{word} {NUMBER}")[0]))
    return steps, "\n".join(lines.left)


# ---- whether it is of a run


def calls_before(steps, tree, phase):
    return sum(s.is_call() and s.asked.tree == tree and s.asked.phase < phase for s in steps)


def wants(kind, ranges, call):
    """Whether the call wants rows."""
    word, *fields = call
    if word in ("gap", "rgap", "clear"):
        return False
    if word == "pstore":
        return acted(kind, ranges, call)[1] != ("invalid",)
    exact = word == "store" and fields[2] != 0 and any(r[:2] == (fields[0], fields[1]) for r in ranges)
    return acted(kind, ranges, call)[0] != ranges and not exact


def is_short(rows, opened, ended, ranges, need, free, live, held):
    """Whether a tree with these ranges may have so few rows free, after so many calls."""
    levels, off = divmod(need - 1, 3)
    return (
        off == 0
        and 0 <= levels <= DEEPEST
        and free + live + held == rows
        and free < need
        and (levels == 0) == (ranges == [])
        and (levels < 2 or 3 * 4 ** (levels - 1) <= 2 * len(ranges) + 1)
        and levels <= live
        and (live == 0) == (ranges == [])
        and 2 * live <= len(ranges) + 4
        and held + live <= opened + MOST_TAKEN * ended
    )


def read_by_others(steps, step):
    """Whether another lane read the step's tree, in a phase that was not later."""
    mine = step.asked
    reads = [s.asked for s in steps if s.is_read() and s.asked.tree == mine.tree]
    return any(read.lane != mine.lane and read.phase <= mine.phase for read in reads)


def is_refused(tree, rows, maps, steps, step, call):
    """Whether the call behind these maps may have been refused for want of rows, as it is told."""
    found = re.fullmatch(f"nomem {NUMBER} {NUMBER} {NUMBER} {NUMBER}", step.told)
    if found is None or not wants(tree.kind, maps[-1], call):
        return False
    need, free, live, held = map(int, found.groups())
    short = is_short(rows, len(maps[0]) // 2 + 2, len(maps) - 1, maps[-1], need, free, live, held)
    return short and (held == 0 or read_by_others(steps, step))


def maps_of(log, rows, steps, place, others):
    """The maps of a tree after each number of its calls, from none on, where those of the trees before it are these."""
    tree = log.trees[place]
    calls = sorted((s for s in steps if s.is_call() and s.asked.tree == place), key=lambda s: s.number)
    if [s.number for s in calls] != list(range(1, len(calls) + 1)):
        raise Refused(f"the calls on {tree.name} are not numbered from 1")
    maps = [[] if tree.source is None else others[tree.source][calls_before(steps, tree.source, tree.phase)]]
    for step in calls:
        call = (step.asked.word, *step.asked.fields)
        after, reply = acted(tree.kind, maps[-1], call)
        if step.told != reply_text(log.version, reply):
            if not is_refused(tree, rows, maps, steps, step, call):
                raise Refused(f"call {step.number} on {tree.name} is answered wrong")
            after = maps[-1]
        maps.append(after)
    return maps


def knows(s, t):
    """Whether the later of two lines knows of the earlier."""
    return s.tree == t.tree and (s.lane == t.lane or s.phase < t.phase)


def follows(s, t):
    """Whether the later of two steps has seen the earlier, as far as that does not depend on behind which call a read is true."""
    if s.is_call() and t.is_call():
        return s.number < t.number
    if s.is_call() and t.is_read():
        return s.number <= t.lo
    if s.is_read() and t.is_call():
        return s.hi < t.number
    if s.is_read() and t.is_read():
        return s.lo <= t.lo
    return True


def is_true(maps, read, calls):
    """Whether a read is true behind so many calls."""
    within = calls < len(maps) and read.lo <= calls <= read.hi
    return within and read.told == answer_text(read.query, answer(maps[calls], read.query))


def are_seated(maps, reads):
    """Whether each read of a tree is true behind some number of calls, such that no read that knows of another is true behind
    fewer calls than that, or has a window that begins more than one call below."""

    @functools.cache
    def seated(at, least):
        """Those from this one on, each behind so many calls at the least."""
        if at == len(reads):
            return True
        known = [knows(reads[at].asked, later.asked) for later in reads[at + 1 :]]
        for calls in range(least[0], len(maps)):
            told = is_true(maps, reads[at], calls)
            if told and all(calls <= later.lo + 1 for later, knows_it in zip(reads[at + 1 :], known) if knows_it):
                raised = tuple(max(calls, other) if knows_it else other for other, knows_it in zip(least[1:], known))
                if seated(at + 1, raised):
                    return True
        return False

    return seated(0, (0,) * len(reads))


def listings(log, trees):
    lines = []
    for tree, maps in zip(log.trees, trees):
        lines.append(words("tree", tree.name, tree.kind, len(maps[-1])))
        lines.extend(words(*r) for r in maps[-1])
    return "".join(line + "\n" for line in lines)


def judged(log, rows, text):
    """How many calls and reads a transcript tells, where it is of a run of the log on trees of so many rows."""
    steps, rest = steps_of(log, text)
    trees = []
    for place in range(len(log.trees)):
        trees.append(maps_of(log, rows, steps, place, trees))
    for at, t in enumerate(steps):
        for s in steps[:at]:
            if knows(s.asked, t.asked) and not follows(s, t):
                raise Refused(f"line {t.asked.line} does not follow line {s.asked.line}")
    for place, maps in enumerate(trees):
        reads = [s for s in steps if s.is_read() and s.asked.tree == place]
        if any(s.hi >= len(maps) for s in reads):
            raise Refused("a window ends behind the last call")
        if not are_seated(maps, reads):
            raise Refused(f"the reads on {log.trees[place].name} are not true")
    for s in steps:
        before = calls_before(steps, s.asked.tree, s.asked.phase)
        if not s.is_call() and not s.is_read() and int(s.told) != len(trees[s.asked.tree][before]):
            raise Refused(f"line {s.asked.line} counts wrong")
    if rest != listings(log, trees):
        raise Refused("the trees are not listed as they are at the end")
    return sum(s.is_call() for s in steps), sum(s.is_read() for s in steps)


def verdict(log, rows, text):
    try:
        return words("verified", *judged(log_of(log), rows, text))
    except Refused as why:
        return f"refused: {why}"


# ---- the one transcript of a log of one lane


def answered(log, asked, ranges, calls):
    """What is told of a line that is no call, where the tree has these ranges after so many calls."""
    if asked.word in ("dup", "check"):
        return [words("copied" if asked.word == "dup" else "lawful", len(ranges))]
    if asked.word in READS:
        query = (asked.word, *asked.fields)
        return [words(calls, calls, answer_text(query, answer(ranges, query)))]
    index, most, count = asked.fields
    said, found = [], ()
    while len(said) < count and found is not None:
        query = ("find", index, most) if index <= most else ("find", 1, 0)
        found = answer(ranges, query)
        said.append(words(calls, calls, answer_text(query, found)))
        index = found[1] + 1 if found else index
    return said


def played(log):
    """The transcript of a log of one lane, where no call lacks rows."""
    trees, told = [], []
    for asked in log.asked:
        for tree in log.trees[len(trees) :]:
            if tree.phase <= asked.phase:
                trees.append([[] if tree.source is None else trees[tree.source][-1]])
        maps = trees[asked.tree]
        if asked.word in CALLS:
            after, reply = acted(log.trees[asked.tree].kind, maps[-1], (asked.word, *asked.fields))
            maps.append(after)
            said = [words(len(maps) - 1, reply_text(log.version, reply))]
        else:
            said = answered(log, asked, maps[-1], len(maps) - 1)
        told += [words(asked.line, it) for it in said]
    for tree in log.trees[len(trees) :]:
        trees.append([[] if tree.source is None else trees[tree.source][-1]])
    return "".join(line + "\n" for line in told) + listings(log, trees)


# ---- logs and transcripts that are drawn


WRITES = ["store"] * 6 + list(CALLS)
LOOKS = ["load", "find"] * 4 + [*READS, "scan"]


def drawn_step(draws, deeds, name, kind):
    """A step on a few indexes, the lowest or the highest of a tree, and some above the highest of a narrow one."""
    first = draws.choice([0, 0, 0, TOPS[kind] - 7]) + draws.randrange(8)
    last = min(max(first + draws.randrange(-1, 4), 0), 2**64 - 1)
    entry = draws.choice([5, 5, 5, 7, 9, 4097, 0, 6])
    word = draws.choice(deeds)
    if word in STORES:
        return words(word, name, first, last, entry)
    if word in SEARCHES:
        window = draws.choice([(0, 7), (first, last), (first, "max"), (0, "max")])
        return words(word, name, draws.randrange(5), *window, *[entry] * word.endswith("alloc"))
    if word in ("find", "next", "scan"):
        return words(word, name, first, draws.choice([last, "max", "max"]), *[draws.randrange(1, 5)] * (word == "scan"))
    if word in ("prev", "rfind"):
        return words(word, name, first, draws.choice([0, 0, max(0, first - 4)]))
    return words(word, name, *[first] * (word != "clear"))


def drawn_log(draws):
    lines, kinds = [words("mtlog", draws.choice([1, 2]))], {}
    for phase in range(draws.choice([1, 1, 2, 3])):
        lines.extend(["join"] * (phase > 0))
        if phase == 0 or draws.randrange(4) == 0:
            kinds["abcdef"[len(kinds)]] = draws.choice(list(TOPS))
            lines.append(words("tree", *list(kinds.items())[-1]))
        source = draws.choice(list(kinds))
        if draws.randrange(4) == 0:
            lines.append(words("check", source))
        if draws.randrange(6) < 1 + phase:
            name = "abcdef"[len(kinds)]
            kinds[name] = kinds[source]
            lines.append(words("dup", source, name))
        most = draws.choice(list(kinds))
        for lane in range(draws.randrange(1, 4)):
            lines.append(words("lane", lane))
            deeds = draws.choice([WRITES + LOOKS, WRITES, LOOKS])
            for _ in range(draws.randrange(1, 6)):
                name = most if draws.randrange(4) else draws.choice(list(kinds))
                lines.append(drawn_step(draws, deeds, name, kinds[name]))
    return "".join(line + "\n" for line in lines)


def drawn_order(draws, log):
    """The lines that are answered, phase by phase: first copies and checks, and then those of the lanes in a drawn order."""
    for phase in range(1 + max((a.phase for a in log.asked), default=0)):
        yield from (a for a in log.asked if a.phase == phase and a.word in ("dup", "check"))
        lanes = [[a for a in log.asked if a.phase == phase and a.lane == lane and a.word in FIELDS] for lane in range(3)]
        while any(lanes):
            yield draws.choice([lane for lane in lanes if lane]).pop(0)


def drawn_shortage(draws, rows, ranges):
    """A refusal for want of rows, which may be told of these ranges or not."""
    levels = max(0, min(1, len(ranges)) + draws.choice([0] * 8 + [-1, 1]))
    live = max(0, min(1, len(ranges)) + draws.choice([0] * 8 + [-1, 1, 1, 2]))
    free = max(0, 3 * levels + draws.choice([0] * 8 + [-1, 1]))
    return "nomem", 3 * levels + 1, free, live, max(0, rows - live - free)


class Drawn:
    """A transcript that is drawn: each call in its turn, and each read with a window about its turn, most often as wide as what its
    lane knows lets it be, and with the answer of a map in the window or next to it."""

    def __init__(self, draws, log, rows):
        self.draws, self.log = draws, log
        self.maps, self.turns, self.replies, self.windows = [], {}, {}, []
        for asked in drawn_order(draws, log):
            opened = [tree for tree in log.trees[len(self.maps) :] if tree.phase <= asked.phase]
            for tree in opened:
                self.maps.append([[] if tree.source is None else self.maps[tree.source][-1]])
            if asked.word in CALLS:
                self.call(asked, rows)
            self.turns[asked.line] = len(self.maps[asked.tree]) - 1

    def call(self, asked, rows):
        maps, kind, call = self.maps[asked.tree], self.log.trees[asked.tree].kind, (asked.word, *asked.fields)
        after, reply = acted(kind, maps[-1], call)
        if rows < ROWS and self.draws.randrange(2) and (wants(kind, maps[-1], call) or self.draws.randrange(4) == 0):
            after, reply = maps[-1], drawn_shortage(self.draws, rows, maps[-1])
        maps.append(after)
        self.replies[asked.line] = reply_text(self.log.version, reply)

    def limits(self, asked):
        """Where a window may begin and end by what its lane knows."""
        calls = [(a, self.turns[a.line]) for a in self.log.asked if a.word in CALLS]
        before = [number for a, number in calls if a.line < asked.line and knows(a, asked)]
        before += [max(lo, behind - self.draws.choice([1, 1, 1, 2, 3])) for a, lo, behind in self.windows if knows(a, asked)]
        after = [number - 1 for a, number in calls if a.line > asked.line and knows(asked, a)]
        return max(before, default=0), min(after, default=len(self.maps[asked.tree]) - 1)

    def read(self, asked, query):
        """The window and the range of a read."""
        maps, turn, draws = self.maps[asked.tree], self.turns[asked.line], self.draws
        low, high = self.limits(asked) if draws.randrange(12) else (0, len(maps) - 1)
        lo, hi = max(low, turn - draws.choice([0, 0, 1, 2, 4])), min(high, turn + draws.choice([0, 0, 1, 2, 4]))
        behind = turn if draws.randrange(3) else min(max(draws.randrange(lo - 1, max(hi, lo) + 2), 0), len(maps) - 1)
        self.windows.append((asked, lo, behind))
        return lo, hi, answer(maps[behind], query)

    def told(self, asked):
        """What is told of a line."""
        if asked.word in CALLS:
            return [words(self.turns[asked.line], self.replies[asked.line])]
        if asked.word in READS:
            query = (asked.word, *asked.fields)
            lo, hi, found = self.read(asked, query)
            return [words(lo, hi, answer_text(query, found))]
        if asked.word == "scan":
            return self.scan(asked)
        return [words("copied" if asked.word == "dup" else "lawful", len(self.maps[asked.tree][self.turns[asked.line]]))]

    def scan(self, asked):
        index, most, count = asked.fields
        said, found = [], ()
        while len(said) < count and found is not None:
            query = ("find", index, most) if index <= most else ("find", 1, 0)
            lo, hi, found = self.read(asked, query)
            said.append(words(lo, hi, answer_text(query, found)))
            index = found[1] + 1 if found else index
        return said

    def text(self):
        told = [words(asked.line, said) for asked in self.log.asked for said in self.told(asked)]
        return "".join(line + "\n" for line in told) + listings(self.log, self.maps)


# ---- changes of transcripts


def change_byte(draws, lines):
    text = "\n".join(lines) or "\n"
    at = draws.randrange(len(text))
    others = "0123456789" if text[at].isdecimal() and draws.randrange(3) else "019 \nabmostnrule\0\xff"
    return (text[:at] + draws.choice(others) + text[at + 1 :]).split("\n")


def change_order(draws, lines):
    """A line is left out, doubled or moved."""
    at, to = draws.randrange(len(lines)), draws.randrange(len(lines) + 1)
    others = lines[:at] + lines[at + 1 :]
    return draws.choice([others, lines[:at] + [lines[at]] + lines[at:], others[:to] + [lines[at]] + others[to:]])


def change_replies(draws, lines):
    """Two lines have each other's fields from one of them on, or one field of each other."""
    one, other = (draws.randrange(len(lines)) for _ in range(2))
    a, b, at = lines[one].split(" "), lines[other].split(" "), draws.randrange(1, 3)
    end = draws.choice([at + 1, None])
    a[at:end], b[at:end] = b[at:end], a[at:end]
    return [" ".join(a if i == one else b if i == other else line.split(" ")) for i, line in enumerate(lines)]


def change_number(draws, lines):
    """A number is made one more or less, in three of four cases one of the first two of a line: most often an end of a window."""
    at = draws.randrange(len(lines))
    fields = lines[at].split(" ")
    place = draws.choice([1, 2, draws.randrange(1, 3), draws.randrange(len(fields))])
    if len(fields) > place and fields[place].isdecimal():
        fields[place] = str(max(0, int(fields[place]) + draws.choice([-1, 1])))
    return lines[:at] + [" ".join(fields)] + lines[at + 1 :]


def change_windows(draws, lines):
    """All windows begin somewhat lower, and some end one higher."""
    wider = []
    for line in lines:
        fields = line.split(" ")
        if len(fields) > 3 and fields[1].isdecimal() and fields[2].isdecimal() and fields[3] in ("none", "entry", "range"):
            fields[1] = str(max(0, int(fields[1]) - draws.choice([0, 0, 1, 2, 3])))
            fields[2] = str(int(fields[2]) + draws.choice([0] * 9 + [1]))
        wider.append(" ".join(fields))
    return wider


def changed(draws, text):
    lines = text.split("\n")
    change = draws.choice([change_byte, change_order, change_replies, change_number, change_number, change_windows, change_windows])
    return "\n".join(change(draws, lines))


def run(program, command, rows, text):
    choice = ["--rows", str(rows)] if rows != ROWS else []
    return subprocess.run([program, command, *choice], input=text.encode("latin-1"), capture_output=True)


def verdict_of(program, log, rows, text):
    done = run(program, "verify", rows, f"{log}---\n{text}")
    if (done.returncode, done.stdout, done.stderr) == (7, b"", b"mtreplay: transcript refused\n"):
        return "refused"
    if done.returncode == 0 and done.stderr == b"":
        return done.stdout.decode("latin-1").removesuffix("\n")
    return f"status {done.returncode} {done.stdout} {done.stderr}"


def compared(program, log, rows, text):
    """Whether both verify the transcript, or both refuse it; where they do not agree it is printed."""
    mine, other = verdict(log, rows, text), verdict_of(program, log, rows, text)
    if mine.split(":")[0] != other:
        print(f"--rows {rows}: here {mine}, the program {other}:\n{log}---\n{text}", flush=True)
        return "apart"
    return other.split(" ")[0]


def transcripts(program, draws, log, rows):
    """One that is played or drawn, and changes of it."""
    if draws.randrange(2):
        text = run(program, "replay", rows, log).stdout.decode("latin-1")
        if not verdict(log, rows, text).startswith("verified"):
            print(f"--rows {rows}: what the program played is refused here:\n{log}---\n{text}", flush=True)
    else:
        text = Drawn(draws, log_of(log), rows).text()
    yield text
    for _ in range(9):
        once = changed(draws, text)
        yield changed(draws, once) if draws.randrange(3) == 0 else once


def change(program, seed, count):
    draws, counts = random.Random(seed), {"verified": 0, "refused": 0, "apart": 0}
    while sum(counts.values()) < count:
        log, rows = drawn_log(draws), draws.choice([ROWS, ROWS, 4, 5, 8])
        for text in transcripts(program, draws, log, rows):
            counts[compared(program, log, rows, text)] += 1
    print(f"verified by both {counts['verified']}, refused by both {counts['refused']}, not agreed {counts['apart']}")
    return counts["apart"] != 0


def judge(rows):
    front, cut, text = ("\n" + sys.stdin.buffer.read().decode("latin-1")).partition("\n---\n")
    if not cut:
        sys.exit("verify.py: no line `---`")
    print(verdict(front[1:] + "\n", rows, text))


def play():
    log = log_of(sys.stdin.buffer.read().decode("latin-1"))
    if len({asked.lane for asked in log.asked}) > 1:
        sys.exit("verify.py: the log has more than one lane")
    print(played(log), end="")


def main():
    if sys.argv[1] == "judge":
        judge(int(sys.argv[2]) if len(sys.argv) > 2 else ROWS)
    elif sys.argv[1] == "play":
        play()
    else:
        sys.exit(change(sys.argv[2], *map(int, sys.argv[3:])))


if __name__ == "__main__":
    main()
