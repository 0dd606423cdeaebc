#!/usr/bin/env python3
"""Images of trees, by the definition (`crates/mt_image/specs`) and without the program.

images.py changes           the image of the range 10 to 19 with the entry 5, each of its bytes made greater by one in turn (255 is
                            made 0), and each of its cuts: a line `FROM TO ANSWER` for the places from FROM up to, but without, TO
images.py check < IMAGE     whether the bytes are an image: its kind, its nodes and its ranges, or the first reason why not
images.py write KIND ROWS   the image of a tree of ROWS nodes, whose ranges are single indexes side by side
images.py try MTREPLAY      has the program `show` each changed byte and each cut of that image, and the largest images of each kind,
                            and write the images of a few hundred drawn logs and show them: prints each on which it does not agree
                            with the definition, and at the end how many were shown and how many refused

Tables of changes are in `crates/trials_engine/src/images.rt`. The largest images are seen to be images by
    for kind in range alloc range32 alloc32; do bench/images.py write $kind 65504 | bench/images.py check; done
"""

import random
import struct
import subprocess
import sys

TEXT = b"mtimage1"
KINDS = ["range", "alloc", "range32", "alloc32"]
MOST_ROWS = 65504
FIRST = 16
LEAF, INNER, GAPPED = 1, 2, 3


class Sizes:
    """What is known of a kind's rows: columns, the greatest index, and by row kind slots, gaps and the least items."""

    def __init__(self, kind):
        narrow = KINDS[kind].endswith("32")
        self.inner = GAPPED if KINDS[kind].startswith("alloc") else INNER
        self.columns, self.top = (64, 2**32 - 1) if narrow else (32, 2**64 - 1)
        self.slots = {LEAF: 32, INNER: 32, GAPPED: 21} if narrow else {LEAF: 16, INNER: 16, GAPPED: 10}
        self.least = {LEAF: 14, INNER: 14, GAPPED: 9} if narrow else {LEAF: 6, INNER: 6, GAPPED: 4}


class Broken(Exception):
    """A law that a row breaks."""


class Tree:
    """Rows, and the walk that tests their laws: each row before its children, children from the left."""

    def __init__(self, kind, count, root, words):
        self.sizes, self.count, self.root, self.words = Sizes(kind), count, root, words
        self.walk, self.ranges, self.leaf_depth = [], [], None

    def row(self, name):
        """The row and the kind that a word names in this tree, or none."""
        row, low = divmod(name, 256)
        kinds = {8 * kind + 4: kind for kind in (LEAF, self.sizes.inner)}
        return (row, kinds[low]) if low in kinds and FIRST <= row < FIRST + self.count else None

    def items(self, words, kind, last):
        """The items of a row: last index, word and gap, and how many columns they take of pivots, slots and gaps."""
        slots, items = self.sizes.slots[kind], []
        for i in range(slots):
            pivot = words[1 + i] if i + 1 < slots else last
            gap = words[2 * slots + i] if kind == GAPPED else 0
            items.append((pivot, words[slots + i], gap))
            if pivot >= last:
                break
        return items

    def pivots(self, words, kind, items, first, last):
        """Whether the pivots rise from the first index to the last one, and all other columns are 0."""
        slots, at, used = self.sizes.slots[kind], first, {0}
        for i, (pivot, _, _) in enumerate(items):
            if pivot < at:
                return False
            at = pivot + 1
            used |= {slots + i} | ({1 + i} if i + 1 < slots else set()) | ({2 * slots + i} if kind == GAPPED else set())
        return at == last + 1 and all(word == 0 for col, word in enumerate(words) if col not in used)

    def check(self, name, first, last, parent, depth, behind):
        """Tests the laws of a row and of those below it, and gives the longest hole there."""
        named = self.row(name)
        if named is None:
            raise Broken(behind, "name")
        row, kind = named
        if depth > 9 or (kind == LEAF and self.leaf_depth not in (None, depth)):
            raise Broken(row, "depth")
        if kind == LEAF:
            self.leaf_depth = depth
        self.walk.append(row)
        base = self.sizes.columns * (row - FIRST)
        words = self.words[base : base + self.sizes.columns]
        if words[0] != parent:
            raise Broken(row, "parent")
        items = self.items(words, kind, last)
        if not self.pivots(words, kind, items, first, last):
            raise Broken(row, "pivots")
        least = (1 if kind == LEAF else 2) if parent == 1 else self.sizes.least[kind]
        if len(items) < least:
            raise Broken(row, "count")
        return self.leaf(row, items, first, last) if kind == LEAF else self.below(row, kind, items, first)

    def leaf(self, row, items, first, last):
        if any(word % 4 == 2 and word < 4096 for _, word, _ in items):
            raise Broken(row, "entries")
        empty = [word == 0 for _, word, _ in items]
        if any(a and b for a, b in zip(empty, empty[1:])) or (last < self.sizes.top and empty[-1]) or all(empty):
            raise Broken(row, "holes")
        longest = 0
        for pivot, word, _ in items:
            longest = max(longest, pivot + 1 - first if word == 0 else 0)
            self.ranges += [(first, pivot, word)] * (word != 0)
            first = pivot + 1
        return longest

    def below(self, row, kind, items, first):
        depth, told = self.depth, []
        self.depth += 1
        for slot, (pivot, word, _) in enumerate(items):
            told.append(self.check(word, first, pivot, 256 * row + slot, self.depth, row))
            first = pivot + 1
        self.depth = depth
        if kind == GAPPED and told != [gap for _, _, gap in items]:
            raise Broken(row, "gaps")
        return max(told)


def read(image):
    """The kind, the number of rows and the ranges that bytes are an image of, or the first reason why they are none."""
    if len(image) < 32:
        return f"length 32 {len(image)}"
    if image[:8] != TEXT:
        return "head 0"
    kind, count, root = struct.unpack("<3Q", image[8:32])
    if kind >= len(KINDS):
        return "head 8"
    if count > MOST_ROWS:
        return "head 16"
    want = 32 + 8 * count * Sizes(kind).columns
    if len(image) != want:
        return f"length {want} {len(image)}"
    tree = Tree(kind, count, root, struct.unpack(f"<{(want - 32) // 8}Q", image[32:]))
    tree.depth = 1
    try:
        if root != 0:
            tree.check(root, 0, tree.sizes.top, 1, 1, 0)
    except Broken as fault:
        return "row {} {}".format(*fault.args)
    for place, row in enumerate(range(FIRST, FIRST + count)):
        if place >= len(tree.walk) or tree.walk[place] != row:
            return f"stray row {row}"
    return KINDS[kind], count, tree.ranges


def answer(image):
    """The same in a line."""
    told = read(image)
    return told if isinstance(told, str) else f"{told[0]} {told[1]} rows {len(told[2])} ranges"


# The image of the range 10 to 19 with the entry 5.
LONE = TEXT + struct.pack("<35Q", 0, 1, 4108, *[1, 9, 19, 2**64 - 1], *12 * [0], *[0, 5], *14 * [0])


def changed(image):
    """Each byte greater by one, in turn."""
    return [image[:at] + bytes([(image[at] + 1) % 256]) + image[at + 1 :] for at in range(len(image))]


def cuts(image):
    """It is cut after so many bytes."""
    return [image[:at] for at in range(len(image))]


def changes():
    """The answers to each changed byte, and then to each cut, places with the same answer together."""
    for told in ([answer(i) for i in changed(LONE)], [answer(i).rsplit(" ", 1)[0] + " TO" for i in cuts(LONE)]):
        first = 0
        for at in range(1, len(told) + 1):
            if at == len(told) or told[at] != told[first]:
                print(first, at, told[first])
                first = at


def levels(sizes, rows):
    """How many rows each level has, from the leaves up, so that there are just so many."""
    most, least = sizes.slots[sizes.inner], sizes.least[sizes.inner]

    def above(count):
        """The fewest rows of all levels above one."""
        return [] if count == 1 else [-(-count // most)] + above(-(-count // most))

    for leaves in range(rows, 0, -1):
        for parents in range(-(-leaves // most), leaves // least + 1 if leaves >= 2 * least else 2):
            counts = [leaves] + ([parents] + above(parents) if leaves > 1 else [])
            if sum(counts) == rows:
                return counts
            if sum(counts) > rows:
                break
    raise SystemExit(f"no tree has {rows} rows")


def shares(items, count):
    """Items cut into so many parts that are as even as can be."""
    size, more = divmod(len(items), count)
    parts, at = [], 0
    for part in range(count):
        parts.append(items[at : at + size + (part < more)])
        at += len(parts[-1])
    return parts


def write(kind, rows):
    """The image of a tree of so many rows: each leaf is full, and a hole ends the last."""
    sizes = Sizes(kind)
    full, columns = sizes.slots[LEAF], sizes.columns
    counts = levels(sizes, rows)
    nodes = [(LEAF, [full * leaf + i for i in range(full)]) for leaf in range(counts[0])]
    for count in counts[1:]:
        nodes = [(sizes.inner, part) for part in shares(nodes, count)]
    words = [0] * (columns * rows)
    taken = 0

    def put(node, parent, last):
        """Writes a row and those below it, and gives its name, its last index and the longest hole."""
        nonlocal taken
        kind_of, parts = node
        row, base, slots = FIRST + taken, columns * taken, sizes.slots[node[0]]
        taken += 1
        words[base] = parent
        longest = 0
        for i, part in enumerate(parts):
            at_end = last and i + 1 == len(parts)
            if kind_of == LEAF:
                word, end, hole = 0 if at_end else part + 1 << 12, sizes.top if at_end else part, sizes.top + 1 - part if at_end else 0
            else:
                word, end, hole = put(part, 256 * row + i, at_end)
            if i + 1 < slots:
                words[base + 1 + i] = end
            words[base + slots + i] = word
            if kind_of == GAPPED:
                words[base + 2 * slots + i] = hole
            longest = max(longest, hole)
        return 256 * row + 8 * kind_of + 4, end, longest

    name = put(nodes[0], 1, True)[0]
    return TEXT + struct.pack(f"<{3 + len(words)}Q", kind, rows, name, *words)


def listing(name, kind, ranges):
    """The text of a listing."""
    return "".join([f"tree {name} {kind} {len(ranges)}\n"] + [f"{first} {last} {entry}\n" for first, last, entry in ranges])


def run(program, word, text):
    """The status of a command, and what it prints and tells."""
    ended = subprocess.run([program, word], input=text, capture_output=True, check=False)
    return ended.returncode, ended.stdout, ended.stderr


def showing(image):
    """What `show` has to come to."""
    told = read(image)
    if isinstance(told, str):
        return 8, b"", f"mtreplay: image refused: {told}\n".encode()
    return 0, listing("image", told[0], told[2]).encode(), b""


def drawn_log(draw):
    """A log of stores and erases, of one tree or more."""
    trees = [(f"t{i}", draw.choice(KINDS)) for i in range(draw.randint(1, 3))]
    lines = ["mtlog 1"] + [f"tree {name} {kind}" for name, kind in trees]
    wide = draw.choice([30, 300, 3000])
    for _ in range(draw.choice([0, 5, 50, 500])):
        first = draw.randrange(wide)
        last = draw.choice([first, first, first + draw.randrange(wide // 10), "max"] if draw.random() < 0.1 else [first])
        lines.append(f"store {draw.choice(trees)[0]} {first} {last} {draw.choice([0, 1, 5, 4096, 4100])}")
    return "\n".join(lines).encode() + b"\n"


def images_of(program):
    """Images to show, and what may be wrong with them: those of drawn logs are seen to be images of the first tree that is listed."""
    yield from ((image, None) for image in changed(LONE) + cuts(LONE))
    yield from ((write(kind, MOST_ROWS), None) for kind in range(len(KINDS)))
    draw = random.Random(7)
    for _ in range(300):
        log = drawn_log(draw)
        status, image, _ = run(program, "image", log)
        text = run(program, "replay", log)[1].decode()
        lines = text[text.index("tree ") :].splitlines()
        count = int(lines[0].split()[3])
        want = lines[0].split()[2], [tuple(map(int, line.split())) for line in lines[1 : 1 + count]]
        told = read(image)
        right = status == 0 and not isinstance(told, str) and (told[0], told[2]) == want
        yield image, None if right else f"no image of {want[0]} with {count} ranges: {log!r}"


def attempt(program):
    """Has the program show images and refuse others."""
    ended = {0: 0, 8: 0}
    for image, fault in images_of(program):
        if fault:
            sys.exit(fault)
        want = showing(image)
        if run(program, "show", image) != want:
            sys.exit(f"{len(image)} bytes are not shown as {want[0]} {want[1][:80]!r} {want[2]!r}")
        ended[want[0]] += 1
    print(f"{ended[0]} shown {ended[8]} refused")


if __name__ == "__main__":
    if sys.argv[1:] == ["changes"]:
        changes()
    elif len(sys.argv) == 3 and sys.argv[1] == "try":
        attempt(sys.argv[2])
    elif sys.argv[1:] == ["check"]:
        print(answer(sys.stdin.buffer.read()))
    elif len(sys.argv) == 4 and sys.argv[1] == "write" and sys.argv[2] in KINDS:
        sys.stdout.buffer.write(write(KINDS.index(sys.argv[2]), int(sys.argv[3])))
    else:
        sys.exit(__doc__)
