#!/usr/bin/env python3
"""Whether the table of listings in trials_log says what a listing is, by an independent reader.

A text is taken line by line, by regular expressions: what a whole line is, and what may still become one. `bench/listings.py`
reads the table, and `bench/listings.py FILE` says whether a file is a listing, or at which line it shows that it is none.
`bench/listings.py try MTREPLAY` has the program build trees of the texts of the table, of some hundred drawn listings in order
and out of order, and of one of 8 MiB of each kind, by 1, 2 and 16 workers: each has to be refused as it should, or to give one
image, of as many nodes as the rule of cutting says, which is shown as the listing.
"""
import random
import re
import subprocess
import sys
from pathlib import Path

TOP = 2**64
KINDS = ("range", "alloc", "range32", "alloc32")
NUMBER = r"(0|[1-9][0-9]{0,19})"
HEAD = re.compile(rf"tree ([a-z0-9_]{{1,16}}) ({'|'.join(KINDS)}) {NUMBER}")
RANGE = re.compile(rf"{NUMBER} {NUMBER} {NUMBER}")


def whole(form, line, numbers):
    """The numbers of a whole line, or nothing."""
    found = form.fullmatch(line)
    if not found:
        return None
    told = [int(n) for n in found.groups()[-numbers:]]
    return told if max(told) < TOP else None


def may_become(form_of_fields, piece):
    """Whether a piece begins a line with these fields, of which each tells whether a text is one, and whether it begins one."""
    fields = piece.split(" ")
    if len(fields) > len(form_of_fields):
        return False
    for (is_one, begins), field in zip(form_of_fields, fields[:-1]):
        if not is_one(field):
            return False
    return form_of_fields[len(fields) - 1][1](fields[-1])


def number_field():
    good = lambda f: bool(re.fullmatch(NUMBER, f)) and int(f) < TOP
    return good, lambda f: f == "" or good(f)


def word_field(words):
    return (lambda f: f in words), (lambda f: any(w.startswith(f) for w in words))


NAME = (lambda f: bool(re.fullmatch(r"[a-z0-9_]{1,16}", f))), (lambda f: bool(re.fullmatch(r"[a-z0-9_]{0,16}", f)))
HEAD_FIELDS = [word_field(["tree"]), NAME, word_field(KINDS), number_field()]
RANGE_FIELDS = [number_field()] * 3


def begins(text):
    """Whether a text begins a listing."""
    *lines, piece = text.split("\n")
    if not lines:
        return may_become(HEAD_FIELDS, piece)
    head = whole(HEAD, lines[0], 1)
    if head is None or any(whole(RANGE, line, 3) is None for line in lines[1:]) or len(lines) - 1 > head[0]:
        return False
    return piece == "" if len(lines) - 1 == head[0] else may_become(RANGE_FIELDS, piece)


def is_listing(text):
    lines = text.split("\n")
    return begins(text) and lines[-1] == "" and len(lines) >= 2 and len(lines) - 2 == whole(HEAD, lines[0], 1)[0]


def first_lines(text, n):
    return "".join(re.findall(r"[^\n]*\n|[^\n]+", text)[:n])


def told(text):
    """`listing`, or the line at which it shows that the text is none."""
    if is_listing(text):
        return "listing"
    if begins(text):
        return f"line {text.count(chr(10)) + 1}"
    line = 0
    while begins(first_lines(text, line)):
        line += 1
    return f"line {line}"


def table():
    """The texts of the table, and what is told of each."""
    source = (Path(__file__).parent.parent / "crates/trials_log/src/listings.rt").read_text()
    rows = re.search(r'const TEXTS: &str = "\\\n(.*?)";', source, re.S).group(1)
    for row in rows.replace("\\r", "\r").split("\n"):
        case, want = row.split(" -> ")
        yield case.replace("/", "\n"), want


def misplaced(kind, ranges):
    """The place of the first range that is out of order, or nothing."""
    behind, top = 0, 2**32 if kind.endswith("32") else TOP
    for at, (first, last, entry) in enumerate(ranges):
        if not (behind <= first <= last < top) or entry == 0 or (entry < 4096 and entry % 4 == 2):
            return at
        behind = last + 1
    return None


def rows_of(kind, ranges):
    """How many rows the tree has that is built of them at once: a leaf is full, and none but the last ends with a hole."""
    narrow, gapped = kind.endswith("32"), kind.startswith("alloc")
    top, slots = 2**32 if narrow else TOP, 32 if narrow else 16
    items, behind = [], 0
    for first, last, _ in ranges:
        items += [False] * (first > behind) + [True]
        behind = last + 1
    items += [False] * (behind < top)
    at, leaves = 0, 0
    while at < len(items):
        left = len(items) - at
        if left > 2 * slots - 2:
            size = slots - (not items[at + slots - 1])
        elif left > slots:
            size = (left + 1) // 2
            size += not items[at + size - 1]
        else:
            size = left
        at, leaves = at + size, leaves + 1
    inner = (21 if narrow else 10) if gapped else slots
    rows = level = leaves if ranges else 0
    while level > 1:
        level = -(-level // inner)
        rows += level
    return rows


def built(program, text, workers):
    done = subprocess.run([program, "bulk", workers], input=text.encode("latin-1"), capture_output=True, check=False)
    return done.returncode, done.stdout, done.stderr.decode()


def wanted(text):
    """What the program tells of a text, or nothing where it builds a tree, and then its kind and ranges."""
    said = told(text)
    if said != "listing":
        return f"mtreplay: {said}: bad listing\n", None, None
    head, *lines = text.split("\n")[:-1]
    kind, ranges = head.split(" ")[2], [[int(n) for n in line.split(" ")] for line in lines]
    at = misplaced(kind, ranges)
    if at is not None:
        return f"mtreplay: line {at + 2}: bad order\n", None, None
    if rows_of(kind, ranges) > 65504:
        return "mtreplay: line 1: too many rows\n", None, None
    return None, kind, ranges


def agrees(program, text):
    """Whether the program does with a text what it should."""
    refused, kind, ranges = wanted(text)
    if refused:
        return built(program, text, "2") == (1, b"", refused)
    images = [built(program, text, workers) for workers in ("1", "2", "16")]
    if images[0] != (0, images[0][1], "") or images[1] != images[0] or images[2] != images[0]:
        return False
    image = images[0][1]
    shown = subprocess.run([program, "show"], input=image, capture_output=True, check=False).stdout.decode()
    return int.from_bytes(image[16:24], "little") == rows_of(kind, ranges) and shown.split("\n")[0].split(" ")[2:] == text.split(
        "\n")[0].split(" ")[2:] and shown.split("\n")[1:] == text.split("\n")[1:]


def drawn(draw):
    """A listing whose ranges stand in order, or nearly."""
    kind, count = draw.choice(KINDS), draw.choice([0, 1, 2, 15, 16, 17, 33, 100, 300])
    top = 2**32 if kind.endswith("32") else TOP
    most, ends = draw.choice([4 * count + 8, top]), set()
    while len(ends) < 2 * count:
        ends.add(draw.randrange(most))
    ends = sorted(ends)
    ranges = [[ends[2 * k], ends[2 * k + 1] - draw.choice([0, 1]), draw.choice([1, 5, 4098, TOP - 1])] for k in range(count)]
    if count and draw.random() < 0.2:
        draw.choice(ranges)[draw.randrange(3)] = draw.choice([0, 2, top])
    return f"tree a {kind} {count}\n" + "".join(f"{f} {l} {e}\n" for f, l, e in ranges)


def longest(kind):
    """A listing of about 8 MiB, of indexes side by side."""
    lines, size, at = [], 40, 0
    while size + len(f"{at} {at} 1\n") <= 8_388_608:
        lines.append(f"{at} {at} 1\n")
        size, at = size + len(lines[-1]), at + 1
    return f"tree a {kind} {len(lines)}\n" + "".join(lines)


def try_all(program):
    draw = random.Random(7)
    texts = [text for text, _ in table()] + [drawn(draw) for _ in range(400)] + [longest(kind) for kind in KINDS]
    texts.append(longest("alloc").replace("tree a alloc", "tree a range", 1)[:-1])
    wrong = [text for text in texts if not agrees(program, text)]
    for text in wrong:
        print(f"not as it should be: {text[:200]!r}")
    refused = sum(wanted(text)[0] is not None for text in texts)
    print(f"listings: {len(texts)} built, {refused} of them refused, {len(wrong)} wrong")
    sys.exit(len(wrong) > 0)


def main():
    if len(sys.argv) > 2:
        try_all(sys.argv[2])
    if len(sys.argv) > 1:
        print(told(Path(sys.argv[1]).read_bytes().decode("latin-1")))
        return
    wrong, cases = 0, list(table())
    for case, want in cases:
        got = told(case)
        if got != want:
            wrong += 1
            print(f"{case!r}: {got}, not {want}")
    print(f"listings: {len(cases)} cases, {wrong} wrong")
    sys.exit(wrong > 0)


if __name__ == "__main__":
    main()
