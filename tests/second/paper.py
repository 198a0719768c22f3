"""The examples of document 01, typed in from the paper, against the model."""

import sys

import model
import questions
from reading import Refusal
from tables import LONGEST, head, line, link, name, table

OLD, NEW = 0, 1

OLD_TRIANGLE = table(3, {(0, 1): 1, (0, 2): 5, (1, 2): 1})
NEW_TRIANGLE = table(3, {(0, 1): 1, (0, 2): 5})
OLD_RING = table(7, {(0, 1): 1, (0, 5): 1, (1, 4): 1, (2, 3): 1, (2, 5): 1, (3, 4): 1,
                     (3, 6): 1, (0, 6): 10})
NEW_RING = table(7, {(0, 1): 1, (0, 5): 1, (1, 4): 1, (2, 3): 1, (2, 5): 1, (3, 4): 1,
                     (0, 6): 10})
TWO_LINKED = table(2, {(0, 1): 1})
TWO_UNLINKED = table(2, {})
FOUR_ROUTERS = table(4, {(0, 1): 1, (0, 2): 1, (1, 3): 1, (2, 3): 1})
TABLES = {"triangle-old": OLD_TRIANGLE, "triangle-new": NEW_TRIANGLE, "ring-old": OLD_RING,
          "ring-new": NEW_RING, "four-routers": FOUR_ROUTERS}

# Mark, bytes, and the answer: (N, links) or the refusal's (number, table, place).
READINGS = [
    ("P1", "", (1, 0, 0)),
    ("P2", "01 00 01 01 7F 00 00", (1, 0)),
    ("P3", "01 00 01 40 7F 00 00", (64, 0)),
    ("P4", "01 00 01 41 7F 00 00", (4, 0, 0)),
    ("P5", "01 00 01 02 04 00 04 00 01 00 00 7F 00 00", (4, 0, 4)),
]

# Mark, old table, new table, source, destination, views, N,
# and the answer: outcome, router where it ended, hops, trace.
PATHS = [
    ("P6", OLD_TRIANGLE, NEW_TRIANGLE, 1, 2, [NEW, OLD], 3, (129, 0, 1, [1, 0])),
    ("P7", OLD_TRIANGLE, NEW_TRIANGLE, 1, 2, [NEW, NEW], 3, (128, 2, 2, [1, 0, 2])),
    ("P8", OLD_TRIANGLE, NEW_TRIANGLE, 0, 2, [OLD, OLD], 3, (132, 1, 1, [0, 1])),
    ("P9", OLD_RING, NEW_RING, 0, 6, [OLD, OLD, OLD, NEW, NEW, NEW], 7,
     (129, 3, 3, [0, 1, 4, 3])),
    ("P10", OLD_RING, NEW_RING, 3, 6, [NEW] * 6, 7, (128, 6, 4, [3, 2, 5, 0, 6])),
    ("P11, old old", OLD_TRIANGLE, NEW_TRIANGLE, 2, 2, [OLD, OLD], 3, (128, 2, 0, [2])),
    ("P11, old new", OLD_TRIANGLE, NEW_TRIANGLE, 2, 2, [OLD, NEW], 3, (128, 2, 0, [2])),
    ("P11, new old", OLD_TRIANGLE, NEW_TRIANGLE, 2, 2, [NEW, OLD], 3, (128, 2, 0, [2])),
    ("P11, new new", OLD_TRIANGLE, NEW_TRIANGLE, 2, 2, [NEW, NEW], 3, (128, 2, 0, [2])),
    ("P12", TWO_LINKED, TWO_UNLINKED, 0, 1, [NEW], 2, (130, 0, 0, [0])),
]

INTERFACE_TABLE = [128, 1, 1,
                   131, 131, 131,
                   128, 129, 129,
                   128, 1, 1]

LISTING = """\
router dest cost next
0 1 1 1
0 2 1 2
0 3 2 1,2
1 0 1 0
1 2 2 0,3
1 3 1 3
2 0 1 0
2 1 2 0,3
2 3 1 3
3 0 2 1,2
3 1 1 1
3 2 1 2
"""


def asked(question, *rest):
    """The answer to a question, or the refusal's number, table and place."""
    try:
        return question(*rest)
    except Refusal as refusal:
        return refusal.number, refusal.table, refusal.place
    except IndexError:
        return "more than N-1 views were read"


def size(data):
    """N and how many links a table has."""
    read = questions.read(data)
    return read.n, len(read.links)


def examples():
    """P1 to P12, the interface table and the listing: what, answer, expected answer."""
    for mark, text, expected in READINGS:
        yield mark, asked(size, bytes.fromhex(text)), expected
    for mark, old, new, source, destination, views, n, expected in PATHS:
        answer = asked(questions.path, old, new, source, destination, bytes(views), n)
        yield mark, answer, expected
    yield "bytes of the old triangle", OLD_TRIANGLE, bytes.fromhex(
        "01 00 01 03  04 00 04 00 01 00 01  04 00 04 00 02 00 05  04 00 04 01 02 00 01  7F 00 00")
    yield "interface table", asked(questions.interface_table, OLD_TRIANGLE, 0, 12), INTERFACE_TABLE
    yield "listing", model.listing(FOUR_ROUTERS), LISTING
    yield "refused listing", model.listing(bytes.fromhex("01 00 01 41 7F 00 00")), \
        "refused 4 at 0\n"


def circle_without_the_whole_set():
    """P9 with a wrong router that discards only when j is the chosen hop."""
    tables = [questions.read(OLD_RING), questions.read(NEW_RING)]
    visited, previous, router = [], None, 0
    for view in [OLD, OLD, OLD, NEW, NEW, NEW]:
        visited.append(router)
        hop = model.chosen_hop(model.next_hop_set(tables[view], router, 6))[0]
        if hop == previous:
            return visited, "discarded"
        previous, router = router, hop
    return visited, router


def easy_to_get_wrong():
    """The facts named so in the paper, and the limits it states."""
    old, new = questions.read(OLD_TRIANGLE), questions.read(NEW_TRIANGLE)
    yield "ring circles", circle_without_the_whole_set(), ([0, 1, 4, 3, 2, 5], 0)
    yield "P6 tests in the old view", model.next_hop_set(old, 0, 2), 1 << 1
    yield "P6 would pass the new view's test", model.next_hop_set(new, 0, 2), 1 << 2
    yield "no discard at the destination", [model.entry(old, 2, j, 2) for j in (0, 1, 255)], \
        [128, 128, 128]
    yield "no weight on no route", asked(questions.fill, table(3, {(0, 1): 1}), 2, 3, 3), \
        ([4294967295, 4294967295, 0], [0, 0, 0])
    yield "trace needs N", asked(questions.path, OLD_TRIANGLE, NEW_TRIANGLE, 2, 2, bytes(2), 2), \
        (10, 0, 0)
    named = table(3, {(0, 1): 1, (0, 2): 5, (1, 2): 1}, {1: b"one"})
    yield "names do not differ", questions.pair(OLD_TRIANGLE, named)[2], 0
    yield "empty set", model.chosen_hop(0), (255, 0)


def limits():
    """The largest numbers that the paper states."""
    yield "highest cost", model.costs(questions.read(table(64, line(64, 65535))), 63)[0], 4128705
    pairs = [(a, b) for a in range(24) for b in range(a + 1, 24)][:256]
    longest = table(64, {pair: 65535 for pair in pairs}, {i: b"~" * 16 for i in range(64)})
    yield "longest table", (len(longest), asked(size, longest)), (LONGEST, (64, 256))
    over_long = longest + b"x" * (4096 - len(longest))
    yield "over-long listing", model.listing(over_long + b"x"), "refused 7 at %d\n" % LONGEST
    yield "stopped at 4096", model.listing(over_long), "refused 7 at %d\n" % LONGEST


def names():
    """A name is handed back with its table and place; the new table comes first."""
    old = head(2) + name(0, b"a") + name(1, b"b") + link(0, 1) + bytes.fromhex("7F 00 00")
    new = head(2) + name(0, b"c") + link(0, 1) + bytes.fromhex("7F 00 00")
    yield "name in the new table", asked(questions.name_of_two, old, new, 0), (1, 8, b"c")
    yield "name in the old table", asked(questions.name_of_two, old, new, 1), (0, 13, b"b")
    yield "no name", asked(questions.name, new, 1), None
    yield "no such router", asked(questions.name, new, 2), (9, 0, 0)


def differences():
    """Says every difference; how many there are."""
    found = 0
    for group in (examples, easy_to_get_wrong, limits, names):
        for what, answer, expected in group():
            if answer != expected:
                found += 1
                print("%s: %r instead of %r" % (what, answer, expected), file=sys.stderr)
    return found
