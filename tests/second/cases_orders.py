"""Two or more faults at once, so that the order decides."""

from itertools import product

from cases_refusals import FULL, LINK_257, PAIRS_OF_24
from files import check
from tables import STOP, head, header, line, link, name, record, table

FRONT = head(5) + name(2) + link(1, 3)
LAST_LINK = PAIRS_OF_24[255]


def faults_within_a_record():
    """Number, front and bad record: each pair of 1, 2, 3, 1, 4, 5, 6 that can meet."""
    # A cut header with a bad tag, a bad length, or as the 257th link.
    yield 1, b"", b"\x03"
    yield 1, b"", b"\x7F\x00"
    yield 1, FRONT, b"\x02\x00"
    yield 1, FRONT, b"\xFF"
    yield 1, b"", b"\x01\x01"
    yield 1, FRONT, b"\x04\x01"
    yield 1, FULL, LINK_257[:2]
    # A bad tag with a bad length, cut contents, bad contents, or contents that fall.
    yield 2, b"", header(0x02, 0) + STOP
    yield 2, FRONT, header(0x01, 2) + STOP
    yield 2, FRONT, header(0x02, 18)
    yield 2, FRONT, name(4, b"long")[:-1]
    yield 2, FRONT, header(0x03, 9)
    yield 2, FRONT, head(0) + STOP
    yield 2, FRONT, name(5) + STOP
    yield 2, FRONT, name(3, b" ") + STOP
    yield 2, FRONT, name(1) + STOP
    yield 2, FRONT, name(2) + STOP
    yield 2, FULL, name(0) + STOP
    # A bad length with cut contents, bad contents, contents that fall, or a 257th link.
    yield 3, b"", header(0x01, 2)
    yield 3, b"", header(0x01, 2) + b"\x05"
    yield 3, FRONT, header(0x04, 5) + b"\x02\x04\x00"
    yield 3, head(5), header(0x02, 18) + b"\x01name"
    yield 3, FRONT, header(0x7F, 1)
    yield 3, FRONT, record(0x04, [4, 4, 0, 0, 0]) + STOP
    yield 3, head(5), record(0x02, [5] + 17 * [0x20]) + STOP
    yield 3, b"", record(0x01, [0, 0]) + STOP
    yield 3, FRONT, record(0x04, [1, 3, 0, 1, 0]) + STOP
    yield 3, FRONT, record(0x04, [1, 3, 0]) + STOP
    yield 3, head(5) + name(2), record(0x02, [2]) + STOP
    yield 3, FULL, record(0x04, [22, 23, 0]) + STOP
    # Cut contents with contents out of range, contents that fall, or a 257th link.
    yield 1, FRONT, link(5, 5, 0)[:-1]
    yield 1, FRONT, link(4, 4)[:5]
    yield 1, head(5), name(5, b"  ")[:-1]
    yield 1, FRONT, link(1, 3)[:-1]
    yield 1, FRONT, link(0, 1)[:5]
    yield 1, head(5) + name(2), name(2, b"ab")[:-1]
    yield 1, head(5) + name(2), name(1, b"ab")[:4]
    yield 1, FULL, LINK_257[:-1]
    # Out of range with contents that fall, or as the 257th link.
    yield 4, FRONT, link(1, 3, 0) + STOP
    yield 4, FRONT, link(1, 1) + STOP
    yield 4, FRONT, link(1, 0) + STOP
    yield 4, FRONT, link(0, 5) + STOP
    yield 4, head(5) + name(2), name(2, b"a b") + STOP
    yield 4, head(5) + name(2), name(1, b"\x7F") + STOP
    yield 4, FULL, link(22, 23, 0) + STOP
    yield 4, FULL, link(22, 24) + STOP
    yield 4, FULL, link(23, 22) + STOP
    # A 257th link that does not rise.
    yield 5, FULL, link(*LAST_LINK) + STOP
    yield 5, FULL, link(0, 1) + STOP


def within_a_record(book):
    """The order inside one record; bytes behind it change nothing."""
    for number, front, bad in faults_within_a_record():
        book.hold(old=front + bad)
        book.refused(number, 0, len(front), "r")
        check(book.ask("l") == [".", ".", "."])


# Bad records behind head(5) and link(0, 3); they can follow each other.
BAD_RECORDS = [
    (2, record(0x03, [1])), (2, name(4)), (2, head(5)),
    (3, record(0x04, [1, 2, 0, 1, 0])), (3, record(0x7F, [0])),
    (4, link(1, 2, 0)), (4, link(1, 5)), (5, link(0, 3)), (5, link(0, 2)),
]


def across_records(book):
    """The earlier of two bad records decides, with bytes behind the end too."""
    front = head(5) + link(0, 3)
    endings = [STOP, STOP + b"\x00", b"", b"\x04", link(3, 4) + STOP + STOP]
    for at, ((number, first), (_, second)) in enumerate(product(BAD_RECORDS, BAD_RECORDS)):
        book.hold(old=front + first + second + endings[at % len(endings)])
        book.refused(number, 0, len(front), "r")
        between = link(0, 4)
        book.hold(old=front + between + first + link(2, 4) + second + STOP)
        book.refused(number, 0, len(front + between), "r")


def behind_the_end_and_earlier(book):
    """Bytes behind the end together with an earlier fault: the earlier one decides."""
    front = head(5) + link(0, 3)
    for number, bad in BAD_RECORDS:
        for behind in (b"\x00", STOP, link(3, 4) + STOP):
            book.hold(old=front + bad + STOP + behind)
            book.refused(number, 0, len(front), "r")
    for behind in (FULL + LINK_257 + STOP + STOP, FULL + LINK_257 + STOP + b"\xFF" * 9):
        book.hold(old=behind)
        book.refused(6, 0, len(FULL), "r")


# Two bad tables for each side: number, place and bytes.
BAD_OLD = [(1, 0, b""), (5, 11, head(4) + link(0, 1) + link(0, 1) + STOP)]
BAD_NEW = [(4, 4, head(4) + link(0, 1, 0) + STOP), (7, 7, head(4) + STOP + STOP)]
GOOD = table(4, line(4), {0: b"old"})
OTHER = [table(5, line(5), {0: b"new"}), table(4, {(0, 3): 1}, {0: b"new"})]
SHORT_VIEWS = [b"\0\1", b"\0\1\2"]


class Faults:
    """A question's inputs with any of the faults old, new, 8, 9, 11, 10."""

    def __init__(self, faults, way):
        self.faults = faults
        self.bad_old, self.bad_new = BAD_OLD[way], BAD_NEW[way]
        self.old = self.bad_old[2] if "old" in faults else GOOD
        different = OTHER[way] if 8 in faults else GOOD
        self.new = self.bad_new[2] if "new" in faults else different
        self.router = [5, 2**32][way] if 9 in faults else 2
        self.views = SHORT_VIEWS[way] if 11 in faults else b"\0\1\0\1"
        self.short = 10 in faults

    def decisive(self, *order):
        """The refusal of the first fault in this order; all 0 without one."""
        for fault in order:
            if fault in self.faults:
                if fault == "old":
                    return self.bad_old[0], 0, self.bad_old[1]
                if fault == "new":
                    return self.bad_new[0], 1, self.bad_new[1]
                return fault, 0, 0
        return 0, 0, 0


def across_a_question(book):
    """Every choice of faults in every question: the first in the order decides."""
    order = ["old", "new", 8, 9, 11, 10]
    for way, present in product((0, 1), product((False, True), repeat=len(order))):
        faults = {fault for fault, there in zip(order, present) if there}
        given = Faults(faults, way)
        book.hold(old=given.old, new=given.new)
        book.refused(*given.decisive(*order), "t", x=given.router, y=0, load=given.views,
                     room=3 if given.short else 4)
        if 11 not in faults and 10 not in faults:
            book.refused(*given.decisive("old", "new", 8), "p")
            book.refused(*given.decisive("old", "new", 9), "b", x=given.router)
        if faults <= {"old", 9, 10}:
            one_table(book, given)


def one_table(book, given):
    """The questions on the only table."""
    book.refused(*given.decisive("old"), "r")
    book.refused(*given.decisive("old", 9), "e", x=given.router, y=255, z=0)
    book.refused(*given.decisive("old", 9), "e", x=0, y=255, z=given.router)
    book.refused(*given.decisive("old", 9), "a", x=given.router)
    book.refused(*given.decisive("old", 9, 10), "i", x=given.router,
                 room=19 if given.short else 20)
    book.refused(*given.decisive("old", 9, 10), "f", x=given.router,
                 room=3 if given.short else 4, second_room=4)


GROUPS = [within_a_record, across_records, behind_the_end_and_earlier, across_a_question]
