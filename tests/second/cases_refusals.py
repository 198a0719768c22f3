"""The numbers 1 to 7, each in every way in which it can come."""

from files import check
from tables import (STOP, all_pairs, complete, head, header, link, name, record, table)

# N 24 has 276 pairs, so that a 257th link in rising order exists.
PAIRS_OF_24 = all_pairs(24)
FULL = head(24) + b"".join(link(a, b) for a, b in PAIRS_OF_24[:256])
LINK_257 = link(*PAIRS_OF_24[256])


def cut_tables():
    """1: no bytes, a header cut, contents cut, nothing behind the last record."""
    yield 0, b""
    yield 0, b"\x01"
    yield 0, b"\x01\x00"
    yield 0, b"\x01\x00\x01"
    before = head(5)
    yield 4, before
    for last in (name(4, b"abc"), name(4, b"a"), name(4, b"q" * 16), link(0, 4, 258), STOP):
        for length in range(1, len(last)):
            yield 4, before + last[:length]
    before = head(5) + name(1, b"abc") + link(0, 4)
    yield 18, before
    for last in (link(1, 2), STOP):
        for length in range(1, len(last)):
            yield 18, before + last[:length]
    yield 4 + 256 * 7, FULL


def wrong_tags():
    """2: first tag not 0x01, unknown tags, a second 0x01, a name behind a link."""
    for tag in (0, 2, 3, 4, 5, 0x7E, 0x7F, 0x80, 0x81, 255):
        yield 0, record(tag, [5]) + STOP
    yield 0, STOP
    yield 0, name(0) + head(5) + STOP
    yield 0, link(0, 1) + head(5) + STOP
    fronts = (head(5), head(5) + name(0), head(5) + link(0, 1), head(5) + name(0) + link(0, 1))
    for front in fronts:
        for tag in (0, 3, 5, 6, 0x7E, 0x80, 0x81, 0x82, 0x84, 254, 255):
            yield len(front), front + record(tag, [1, 2, 0, 1]) + STOP
        yield len(front), front + head(5) + STOP
    for front in fronts[2:]:
        yield len(front), front + name(1) + link(1, 2) + STOP


def wrong_lengths():
    """3: wrong lengths near the limits for each tag, with contents and without."""
    fronts = {0x01: b"", 0x02: head(5), 0x04: head(5) + name(0), 0x7F: head(5) + link(0, 1)}
    lengths = {0x01: (0, 2, 3, 255, 256, 257, 65535),
               0x02: (0, 1, 18, 19, 255, 256, 256 + 2, 256 + 17, 65535),
               0x04: (0, 1, 3, 5, 8, 255, 256, 256 + 4, 1024, 65535),
               0x7F: (1, 2, 4, 255, 256, 512, 65535)}
    for tag, front in fronts.items():
        for length in lengths[tag]:
            bad = front + header(tag, length)
            contents = (b"\x01" + b"\x02\x00" * 200)[:min(length, 300)]
            yield len(front), bad + contents + STOP
            yield len(front), bad


def out_of_range_routers():
    """4: N, a name's router, or a link's ends and weight out of range."""
    for n in (0, 65, 66, 127, 128, 255):
        yield 0, head(n) + STOP
    for n in (1, 5, 64):
        for router in (n, n + 1, 64, 65, 128, 255):
            yield 4, head(n) + name(router) + STOP
            yield 4, head(n) + link(0, router) + STOP
            yield 4, head(n) + link(router, 0) + STOP
            yield 4, head(n) + link(router, router) + STOP
            yield 4, head(n) + link(n - 1, router) + STOP
    front = head(5) + name(3) + link(0, 1)
    for bad in (link(0, 2, 0), link(1, 1), link(4, 4), link(2, 1), link(4, 0), link(4, 5)):
        yield len(front), front + bad + link(3, 4) + STOP
    yield 4, head(1) + link(0, 0) + STOP


def out_of_range_name_bytes():
    """4: a name byte out of range in the first, a middle and the last place."""
    for byte in (0, 1, 0x0A, 0x1F, 0x20, 0x7F, 0x80, 0xA1, 255):
        for length, place in ((1, 0), (3, 0), (3, 1), (3, 2), (16, 0), (16, 7), (16, 15)):
            text = bytearray(b"m" * length)
            text[place] = byte
            yield 8 + 1, head(5) + name(0, b"!") + name(3, bytes(text)) + STOP


def not_rising():
    """5: equal and falling names and links."""
    front = head(5) + name(2, b"two")
    for router in (2, 1, 0):
        yield len(front), front + name(router, b"two") + STOP
        yield len(front), front + name(router, b"other") + name(3) + STOP
    front = head(5) + name(1) + name(3)
    yield len(front), front + name(1) + STOP
    front = head(5) + link(1, 3, 7)
    for bad in (link(1, 3, 7), link(1, 3, 8), link(1, 3, 6), link(1, 2, 9), link(0, 4, 9),
                link(0, 3, 9), link(0, 1, 9)):
        yield len(front), front + bad + STOP
        yield len(front), front + bad + link(2, 4) + STOP
    front = head(5) + link(0, 1) + link(0, 2) + link(2, 3)
    for bad in (link(0, 1), link(0, 2), link(2, 3), link(0, 4), link(1, 4)):
        yield len(front), front + bad + STOP


def too_many_links():
    """6: a 257th link, with and without more behind it."""
    place = len(FULL)
    yield place, FULL + LINK_257 + STOP
    yield place, FULL + LINK_257
    more = b"".join(link(a, b) for a, b in PAIRS_OF_24[256:])
    yield place, FULL + more + STOP
    wide = head(64) + b"".join(link(a, b, 65535) for a, b in all_pairs(64)[:300])
    yield place, wide + STOP


def bytes_behind():
    """7: one or several bytes behind the end record."""
    for good in (head(1) + STOP, head(5) + name(1) + link(0, 4) + STOP,
                 table(5, complete(5), {0: b"zero"})):
        for behind in (b"\x00", b"\x7F", b"\xFF", b"\x7F\x00", STOP, STOP + STOP, link(1, 4),
                       name(2), head(5), good, b"\x00" * 50):
            yield len(good), good + behind


REFUSED_TABLES = [
    (1, cut_tables), (2, wrong_tags), (3, wrong_lengths), (4, out_of_range_routers),
    (4, out_of_range_name_bytes), (5, not_rising), (6, too_many_links), (7, bytes_behind),
]


def every_refused_table(book):
    """Reads each of these tables; some are also asked for their links, which are none."""
    for number, tables in REFUSED_TABLES:
        for at, (place, data) in enumerate(tables()):
            book.hold(old=data)
            book.refused(number, 0, place, "r")
            if at % 4 == 0:
                check(book.ask("l") == [".", ".", "."])


def every_question_on_refused_tables(book):
    """Each question with a refused table as the old or only one, or as the new one."""
    good = table(5, {(0, 1): 1, (1, 4): 2}, {0: b"good"})
    for number, tables in REFUSED_TABLES:
        examples = list(tables())
        for place, data in (examples[0], examples[len(examples) // 2], examples[-1]):
            book.hold(old=data, new=good)
            check(book.ask("l") == [".", ".", "."])
            book.refused(number, 0, place, "r")
            book.refused(number, 0, place, "e", x=0, y=255, z=1)
            book.refused(number, 0, place, "i", x=0, room=30)
            book.refused(number, 0, place, "f", x=0, room=5, second_room=5)
            book.refused(number, 0, place, "a", x=0)
            refused_pair(book, number, 0, place)
            book.hold(old=good, new=data)
            refused_pair(book, number, 1, place)


def refused_pair(book, number, which, place):
    """The questions on two tables, of which one is refused."""
    book.refused(number, which, place, "p")
    book.refused(number, which, place, "b", x=0)
    book.refused(number, which, place, "t", x=0, y=1, load=bytes(4), room=5)


GROUPS = [every_refused_table, every_question_on_refused_tables]
