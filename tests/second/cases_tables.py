"""Good tables of many shapes with all questions on one table, and damaged tables."""

import model
import questions
from files import check
from tables import (LONGEST, STOP, WEIGHTS, Numbers, all_pairs, any_weight, complete, ends, grid, head,
                    line, link, ones, parts_site, random_names, random_site, ring, small, star,
                    table, tree_site, two_sided)


def ask_everything(book, data):
    """Reading, links, and every entry, interface table, fill and name of a small table."""
    book.hold(old=data)
    n = book.answered("r")[0]
    book.ask("l")
    for i in range(n):
        book.answered("i", x=i, room=(n + 1) * n)
        book.answered("f", x=i, room=n, second_room=n)
        book.answered("a", x=i)
        for j in [255] + [j for j in range(n) if j != i]:
            for d in range(n):
                book.answered("e", x=i, y=j, z=d)


def ask_some(book, numbers, data, entries=6, fills=1, interface_tables=0, names=2):
    """Reading, links and some random questions."""
    book.hold(old=data)
    n = book.answered("r")[0]
    book.ask("l")
    for _ in range(entries):
        router = numbers.below(n)
        previous = numbers.pick([255] + [j for j in range(n) if j != router])
        book.answered("e", x=router, y=previous, z=numbers.below(n))
    for _ in range(interface_tables):
        book.answered("i", x=numbers.below(n), room=(n + 1) * n + numbers.below(9))
    for _ in range(fills):
        book.answered("f", x=numbers.below(n), room=n + numbers.below(5),
                      second_room=n + numbers.below(5))
    for _ in range(names):
        book.answered("a", x=numbers.below(n))


def smallest_tables(book):
    """N 1 to 4 with every combination of router, previous hop and destination."""
    ask_everything(book, table(1, {}))
    ask_everything(book, table(1, {}, {0: b"only"}))
    for links in ({}, {(0, 1): 1}, {(0, 1): 65535}):
        ask_everything(book, table(2, links, {1: b"!"}))
    for links in (line(3), complete(3), {(0, 2): 5}, {(0, 1): 1, (0, 2): 2, (1, 2): 1}):
        ask_everything(book, table(3, links, {0: b"~" * 16, 2: b"z"}))
    for links in (ring(4), complete(4, 65535), {(0, 3): 1, (1, 2): 1},
                  {(0, 1): 2, (0, 2): 1, (1, 3): 1, (2, 3): 2}):
        ask_everything(book, table(4, links))


def random_small_tables(book):
    """N 2 to 9: few and many links, every kind of weight, names for none, some or all."""
    numbers = Numbers(11)
    for at in range(48):
        n = numbers.between(2, 9)
        links = random_site(numbers, n, numbers.below(3 * n), WEIGHTS[at % 4])
        named = [[], numbers.some(range(n), n // 2), range(n)][at % 3]
        ask_some(book, numbers, table(n, links, random_names(numbers, named)),
                 entries=10, fills=2, interface_tables=3)


def random_larger_tables(book):
    """N 10 to 63, linked throughout or not."""
    numbers = Numbers(12)
    for at in range(28):
        n = numbers.between(10, 28 if at % 4 else 63)
        weight = WEIGHTS[at // 2 % 4]
        if at % 2:
            links = tree_site(numbers, n, numbers.below(2 * n), weight)
        else:
            links = random_site(numbers, n, numbers.below(3 * n), weight)
        named = [[], numbers.some(range(n), n // 4)][at % 2]
        ask_some(book, numbers, table(n, links, random_names(numbers, named)),
                 interface_tables=1 if n < 20 else 0)


def tables_of_64_routers(book):
    """N 64 with few, many and 256 links, all or no names."""
    numbers = Numbers(13)
    for links in (random_site(numbers, 64, 20, small), random_site(numbers, 64, 100, ones),
                  random_site(numbers, 64, 256, any_weight), tree_site(numbers, 64, 9, ends)):
        ask_some(book, numbers, table(64, links), fills=2, interface_tables=1)
    longest = table(64, random_site(numbers, 64, 256, small),
                    {i: bytes([0x21 + i]) * 16 for i in range(64)})
    check(len(longest) == LONGEST)
    ask_some(book, numbers, longest, fills=2, interface_tables=1, names=8)


def separate_parts(book):
    """Routers without links and parts without a route between them: no route comes."""
    numbers = Numbers(14)
    for n in (4, 5, 6, 7, 8, 12, 20):
        data = table(n, parts_site(numbers, n, small))
        ask_some(book, numbers, data, interface_tables=2)
        check(book.answered("e", x=0, y=255, z=1) == [130])
        check(book.answered("e", x=0, y=2, z=1) == [130])
    unlinked = table(8, complete(7))
    ask_some(book, numbers, unlinked)
    check(book.answered("e", x=7, y=255, z=0) == [130])


def many_ties(book):
    """Grids, rings, stars and complete sites of equal weight."""
    numbers = Numbers(15)
    for n, links in ((4, grid(2, 2)), (9, grid(3, 3)), (16, grid(4, 4)), (64, grid(8, 8)),
                     (6, ring(6)), (10, ring(10, 3)), (8, star(8)), (6, complete(6)),
                     (23, complete(23)), (7, two_sided(7, 3)), (64, two_sided(64, 4)),
                     (20, two_sided(20, 10, 65535))):
        ask_some(book, numbers, table(n, links), entries=10, fills=2,
                 interface_tables=2 if n < 11 else 1)


def longest_line(book):
    """64 routers in a line of weight 65535: the highest cost, 4128705, comes."""
    data = table(64, line(64, 65535))
    check(model.costs(questions.read(data), 63)[0] == 4128705)
    book.hold(old=data)
    for d in (0, 31, 63):
        book.answered("f", x=d, room=64, second_room=64)
    check(book.answered("e", x=0, y=255, z=63) == [1])
    check(book.answered("e", x=0, y=1, z=63) == [129])
    book.answered("i", x=31, room=4160)


def previous_hops(book):
    """Previous hops that are not linked to the router, or members but not the chosen hop."""
    for n, links in ((6, ring(6)), (9, grid(3, 3)), (7, two_sided(7, 3)), (6, star(6)),
                     (7, {(0, 1): 1, (0, 2): 1, (1, 6): 1, (2, 6): 1, (3, 4): 1})):
        data = table(n, links)
        book.hold(old=data)
        for i in range(n):
            book.answered("i", x=i, room=(n + 1) * n)
            for d in range(n):
                ask_previous_hops(book, questions.read(data), i, d)


def ask_previous_hops(book, read, i, d):
    """One previous hop of each kind for this router and destination."""
    linked = [k for k, _ in model.neighbours(read, i)]
    hops = model.members(model.next_hop_set(read, i, d))
    strange = [j for j in range(read.n) if j != i and j not in linked]
    starting = model.entry(read, i, 255, d)
    if strange:
        check(book.answered("e", x=i, y=strange[(i + d) % len(strange)], z=d) == [starting])
    if hops[1:]:
        check(book.answered("e", x=i, y=hops[-1], z=d) == [129])


def chosen_hops(book):
    """The chosen hop and size of sets of every kind."""
    numbers = Numbers(16)
    check(book.ask("c", x=0) == [255, 0])
    check(book.ask("c", x=2**64 - 1) == [0, 64])
    for k in range(64):
        check(book.ask("c", x=2**k) == [k, 1])
    for k in range(1, 64):
        check(book.ask("c", x=2**k - 1) == [0, k])
        check(book.ask("c", x=2**64 - 2**k) == [k, 64 - k])
    for _ in range(130):
        hop_set = int.from_bytes(numbers.bytes(8), "big")
        book.ask("c", x=hop_set)
        book.ask("c", x=hop_set << numbers.below(64) & 2**64 - 1)


# Damaged tables.

SMALL_RECORDS = [head(4), b"\x02\x00\x04\x00abc", b"\x02\x00\x02\x02z",
                 link(0, 1), link(0, 3, 258), link(1, 2, 65535), STOP]
SMALL = b"".join(SMALL_RECORDS)


def read_damaged(book, data):
    book.hold(old=data)
    return book.ask("r")


def flipped_bytes(book):
    """Every byte of a small table changed, with one and with several bits."""
    numbers = Numbers(17)
    for place in range(len(SMALL)):
        for bits in (1 << numbers.below(8), 1 << numbers.below(8), numbers.between(1, 255)):
            data = SMALL[:place] + bytes([SMALL[place] ^ bits]) + SMALL[place + 1:]
            read_damaged(book, data)
        book.ask("l")


def cuts(book):
    """A small table cut at every length is always refused by 1."""
    for length in range(len(SMALL)):
        check(read_damaged(book, SMALL[:length])[0] == 1)
    check(read_damaged(book, SMALL)[0] == 0)


def shuffled_records(book):
    """Records reordered, doubled, left out."""
    numbers = Numbers(18)
    for at in range(len(SMALL_RECORDS)):
        doubled = SMALL_RECORDS[:at + 1] + SMALL_RECORDS[at:]
        check(read_damaged(book, b"".join(doubled))[0] in (2, 5, 7))
        read_damaged(book, b"".join(SMALL_RECORDS[:at] + SMALL_RECORDS[at + 1:]))
        book.ask("l")
    for _ in range(60):
        order = numbers.some(SMALL_RECORDS[1:-1], 5)
        read_damaged(book, b"".join([head(4)] + order + [STOP]))
        book.ask("l")
    for _ in range(20):
        read_damaged(book, b"".join(numbers.some(SMALL_RECORDS, 7)))


def over_long_tables(book):
    """Bytes behind the end up to 8,000 bytes, and 257 links and more."""
    numbers = Numbers(19)
    for length in (3080, 4096, 4097, 8000):
        data = SMALL + numbers.bytes(length - len(SMALL))
        check(read_damaged(book, data)[0::2][:2] == [7, len(SMALL)])
    for how_many in (257, 300, 1100):
        links = b"".join(link(a, b, 1 + a) for a, b in all_pairs(64)[:how_many])
        check(read_damaged(book, head(64) + links + STOP)[0] == 6)
    check(book.ask("l") == [".", ".", "."])


def random_bytes(book):
    """Bytes without sense, some behind a good first record."""
    numbers = Numbers(20)
    for at in range(80):
        front = [b"", head(numbers.between(1, 64)), head(4) + link(0, 1)][at % 3]
        read_damaged(book, front + numbers.bytes(numbers.below(30)))
    for _ in range(40):
        tags = [numbers.pick([1, 2, 4, 4, 0x7F, 3]) for _ in range(numbers.below(6))]
        tail = b"".join(bytes([tag, 0, 4]) + bytes(numbers.below(5) for _ in range(4))
                        for tag in tags)
        read_damaged(book, head(4) + tail + STOP)
        book.ask("l")


def damaged_larger_tables(book):
    """One byte changed somewhere in a table with names and many links."""
    numbers = Numbers(21)
    for _ in range(60):
        n = numbers.between(5, 20)
        names = random_names(numbers, numbers.some(range(n), 3))
        data = table(n, tree_site(numbers, n, n, small), names)
        place = numbers.below(len(data))
        data = data[:place] + numbers.bytes(1) + data[place + 1:]
        read_damaged(book, data)
        book.ask("l")
        book.ask("a", x=numbers.below(n))
        book.ask("e", x=0, y=1, z=numbers.below(n))


GROUPS = [smallest_tables, random_small_tables, random_larger_tables, tables_of_64_routers,
          separate_parts, many_ties, longest_line, previous_hops, chosen_hops, flipped_bytes,
          cuts, shuffled_records, over_long_tables, random_bytes, damaged_larger_tables]
