"""Tables for the listing program."""

from cases_refusals import REFUSED_TABLES
from files import check
from paper import FOUR_ROUTERS, LISTING, NEW_RING, NEW_TRIANGLE, OLD_RING, OLD_TRIANGLE
from tables import (STOP, WEIGHTS, Numbers, all_pairs, complete, grid, head, line, link,
                    parts_site, random_names, random_site, record, ring, small, star, table,
                    tree_site, two_sided)


def ask_listing(book, data):
    book.hold(old=data)
    return book.ask("s")[0]


def of_the_paper(book):
    """The listing of the paper, and its other tables; before them the table of no bytes."""
    check(ask_listing(book, b"") == "refused 1 at 0\n")
    check(ask_listing(book, FOUR_ROUTERS) == LISTING)
    for data in (OLD_TRIANGLE, NEW_TRIANGLE, OLD_RING, NEW_RING):
        ask_listing(book, data)
    check(ask_listing(book, head(65) + STOP) == "refused 4 at 0\n")


def refused(book):
    """Refused tables of each number 1 to 7."""
    for number, tables in REFUSED_TABLES:
        examples = list(tables())
        for at in range(4):
            place, data = examples[at * (len(examples) - 1) // 3]
            check(ask_listing(book, data) == "refused %d at %d\n" % (number, place))


def over_long(book):
    """More than 4,096 bytes: refused with the same number and place."""
    numbers = Numbers(51)
    good = table(5, line(5), {0: b"zero"})
    longest = table(64, random_site(numbers, 64, 256, small),
                    {router: b"n" * 16 for router in range(64)})
    for front in (good, longest):
        for length in (4095, 4096, 4097, 8000):
            data = front + bytes(length - len(front))
            check(ask_listing(book, data) == "refused 7 at %d\n" % len(front))
    many = head(64) + b"".join(link(a, b) for a, b in all_pairs(64)[:1000]) + STOP
    check(ask_listing(book, many) == "refused 6 at %d\n" % (4 + 256 * 7))
    for number, bad in ((2, record(0x03)), (3, b"\x04\xFF\xFF"), (4, link(2, 1)), (5, link(0, 1))):
        data = head(5) + link(0, 1) + bad + bytes(5000)
        check(ask_listing(book, data) == "refused %d at 11\n" % number)


def small_ones(book):
    """N 1 and 2, no links, separate parts, ties."""
    numbers = Numbers(52)
    for data in (table(1, {}), table(1, {}, {0: b"a"}), table(2, {}), table(2, {(0, 1): 1}),
                 table(2, {(0, 1): 65535}), table(3, {}), table(7, {}), table(5, {(1, 3): 9}),
                 table(4, {(0, 1): 1, (2, 3): 1}), table(6, complete(6)), table(8, star(8)),
                 table(6, ring(6)), table(7, ring(7, 65535)), table(9, grid(3, 3)),
                 table(7, two_sided(7, 3)), table(16, grid(4, 4)), table(12, line(12, 65535))):
        ask_listing(book, data)
    for n in (4, 6, 9, 11):
        check("- -\n" in ask_listing(book, table(n, parts_site(numbers, n, small))))


def random_ones(book):
    """Every kind of weight, few links and many, with names and without."""
    numbers = Numbers(53)
    for at in range(44):
        n = numbers.between(2, 16)
        if at % 2:
            links = tree_site(numbers, n, numbers.below(2 * n), WEIGHTS[at // 2 % 4])
        else:
            links = random_site(numbers, n, numbers.below(3 * n), WEIGHTS[at // 2 % 4])
        named = numbers.some(range(n), [0, n // 2, n][at % 3])
        ask_listing(book, table(n, links, random_names(numbers, named)))


def of_64_routers(book):
    """The line with the highest cost, and two sites with many ties."""
    highest = ask_listing(book, table(64, line(64, 65535)))
    check("\n0 63 4128705 1\n" in highest)
    ask_listing(book, table(64, grid(8, 8)))
    ask_listing(book, table(64, two_sided(64, 4)))


GROUPS = [of_the_paper, refused, over_long, small_ones, random_ones, of_64_routers]
