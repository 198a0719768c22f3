"""The numbers 8, 9, 10 and 11, each in every way in which it can come."""

from files import check
from tables import complete, line, ring, table, two_sided

FIVE = {(0, 1): 1, (0, 3): 2, (1, 2): 3, (2, 4): 4, (3, 4): 5}


def with_change(links, kind, pair):
    """One link changed: a pair to be added is not in the links, any other is."""
    if kind == "removed":
        return {other: links[other] for other in links if other != pair}
    return {**links, pair: 7 if kind == "added" else links[pair] + 1}


PLACES_OF_CHANGE = {"added": [(0, 2), (1, 3)], "removed": [(0, 1), (2, 4)],
                    "reweighted": [(0, 3), (3, 4)]}


def one_link_different(book):
    """Exactly one link added, removed or reweighted is no ground for 8."""
    for kind, pairs in PLACES_OF_CHANGE.items():
        for pair in pairs:
            changed = table(5, with_change(FIVE, kind, pair))
            for old, new in ((table(5, FIVE), changed), (changed, table(5, FIVE))):
                book.hold(old=old, new=new)
                check(book.answered("p") == [5, 1])


def two_links_different(book):
    """8: two links different, in each combination of added, removed, reweighted."""
    for first_kind, first_pairs in PLACES_OF_CHANGE.items():
        for second_kind, second_pairs in PLACES_OF_CHANGE.items():
            changed = with_change(FIVE, first_kind, first_pairs[0])
            changed = with_change(changed, second_kind, second_pairs[1])
            refused_by_8(book, table(5, FIVE), table(5, changed, {0: b"new"}))


def many_links_different(book):
    """8: a link moved, both ends of a line, all links, and every weight."""
    moved = {**with_change(FIVE, "removed", (0, 1)), (0, 2): 1}
    heavier = {pair: FIVE[pair] + 1 for pair in FIVE}
    for changed in (moved, heavier, {}, complete(5), line(5), ring(5)):
        refused_by_8(book, table(5, FIVE), table(5, changed))
        refused_by_8(book, table(5, changed), table(5, FIVE))


def other_numbers_of_routers(book):
    """8: another N, with the same links or none."""
    for first, second in ((1, 2), (1, 64), (2, 3), (63, 64)):
        refused_by_8(book, table(first, {}), table(second, {}))
        refused_by_8(book, table(second, {}), table(first, {}))
    for n in (6, 7, 64):
        refused_by_8(book, table(5, FIVE), table(n, FIVE))
        refused_by_8(book, table(n, FIVE), table(5, {**FIVE, (0, 2): 1}))


def refused_by_8(book, old, new):
    """The pair and the path are refused; the name question does not test 8."""
    book.hold(old=old, new=new)
    book.refused(8, 0, 0, "p")
    book.refused(8, 0, 0, "t", x=0, y=0, load=bytes(63), room=64)
    book.answered("b", x=0)


def bad_routers(n):
    """Numbers that are no router, of every size; some are good if cut to fewer bits."""
    good = n - 1
    return [n, n + 1, 64, 65, 128, 254, 255, 256, 256 + good, 65536 + good, 2**32 + good,
            2**40, 2**63, 2**63 + good, 2**64 - 1]


def bad_router_numbers(book):
    """9: a number that is no router, in each place of each question."""
    for n in (1, 5, 64):
        data = table(n, line(n), {n - 1: b"last"})
        book.hold(old=data, new=data)
        last, views = n - 1, bytes(n - 1)
        for bad in bad_routers(n):
            book.refused(9, 0, 0, "e", x=bad, y=255, z=last)
            book.refused(9, 0, 0, "e", x=last, y=255, z=bad)
            book.refused(9, 0, 0, "i", x=bad, room=(n + 1) * n if n < 64 else 0)
            book.refused(9, 0, 0, "f", x=bad, room=n, second_room=n)
            book.refused(9, 0, 0, "t", x=bad, y=last, load=views, room=n)
            book.refused(9, 0, 0, "t", x=last, y=bad, load=views, room=n)
            book.refused(9, 0, 0, "a", x=bad)
            book.refused(9, 0, 0, "b", x=bad)
        book.refused(9, 0, 0, "e", x=n, y=255, z=n)
        book.refused(9, 0, 0, "t", x=n, y=n, load=views, room=n)


def bad_previous_hops(book):
    """9: a previous hop that is neither 255 nor a router, or equals the router; 255 is good."""
    for n in (1, 5, 64):
        book.hold(old=table(n, line(n)))
        for router in sorted({0, n // 2, n - 1}):
            for bad in bad_routers(n) + [256 + 255, 2**32 + 255]:
                if bad != 255:
                    book.refused(9, 0, 0, "e", x=router, y=bad, z=0)
            for destination in sorted({0, router, n - 1}):
                book.refused(9, 0, 0, "e", x=router, y=router, z=destination)
                book.answered("e", x=router, y=255, z=destination)


def name_below_one_n_only(book):
    """9: the name question on two tables needs a router below both N."""
    few, many = table(3, line(3), {2: b"two"}), table(5, line(5), {2: b"TWO", 4: b"four"})
    for old, new in ((few, many), (many, few)):
        book.hold(old=old, new=new)
        for router in (3, 4, 5):
            book.refused(9, 0, 0, "b", x=router)
        for router in (0, 1, 2):
            book.answered("b", x=router)


def rooms_of_interface_tables(book):
    """10: each room up to enough at small N, one short and enough at N 64."""
    for n in range(1, 5):
        book.hold(old=table(n, ring(n)))
        needed = (n + 1) * n
        for room in range(needed):
            book.refused(10, 0, 0, "i", x=n - 1, room=room)
        for room in (needed, needed + 1, needed + 7):
            check(book.answered("i", x=n - 1, room=room)[0] == needed)
    book.hold(old=table(64, two_sided(64, 3)))
    for room in (0, 64 * 64, 4159):
        book.refused(10, 0, 0, "i", x=63, room=room)
    for room in (4160, 4161, 4200):
        check(book.answered("i", x=63, room=room)[0] == 4160)


def rooms_of_fills(book):
    """10: costs short, sets short, both."""
    for n in (1, 2, 3, 4, 64):
        book.hold(old=table(n, line(n, 9)))
        rooms = range(n + 2) if n < 64 else (0, 63, 64, 80)
        for room in rooms:
            for second_room in rooms:
                asked = {"x": n - 1, "room": room, "second_room": second_room}
                if room < n or second_room < n:
                    book.refused(10, 0, 0, "f", **asked)
                else:
                    check(book.answered("f", **asked)[0] == n)


def rooms_of_traces(book):
    """10: a trace needs N bytes however short the path is."""
    for n in (1, 2, 3, 4, 5, 6, 7, 64):
        data = table(n, line(n))
        book.hold(old=data, new=data)
        for destination in sorted({0, n - 1}):
            for room in (range(n) if n < 64 else (0, 1, 2, 62, 63)):
                book.refused(10, 0, 0, "t", x=0, y=destination, load=bytes(n - 1), room=room)
            for room in (n, n + 1, n + 9):
                fields = book.answered("t", x=0, y=destination, load=bytes(n - 1), room=room)
                check(fields[:3] == [128, destination, destination])


def bad_view_lists(book):
    """11: a list too short, or a byte other than 0 and 1 in a place that is judged."""
    for n in (2, 3, 4, 6, 64):
        data = table(n, line(n))
        book.hold(old=data, new=data)
        for source, destination in ((0, n - 1), (0, 1), (1, 1)):
            asked = {"x": source, "y": destination, "room": n}
            for length in sorted({0, n - 2}):
                book.refused(11, 0, 0, "t", load=bytes(length), **asked)
                book.refused(11, 0, 0, "t", load=bytes(length), **{**asked, "room": n - 1})
            for bad in (2, 128, 255):
                for place in sorted({0, (n - 1) // 2, n - 2}):
                    views = with_byte(bytes(n + 1), place, bad)
                    book.refused(11, 0, 0, "t", load=views, **asked)


def views_that_are_not_judged(book):
    """A bad byte at place N-1 and behind is no ground for 11."""
    for n in (1, 2, 3, 6, 64):
        data = table(n, line(n))
        book.hold(old=data, new=data)
        for bad in (2, 128, 255):
            for place in (n - 1, n, n + 3):
                views = with_byte(bytes(n + 4), place, bad)
                check(book.answered("t", x=0, y=n - 1, load=views, room=n)[0] == 128)


def with_byte(data, place, byte):
    return data[:place] + bytes([byte]) + data[place + 1:]


GROUPS = [one_link_different, two_links_different, many_links_different,
          other_numbers_of_routers, bad_router_numbers, bad_previous_hops,
          name_below_one_n_only, rooms_of_interface_tables, rooms_of_fills, rooms_of_traces,
          bad_view_lists, views_that_are_not_judged]
