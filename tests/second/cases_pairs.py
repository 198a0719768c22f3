"""Two tables: single changes, swapped tables, names, and paths with view lists of all kinds."""

from itertools import product

import model
import questions
from files import AROUND, check
from tables import (CHANGES, WEIGHTS, Numbers, added, any_weight, complete, ends, grid, line,
                    parts_site, random_name, random_names, random_site, removed, reweighted_down,
                    reweighted_up, ring, small, table, tree_site, two_sided, unchanged)

OLD, NEW = 0, 1


def fixed_views(n):
    """All old, all new, and both ways of alternating."""
    return [bytes([OLD] * n), bytes([NEW] * n), (bytes([OLD, NEW]) * n)[:n],
            (bytes([NEW, OLD]) * n)[:n]]


def switching_views(n):
    """One switch at each place: old then new, new then old."""
    return ([bytes([OLD] * at + [NEW] * (n - at)) for at in range(1, n)] +
            [bytes([NEW] * at + [OLD] * (n - at)) for at in range(1, n)])


def random_views(numbers, n):
    return bytes(numbers.below(2) for _ in range(n))


def views_of_any_kind(numbers, n):
    """A list of at least n bytes; a fifth of the lists are longer, with any bytes behind."""
    kinds = [fixed_views(n), switching_views(n) or [bytes(n)],
             [random_views(numbers, n)], [random_views(numbers, n)]]
    views = numbers.pick(numbers.pick(kinds))
    return views + numbers.bytes(numbers.between(1, 9)) if numbers.below(5) == 0 else views


def hold_pair(book, numbers, n, old_links, new_links):
    """Holds two tables whose names may differ, and asks for the pair both ways round."""
    same = random_names(numbers, numbers.some(range(n), numbers.below(3)))
    other = random_names(numbers, numbers.some(range(n), numbers.below(3)))
    old, new = table(n, old_links, same), table(n, new_links, numbers.pick([same, other]))
    book.hold(old=new, new=old)
    swapped = book.answered("p")
    book.hold(old=old, new=new)
    check(book.answered("p") == swapped == [n, 0 if old_links == new_links else 1])


def ask_path(book, numbers, n, source, destination, views):
    """A path with just enough room, and now and then with more."""
    room = n + numbers.pick([0, 0, 0, 1, 5])
    return book.answered("t", x=source, y=destination, load=views, room=room)


def ask_paths(book, numbers, n, old, new, how_many):
    """Random paths; the first half of them goes from or to an end of the changed link."""
    hold_pair(book, numbers, n, old, new)
    changed = [pair for pair in sorted({**old, **new}) if old.get(pair) != new.get(pair)]
    for at in range(how_many):
        source, destination = numbers.below(n), numbers.below(n)
        if changed and at < how_many // 2:
            source, destination = numbers.pick([changed[0], changed[0][::-1]])
            source = numbers.pick([source, numbers.below(n)])
        ask_path(book, numbers, n, source, destination, views_of_any_kind(numbers, n - 1))


def single_changes(numbers, count, least, most):
    """Pairs of sites with a change of each kind in turn, also the other way round."""
    for at in range(count):
        n = numbers.between(least, most)
        weight = WEIGHTS[at // 2 % 4]
        if at % 3 == 0:
            links = random_site(numbers, n, numbers.between(1, 2 * n), weight)
        else:
            links = tree_site(numbers, n, numbers.below(n), weight)
        changed = CHANGES[at % 5](numbers, n, links)
        yield (n, links, changed) if at % 4 else (n, changed, links)


def every_list_at_n_3(book):
    """N 3: every pair of routers with every view list, for each kind of change."""
    numbers = Numbers(31)
    triangle = {(0, 1): 1, (0, 2): 5, (1, 2): 1}
    for links, change in ((triangle, removed), (triangle, reweighted_up), (line(3), added),
                          (triangle, reweighted_down), (line(3), removed), (line(3), unchanged)):
        changed = change(numbers, 3, links)
        for old, new in ((links, changed), (changed, links)):
            hold_pair(book, numbers, 3, old, new)
            for source, destination in product(range(3), repeat=2):
                for views in product((OLD, NEW), repeat=2):
                    ask_path(book, numbers, 3, source, destination, bytes(views))


def every_switch_at_n_5(book):
    """N 5: every pair of routers, all fixed lists and one switch at each place."""
    numbers = Numbers(32)
    ring_of_five = {(0, 1): 1, (1, 2): 1, (2, 3): 1, (3, 4): 1, (0, 4): 9}
    shorter = {pair: ring_of_five[pair] for pair in ring_of_five if pair != (2, 3)}
    for old, new in ((ring_of_five, shorter), (shorter, ring_of_five)):
        hold_pair(book, numbers, 5, old, new)
        for source, destination in product(range(5), repeat=2):
            for views in fixed_views(4) + switching_views(4):
                ask_path(book, numbers, 5, source, destination, views)


def every_pair_at_small_n(book):
    """N 1 to 6: every pair of routers, each with lists of random kinds."""
    numbers = Numbers(33)
    for n, old, new in single_changes(numbers, 24, 2, 6):
        hold_pair(book, numbers, n, old, new)
        for source, destination in product(range(n), repeat=2):
            ask_path(book, numbers, n, source, destination, views_of_any_kind(numbers, n - 1))
    hold_pair(book, numbers, 1, {}, {})
    for length in (0, 1, 2, 9):
        ask_path(book, numbers, 1, 0, 0, numbers.bytes(length))


def changed_link_on_the_way(book):
    """A link of a ring with chords fails, comes or gets heavy, and paths lead over it."""
    numbers = Numbers(34)
    for at in range(45):
        n = numbers.between(5, 14)
        links = {**ring(n), **random_site(numbers, n, numbers.below(3), small)}
        a = numbers.below(n - 1)
        changed = {pair: links[pair] for pair in links if pair != (a, a + 1)}
        if at % 3 == 1:
            changed[a, a + 1] = links[a, a + 1] + numbers.between(1, n)
        old, new = (changed, links) if at % 5 == 4 else (links, changed)
        hold_pair(book, numbers, n, old, new)
        for _ in range(10):
            source = (a - numbers.below(3)) % n
            destination = (a + 1 + numbers.below(3)) % n
            ask_path(book, numbers, n, source, destination, views_of_any_kind(numbers, n - 1))


def rings_like_the_paper(book):
    """P9 at other sizes and with other numbers: discards by a member that is not chosen.

    Router `far` stands beside a ring of equal weights, near one end of it and far from the
    other; the near link fails, and from then on both ways round the ring cost the same.
    """
    numbers = Numbers(40)
    other_members = 0
    for _ in range(40):
        n = 2 * numbers.between(2, 6) + 1
        routers = numbers.some(range(n), n)
        far, near_end, other_end = routers[n - 1], routers[0], routers[n // 2]
        new = {rising(routers[k], routers[(k + 1) % (n - 1)]): 1 for k in range(n - 1)}
        new[rising(far, other_end)] = 2 * n
        old = {**new, rising(far, near_end): numbers.pick([1, 3])}
        hold_pair(book, numbers, n, old, new)
        for views in switching_views(n - 1)[:n // 2] + fixed_views(n - 1):
            fields = ask_path(book, numbers, n, other_end, far, views)
            other_members += ends_at_another_member(book, fields, far)
    check(other_members >= 10, other_members)


def rising(a, b):
    return min(a, b), max(a, b)


def ends_at_another_member(book, fields, destination):
    """Discarded in the new view, and the previous hop was a member but not the chosen hop."""
    outcome, router, hops, array = fields
    if outcome != 129:
        return False
    trace = bytes.fromhex(array)[AROUND:]
    hop_set = model.next_hop_set(questions.read(book.new, 1), router, destination)
    return trace[hops - 1] in model.members(hop_set)[1:]


def larger_pairs(book):
    """N 7 to 24 with a change of each kind, random routers and lists, and names."""
    numbers = Numbers(35)
    for n, old, new in single_changes(numbers, 60, 7, 24):
        ask_paths(book, numbers, n, old, new, 8)
        for _ in range(2):
            book.answered("b", x=numbers.below(n))


def pairs_of_64_routers(book):
    """N 64: lines, grids, ties, 256 links and separate parts."""
    numbers = Numbers(36)
    for links, change in ((line(64, 65535), removed), (ring(64), removed),
                          (grid(8, 8), reweighted_up), (two_sided(64, 4), added),
                          (random_site(numbers, 64, 255, any_weight), added),
                          (tree_site(numbers, 64, 40, ends), reweighted_down),
                          (parts_site(numbers, 64, small), removed)):
        ask_paths(book, numbers, 64, links, change(numbers, 64, links), 8)
    straight = line(64, 65535)
    hold_pair(book, numbers, 64, straight, straight)
    fields = ask_path(book, numbers, 64, 0, 63, random_views(numbers, 63))
    check(fields[:3] == [128, 63, 63])


def separate_parts(book):
    """Source and destination in separate parts, which one link may join or cut."""
    numbers = Numbers(37)
    for at in range(16):
        n = numbers.between(4, 9)
        parts = parts_site(numbers, n, small)
        joined = {**parts, (0, 1): numbers.between(1, 9)}
        old, new = [(parts, parts), (parts, joined), (joined, parts)][at % 3]
        hold_pair(book, numbers, n, old, new)
        for _ in range(8):
            source = numbers.below(n)
            destination = numbers.pick([d for d in range(n) if (source - d) % 2])
            fields = ask_path(book, numbers, n, source, destination,
                              views_of_any_kind(numbers, n - 1))
            check(old is not new or fields[0] == 130)


def many_ties(book):
    """Complete sites, grids and rings with one link changed: sets of several members."""
    numbers = Numbers(38)
    for n, links in ((4, complete(4)), (6, complete(6, 3)), (9, grid(3, 3)), (8, ring(8)),
                     (7, ring(7)), (12, grid(3, 4)), (8, two_sided(8, 2)), (6, ring(6, 2))):
        for change in CHANGES:
            ask_paths(book, numbers, n, links, change(numbers, n, links), 6)


def names_only(book):
    """Names that differ never count: in one table only, other bytes, other routers."""
    numbers = Numbers(39)
    links = {(0, 1): 1, (0, 4): 2, (1, 2): 3, (2, 3): 4}
    longest = {router: random_name(numbers, 16) for router in range(5)}
    shortest = {router: random_name(numbers, 1) for router in range(5)}
    choices = [{}, {0: b"zero"}, {4: b"four"}, {0: b"Zero", 4: b"four"}, longest, shortest]
    for old, new in product(choices, repeat=2):
        book.hold(old=table(5, links, old), new=table(5, links, new))
        check(book.answered("p") == [5, 0])
        for router in range(5):
            fields = book.answered("b", x=router)
            check(fields[:2] == [int(router in old or router in new), int(router in new)])
        for router in (0, 4):
            check(book.answered("a", x=router)[0] == int(router in old))


GROUPS = [every_list_at_n_3, every_switch_at_n_5, every_pair_at_small_n,
          changed_link_on_the_way, rings_like_the_paper, larger_pairs, pairs_of_64_routers,
          separate_parts, many_ties, names_only]
