"""Making tables: their bytes, sites of many shapes, single changes, and a small generator."""

from reading import END, LINK, NAME, ROUTERS

MOST_WEIGHT = 65535
LONGEST = 3079  # the bytes of the longest table


class Numbers:
    """A generator of our own, so that the files are the same on every version."""

    def __init__(self, seed):
        self.state = seed

    def below(self, bound):
        self.state = (self.state * 6364136223846793005 + 1442695040888963407) % 2**64
        return (self.state >> 32) % bound

    def between(self, least, most):
        return least + self.below(most - least + 1)

    def pick(self, row):
        return row[self.below(len(row))]

    def bytes(self, length):
        return bytes(self.below(256) for _ in range(length))

    def some(self, row, how_many):
        """That many different elements of the row, in the order they are drawn."""
        left = list(row)
        return [left.pop(self.below(len(left))) for _ in range(min(how_many, len(left)))]


# The bytes of records and tables.

def record(tag, contents=b""):
    return bytes([tag]) + len(contents).to_bytes(2, "big") + bytes(contents)


def header(tag, length):
    return bytes([tag]) + length.to_bytes(2, "big")


def head(n):
    return record(ROUTERS, [n])


def name(router, text=b"x"):
    return record(NAME, bytes([router]) + text)


def link(a, b, weight=1):
    return record(LINK, bytes([a, b]) + weight.to_bytes(2, "big"))


STOP = record(END)


def table(n, links, names=None):
    """The bytes of a table: links are {(a, b): weight}, names {router: bytes}."""
    names = names or {}
    return (head(n) + b"".join(name(router, names[router]) for router in sorted(names)) +
            b"".join(link(a, b, links[a, b]) for a, b in sorted(links)) + STOP)


# Weights: each is a function of the generator.

def ones(numbers):
    return 1


def small(numbers):
    return numbers.between(1, 4)


def ends(numbers):
    return numbers.pick([1, MOST_WEIGHT])


def any_weight(numbers):
    return numbers.between(1, MOST_WEIGHT)


WEIGHTS = [ones, small, ends, any_weight]


# Sites: the links of n routers.

def all_pairs(n):
    return [(a, b) for a in range(n) for b in range(a + 1, n)]


def weighed(pairs, numbers, weight):
    return {pair: weight(numbers) for pair in sorted(pairs)}


def random_site(numbers, n, how_many, weight):
    """Links between random pairs; some routers may stay unlinked."""
    return weighed(numbers.some(all_pairs(n), how_many), numbers, weight)


def tree_site(numbers, n, more, weight):
    """Every router is linked to one below it, and some more links are added."""
    pairs = {(numbers.below(b), b) for b in range(1, n)}
    return weighed(pairs | set(numbers.some(all_pairs(n), more)), numbers, weight)


def parts_site(numbers, n, weight):
    """Two separate parts: even routers are linked with even ones, odd with odd."""
    pairs = [(a, b) for a, b in all_pairs(n) if (b - a) % 2 == 0]
    return weighed(numbers.some(pairs, min(2 * n, 256)), numbers, weight)


def line(n, weight=1):
    return {(a, a + 1): weight for a in range(n - 1)}


def ring(n, weight=1):
    return line(n, weight) if n < 3 else {**line(n, weight), (0, n - 1): weight}


def grid(rows, columns, weight=1):
    links = {}
    for a in range(rows * columns):
        if (a + 1) % columns:
            links[a, a + 1] = weight
        if a + columns < rows * columns:
            links[a, a + columns] = weight
    return links


def complete(n, weight=1):
    return {pair: weight for pair in all_pairs(n)}


def star(n, weight=1):
    return {(0, b): weight for b in range(1, n)}


def two_sided(n, side, weight=1):
    """Routers below `side` are linked with all others: many ties."""
    return {(a, b): weight for a in range(side) for b in range(side, n)}


# Names.

def random_name(numbers, length):
    return bytes(numbers.between(0x21, 0x7E) for _ in range(length))


def random_names(numbers, routers):
    return {router: random_name(numbers, numbers.pick([1, 2, 5, 15, 16])) for router in routers}


# Single changes of the links of n routers; where none is possible the links stay.

def added(numbers, n, links):
    free = [pair for pair in all_pairs(n) if pair not in links]
    return {**links, numbers.pick(free): small(numbers)} if free else dict(links)


def removed(numbers, n, links):
    gone = numbers.pick(sorted(links)) if links else None
    return {pair: links[pair] for pair in links if pair != gone}


def reweighted_up(numbers, n, links):
    light = [pair for pair in sorted(links) if links[pair] < MOST_WEIGHT]
    if not light:
        return dict(links)
    pair = numbers.pick(light)
    return {**links, pair: numbers.between(links[pair] + 1, min(links[pair] + 9, MOST_WEIGHT))}


def reweighted_down(numbers, n, links):
    heavy = [pair for pair in sorted(links) if links[pair] > 1]
    if not heavy:
        return dict(links)
    pair = numbers.pick(heavy)
    return {**links, pair: numbers.between(1, links[pair] - 1)}


def unchanged(numbers, n, links):
    return dict(links)


CHANGES = [added, removed, reweighted_up, reweighted_down, unchanged]
