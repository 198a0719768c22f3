"""Reading a table: document 01, "The table's bytes", and the numbers 1 to 7."""

ROUTERS, NAME, LINK, END = 0x01, 0x02, 0x04, 0x7F
LENGTHS = {ROUTERS: range(1, 2), NAME: range(2, 18), LINK: range(4, 5), END: range(0, 1)}
MOST_ROUTERS = 64
MOST_LINKS = 256


class Refusal(Exception):
    """A refusal: its number, which table (0 the old or only one, 1 the new), the place."""

    def __init__(self, number, table=0, place=0):
        super().__init__(number, table, place)
        self.number = number
        self.table = table
        self.place = place


class Table:
    """A table as far as it was read; names and links stand in file order."""

    def __init__(self):
        self.n = 0
        self.names = []  # (router, place of the name's first byte, name)
        self.links = []  # (a, b, weight)


def read_table(data, which=0):
    """The table in these bytes; the first bad record decides the refusal."""
    table = Table()
    tag, place = None, 0
    while tag != END:
        tag, contents = judge_record(table, tag, data, place, which)
        add_record(table, tag, contents, place)
        place += 3 + len(contents)
    if place < len(data):
        raise Refusal(7, which, place)
    return table


def judge_record(table, tag_before, data, place, which):
    """Tag and contents of a good record; the order is 1, 2, 3, 1, 4, 5, 6."""
    if len(data) - place < 3:
        raise Refusal(1, which, place)
    tag = data[place]
    if not tag_is_good(tag, tag_before):
        raise Refusal(2, which, place)
    length = 256 * data[place + 1] + data[place + 2]
    if length not in LENGTHS[tag]:
        raise Refusal(3, which, place)
    if place + 3 + length > len(data):
        raise Refusal(1, which, place)
    contents = data[place + 3:place + 3 + length]
    if not in_range(table, tag, contents):
        raise Refusal(4, which, place)
    if not above_the_one_before(table, tag, contents):
        raise Refusal(5, which, place)
    if tag == LINK and len(table.links) == MOST_LINKS:
        raise Refusal(6, which, place)
    return tag, contents


def tag_is_good(tag, tag_before):
    """The first tag is 0x01, and no other is; all are known and never fall."""
    if tag_before is None:
        return tag == ROUTERS
    return tag in LENGTHS and tag != ROUTERS and tag >= tag_before


def link_in(contents):
    """Router a, router b and the weight, high byte first."""
    return contents[0], contents[1], 256 * contents[2] + contents[3]


def in_range(table, tag, contents):
    """N, routers, weight and name bytes are in range, and a is below b."""
    if tag == ROUTERS:
        return 1 <= contents[0] <= MOST_ROUTERS
    if tag == NAME:
        return contents[0] < table.n and all(0x21 <= byte <= 0x7E for byte in contents[1:])
    if tag == LINK:
        a, b, weight = link_in(contents)
        return a < table.n and b < table.n and weight >= 1 and a < b
    return True


def above_the_one_before(table, tag, contents):
    """Names rise strictly by router, links strictly by the pair (a, b)."""
    if tag == NAME and table.names:
        return contents[0] > table.names[-1][0]
    if tag == LINK and table.links:
        return link_in(contents)[:2] > table.links[-1][:2]
    return True


def add_record(table, tag, contents, place):
    """Puts a good record into the table; a name begins behind header and router."""
    if tag == ROUTERS:
        table.n = contents[0]
    elif tag == NAME:
        table.names.append((contents[0], place + 4, contents[1:]))
    elif tag == LINK:
        table.links.append(link_in(contents))
