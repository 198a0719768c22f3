"""Costs, next hops, entries, paths, names and the listing: document 01 as a plain program."""

from functools import lru_cache

from reading import Refusal, read_table

NO_COST = 4294967295
STARTS_HERE = 255
DELIVER, DISCARD, NO_ROUTE, OWN_ROW, LOST = 128, 129, 130, 131, 132


def neighbours(table, i):
    """Every router linked to i, with the weight, which holds both ways."""
    return ([(b, weight) for a, b, weight in table.links if a == i] +
            [(a, weight) for a, b, weight in table.links if b == i])


@lru_cache(maxsize=4096)
def costs(table, d):
    """cost(i, d) for every router i: all links are relaxed N-1 times.

    A round that changes nothing would change nothing later either.
    """
    cost = [NO_COST] * table.n
    cost[d] = 0
    for _ in range(table.n - 1):
        before = list(cost)
        for a, b, weight in table.links:
            cost[a] = lower(cost[a], weight, cost[b])
            cost[b] = lower(cost[b], weight, cost[a])
        if cost == before:
            break
    return cost


def lower(cost_here, weight, cost_there):
    """The lower of a cost and the cost over a link; nothing is added to "no route"."""
    if cost_there == NO_COST:
        return cost_here
    return min(cost_here, weight + cost_there)


@lru_cache(maxsize=65536)
def next_hop_set(table, i, d):
    """Bit k for every neighbour k with weight(i, k) + cost(k, d) = cost(i, d)."""
    cost = costs(table, d)
    if i == d or cost[i] == NO_COST:
        return 0
    return sum(1 << k for k, weight in neighbours(table, i) if weight + cost[k] == cost[i])


def members(hop_set):
    """The routers of a set, rising."""
    return [k for k in range(64) if hop_set >> k & 1]


def chosen_hop(hop_set):
    """The lowest-numbered member and the size; 255 and 0 for the empty set."""
    routers = members(hop_set)
    return (routers[0], len(routers)) if routers else (255, 0)


def entry(table, i, j, d):
    """What router i does with a packet for d from previous hop j; first line that applies."""
    hop_set = next_hop_set(table, i, d)
    if i == d:
        return DELIVER
    if costs(table, d)[i] == NO_COST:
        return NO_ROUTE
    if j in members(hop_set):
        return DISCARD
    return chosen_hop(hop_set)[0]


def interface_table(table, i):
    """Row 255 first, then previous hops 0 to N-1, a column for each destination."""
    routers = range(table.n)
    rows = [[entry(table, i, STARTS_HERE, d) for d in routers]]
    for j in routers:
        rows.append([OWN_ROW if j == i else entry(table, i, j, d) for d in routers])
    return [code for row in rows for code in row]


def path(old, new, source, destination, views):
    """Outcome, router where it ended, hops (links really crossed) and trace of one packet."""
    views = views[:new.n - 1]
    trace = [source]
    previous, router, decided = STARTS_HERE, source, 0
    while True:
        # Arriving applies the entry; the destination delivers and reads no byte.
        if router == destination:
            return DELIVER, router, len(trace) - 1, trace
        view = new if views[decided] == 1 else old
        decided += 1
        code = entry(view, router, previous, destination)
        if code in (DISCARD, NO_ROUTE):
            return code, router, len(trace) - 1, trace
        # Leaving crosses a link; the real links are those of the new table.
        if code not in [k for k, _ in neighbours(new, router)]:
            return LOST, router, len(trace) - 1, trace
        previous, router = router, code
        trace.append(router)


def differing_links(old, new):
    """How many links are in only one table or have another weight."""
    old_weights = {(a, b): weight for a, b, weight in old.links}
    new_weights = {(a, b): weight for a, b, weight in new.links}
    pairs = set(old_weights) | set(new_weights)
    return sum(1 for pair in pairs if old_weights.get(pair) != new_weights.get(pair))


def name_of(table, router):
    """Place of the first byte and bytes of a router's name, or None."""
    for named, place, name in table.names:
        if named == router:
            return place, name
    return None


def listing(data):
    """What the listing program prints for these bytes."""
    try:
        table = read_table(data)
    except Refusal as refusal:
        return "refused %d at %d\n" % (refusal.number, refusal.place)
    lines = ["router dest cost next\n"]
    for i in range(table.n):
        lines += [listing_line(table, i, d) for d in range(table.n) if d != i]
    return "".join(lines)


def listing_line(table, i, d):
    """Router, destination, cost and the set's members; no route prints - twice."""
    cost = costs(table, d)[i]
    if cost == NO_COST:
        return "%d %d - -\n" % (i, d)
    hops = ",".join(str(k) for k in members(next_hop_set(table, i, d)))
    return "%d %d %d %s\n" % (i, d, cost, hops)
