"""The questions with their refusals: old table, new table, 8, 9, 11, 10, in this order."""

from functools import lru_cache

import model
import reading
from model import STARTS_HERE
from reading import Refusal


@lru_cache(maxsize=256)
def read(data, which=0):
    """The table in these bytes, or a refusal by 1 to 7."""
    return reading.read_table(data, which)


def judge_router(router, n):
    if router >= n:
        raise Refusal(9)


def judge_previous_hop(j, router, n):
    """255 or a router below N, and not the router asked about."""
    if (j != STARTS_HERE and j >= n) or j == router:
        raise Refusal(9)


def judge_views(views, n):
    """At least N-1 bytes, of which the first N-1 are 0 or 1."""
    if len(views) < n - 1 or any(byte > 1 for byte in views[:n - 1]):
        raise Refusal(11)


def judge_room(room, needed):
    if room < needed:
        raise Refusal(10)


def links(data):
    """The links that the link reader gives: none from a refused table."""
    try:
        return read(data).links
    except Refusal:
        return []


def pair(old_data, new_data):
    """Both tables and how many links differ, which is 0 or 1."""
    old, new = read(old_data, 0), read(new_data, 1)
    different = model.differing_links(old, new)
    if old.n != new.n or different > 1:
        raise Refusal(8)
    return old, new, different


def entry(data, i, j, d):
    table = read(data)
    judge_router(i, table.n)
    judge_previous_hop(j, i, table.n)
    judge_router(d, table.n)
    return model.entry(table, i, j, d)


def interface_table(data, i, room):
    table = read(data)
    judge_router(i, table.n)
    judge_room(room, (table.n + 1) * table.n)
    return model.interface_table(table, i)


def fill(data, d, cost_room, set_room):
    """N costs and N sets for destination d."""
    table = read(data)
    judge_router(d, table.n)
    judge_room(cost_room, table.n)
    judge_room(set_room, table.n)
    return model.costs(table, d), [model.next_hop_set(table, i, d) for i in range(table.n)]


def path(old_data, new_data, source, destination, views, room):
    old, new, _ = pair(old_data, new_data)
    judge_router(source, new.n)
    judge_router(destination, new.n)
    judge_views(views, new.n)
    judge_room(room, new.n)
    return model.path(old, new, source, destination, views)


def name(data, router):
    """The table that the name is in, its place and its bytes; None without a name."""
    table = read(data)
    judge_router(router, table.n)
    return name_in(table, 0, router)


def name_of_two(old_data, new_data, router):
    """The name in the new table, or else the one in the old; 8 is not tested."""
    old, new = read(old_data, 0), read(new_data, 1)
    judge_router(router, old.n)
    judge_router(router, new.n)
    return name_in(new, 1, router) or name_in(old, 0, router)


def name_in(table, which, router):
    found = model.name_of(table, router)
    return found and (which, found[0], found[1])
