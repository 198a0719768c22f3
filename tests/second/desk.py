"""What the dispatcher's program prints: the path of a packet between every two cabinets."""

import questions

OUTCOMES = {128: "delivered", 129: "discarded", 130: "no route", 132: "lost"}


def view_list(letters):
    """A byte for each o (old) and n (new); the last holds for all later routers."""
    return bytes("on".index(letter) for letter in letters.ljust(64, letters[-1]))


def cabinet(old_data, new_data, router):
    found = questions.name_of_two(old_data, new_data, router)
    return found[2].decode("ascii") if found else "cabinet %d" % router


def paths(old_data, new_data, letters):
    """Every pair that the tables have, and how often each outcome came."""
    old, _, different = questions.pair(old_data, new_data)
    names = [cabinet(old_data, new_data, router) for router in range(old.n)]
    lines = ["cabinets %d, links changed %d, views %s" % (old.n, different, letters),
             "%-16s %-16s %-9s  %4s  %s" % ("from", "to", "outcome", "hops", "path")]
    counts = dict.fromkeys(OUTCOMES, 0)
    for source in range(old.n):
        for destination in range(old.n):
            if source != destination:
                outcome, _, hops, trace = questions.path(
                    old_data, new_data, source, destination, view_list(letters), old.n)
                counts[outcome] += 1
                path = " > ".join(names[router] for router in trace)
                lines.append("%-16s %-16s %-9s  %4d  %s" % (
                    names[source], names[destination], OUTCOMES[outcome], hops, path))
    lines.append(", ".join("%d %s" % (counts[outcome], OUTCOMES[outcome]) for outcome in OUTCOMES))
    return "".join(line + "\n" for line in lines)
