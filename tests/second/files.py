"""Question files and answer files, as tests/README.md lays them out."""

from typing import NamedTuple

import questions
from reading import Refusal

AROUND = 8  # elements in front of a lent output, and behind it
MOST_LOAD, MOST_BYTES, MOST_PLACES = 8192, 4200, 80


def check(truth, what="a case is not what its group says"):
    """Stops the making of the files. Unlike `assert` it is never left out, nor a question asked in it."""
    if not truth:
        raise AssertionError(what)


class Question(NamedTuple):
    """One record of a question file."""
    letter: str
    x: int = 0
    y: int = 0
    z: int = 0
    load: bytes = b""
    room: int = 0
    second_room: int = 0


def question_bytes(question):
    """The header of 32 bytes and the load."""
    most_room = MOST_PLACES if question.letter == "f" else MOST_BYTES
    check(len(question.load) <= MOST_LOAD)
    check(question.room <= most_room and question.second_room <= MOST_PLACES)
    header = question.letter.encode("ascii") + b"\0"
    for number in (len(question.load), question.room, question.second_room):
        header += number.to_bytes(2, "big")
    for number in (question.x, question.y, question.z):
        header += number.to_bytes(8, "big")
    return header + question.load


def lent_bytes(room):
    return [(37 * i + 11) % 256 for i in range(room + 2 * AROUND)]


def lent_costs(room):
    return [0xC0000000 + i for i in range(room + 2 * AROUND)]


def lent_sets(room):
    return [0x5E70000000000000 + i for i in range(room + 2 * AROUND)]


def shown(array, digits, output=()):
    """The whole array after the output was written into its lent part."""
    after = list(array)
    after[AROUND:AROUND + len(output)] = output
    check(len(after) == len(array))
    return "".join("%0*x" % (digits, element) for element in after)


def fields_of(question, old, new):
    """The fields of an answer line; a refusal leaves 0 in every other number."""
    answered, refused = ANSWERS[question.letter]
    try:
        return [0, 0, 0] + answered(question, old, new)
    except Refusal as refusal:
        return [refusal.number, refusal.table, refusal.place] + refused(question)


def read_fields(question, old, new):
    table = questions.read(old)
    return [table.n, len(table.links)]


def pair_fields(question, old, new):
    first, _, different = questions.pair(old, new)
    return [first.n, different]


def entry_fields(question, old, new):
    return [questions.entry(old, question.x, question.y, question.z)]


def interface_fields(question, old, new):
    table = questions.interface_table(old, question.x, question.room)
    return [len(table), shown(lent_bytes(question.room), 2, table)]


def fill_fields(question, old, new):
    costs, sets = questions.fill(old, question.x, question.room, question.second_room)
    return [len(costs), shown(lent_costs(question.room), 8, costs),
            shown(lent_sets(question.second_room), 16, sets)]


def path_fields(question, old, new):
    outcome, router, hops, trace = questions.path(
        old, new, question.x, question.y, question.load, question.room)
    return [outcome, router, hops, shown(lent_bytes(question.room), 2, trace)]


def name_fields(question, old, new):
    return name_shown(questions.name(old, question.x))


def name_of_two_fields(question, old, new):
    return name_shown(questions.name_of_two(old, new, question.x))


def name_shown(found):
    """Without a name every number is 0 and the part handed back is empty."""
    if found is None:
        return [0, 0, 0, 0, "="]
    which, place, name = found
    return [1, which, len(name), place, "=" + name.decode("ascii")]


# For each letter the fields behind the first three, answered and refused.
ANSWERS = {
    "r": (read_fields, lambda question: [0, 0]),
    "p": (pair_fields, lambda question: [0, 0]),
    "e": (entry_fields, lambda question: [0]),
    "i": (interface_fields, lambda question: [0, shown(lent_bytes(question.room), 2)]),
    "f": (fill_fields, lambda question: [0, shown(lent_costs(question.room), 8),
                                         shown(lent_sets(question.second_room), 16)]),
    "t": (path_fields, lambda question: [0, 0, 0, shown(lent_bytes(question.room), 2)]),
    "a": (name_fields, lambda question: [0, 0, 0, 0, "="]),
    "b": (name_of_two_fields, lambda question: [0, 0, 0, 0, "="]),
}
