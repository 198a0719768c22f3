"""Makes the question files and the answer files, group by group."""

import os

import cases_listing
import cases_orders
import cases_pairs
import cases_questions
import cases_refusals
import cases_tables
import paper
from book import Book
from files import check

MOST_BYTES = 900000
MOST_LISTING_BYTES = 500000


def examples_of_the_paper(book):
    """P1 to P12 and the interface table, each with the questions that fit."""
    for mark, text, expected in paper.READINGS:
        book.hold(old=bytes.fromhex(text))
        fields = book.ask("r")
        check(tuple(fields) in ((0, 0, 0) + expected, expected + (0, 0)), mark)
        book.ask("l")
    for mark, old, new, source, destination, views, n, expected in paper.PATHS:
        book.hold(old=old, new=new)
        fields = book.answered("t", x=source, y=destination, load=bytes(views), room=n)
        check(tuple(fields[:3]) == expected[:3], mark)
        for letter in "rlp":
            book.ask(letter)
        book.answered("f", x=destination, room=n, second_room=n)
    book.hold(old=paper.OLD_TRIANGLE)
    for router in range(3):
        book.answered("i", x=router, room=12)


def questions_and_answers():
    """Every question but the listing."""
    book = Book()
    examples_of_the_paper(book)
    for module in (cases_refusals, cases_questions, cases_orders, cases_tables, cases_pairs):
        for group in module.GROUPS:
            group(book)
    check(len(book.questions) < MOST_BYTES and len(book.answers) < MOST_BYTES)
    check(all(book.letters[letter] >= 300 for letter in "rlpeifctab"))
    check(all(book.outcomes[outcome] >= 80 for outcome in (128, 129, 130, 132)))
    return book


def listings():
    """The listing questions alone."""
    book = Book()
    for group in cases_listing.GROUPS:
        group(book)
    check(len(book.answers) < MOST_LISTING_BYTES)
    return book


def write(folder, name, data):
    with open(os.path.join(folder, name), "wb") as file:
        file.write(data)


def counts_line(title, *counts):
    """A title and how often each key came, in rising order of the keys."""
    parts = ["%s %d" % (key, count[key]) for count in counts for key in sorted(count)]
    return title + ": " + ", ".join(parts)


def make(folder):
    """Writes the four files, says how many questions of each kind they hold, and writes the paper's tables."""
    asked, listed = questions_and_answers(), listings()
    os.makedirs(folder, exist_ok=True)
    write(folder, "questions", asked.questions)
    write(folder, "answers", asked.answers)
    write(folder, "listing-questions", listed.questions)
    write(folder, "listing-answers", listed.answers)
    for name in paper.TABLES:
        write(folder, name + ".table", paper.TABLES[name])
    write(folder, "four-routers.listing", paper.LISTING.encode("ascii"))
    print(counts_line("questions", asked.letters) + "; " + counts_line("listing", listed.letters))
    print(counts_line("answered 0 or refused by number", asked.refusals))
    print(counts_line("outcomes of paths", asked.outcomes))
