"""A row of questions with their answers, counted as they are put."""

import model
import questions
from files import Question, check, fields_of, question_bytes


class Book:
    """A row of questions with their answers, and the two tables that are held."""

    def __init__(self):
        self.questions = bytearray()
        self.answers = bytearray()
        self.old = b""
        self.new = b""
        self.letters = {}
        self.refusals = {}
        self.outcomes = {}

    def hold(self, old=None, new=None):
        """From now on these are the tables; one that is held already is not written again."""
        if old is not None and old != self.old:
            self.old = old
            self.put(Question("o", load=old))
        if new is not None and new != self.new:
            self.new = new
            self.put(Question("n", load=new))

    def put(self, question):
        self.questions += question_bytes(question)
        count(self.letters, question.letter)

    def ask(self, letter, x=0, y=0, z=0, load=b"", room=0, second_room=0):
        """Puts a question and its answer line, and hands back the fields."""
        question = Question(letter, x, y, z, load, room, second_room)
        self.put(question)
        if letter == "s":
            fields = [model.listing(self.old)]
            self.answers += fields[0].encode("ascii")
            return fields
        fields = self.fields(question)
        line = " ".join([letter] + [str(field) for field in fields])
        self.answers += line.encode("ascii") + b"\n"
        return fields

    def fields(self, question):
        if question.letter == "l":
            links = questions.links(self.old)
            return ["%d-%d:%d" % link for link in links] + [".", ".", "."]
        if question.letter == "c":
            return list(model.chosen_hop(question.x))
        fields = fields_of(question, self.old, self.new)
        count(self.refusals, fields[0])
        if question.letter == "t" and fields[0] == 0:
            count(self.outcomes, fields[3])
        return fields

    def refused(self, number, table, place, letter, **rest):
        """Asks a question that has to be refused in just this way; number 0 is no refusal."""
        fields = self.ask(letter, **rest)
        expected = [number, table, place]
        check(fields[:3] == expected, (letter, rest, fields[:3], expected))

    def answered(self, letter, **rest):
        """Asks a question that must not be refused."""
        fields = self.ask(letter, **rest)
        check(fields[:3] == [0, 0, 0], (letter, rest, fields[:3]))
        return fields[3:]


def count(counts, key):
    counts[key] = counts.get(key, 0) + 1
