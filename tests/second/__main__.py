"""python3 tests/second paper                  holds the model to the examples of document 01
python3 tests/second make DIR               makes the question files and answer files, and document 01's tables
python3 tests/second listing TABLE          what the listing program prints
python3 tests/second paths OLD NEW VIEWS    what the dispatcher's program prints"""

import sys

sys.dont_write_bytecode = True  # before the imports below, so that none is written

import cases
import desk
import model
import paper


def content(file):
    with open(file, "rb") as opened:
        return opened.read()


def say(text):
    sys.stdout.buffer.write(text.encode("ascii"))


def paths(old, new, views):
    say(desk.paths(content(old), content(new), views))


COMMANDS = {
    ("paper", 0): lambda: say("the model gives every answer of the paper\n"),
    ("make", 1): cases.make,
    ("listing", 1): lambda table: say(model.listing(content(table))),
    ("paths", 3): paths,
}


def main(words):
    """The exit status: 0 if all is well, 1 if the model differs from the paper, 2 if misused."""
    command = COMMANDS.get((words[0], len(words) - 1)) if words else None
    if command is None:
        print(__doc__, file=sys.stderr)
        return 2
    if paper.differences():
        return 1
    command(*words[1:])
    return 0


sys.exit(main(sys.argv[1:]))
