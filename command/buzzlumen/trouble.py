"""The three ways in which a question ends without an answer, each with the command's exit status.

A person reads the exception's words; the command's status is its class's.
"""


class Trouble(Exception):
    """A question that got no answer."""

    status = 3


class Refused(Trouble):
    """What was handed in is refused: it was read and understood, and is not what it would have to be."""

    status = 1


class Slip(Trouble):
    """A slip in what was asked: a word, a file that does not read, an output that stands already."""

    status = 2


class OfTheMachine(Trouble):
    """Something of the machine: no solver, no room on the disk, no library."""

    status = 3
