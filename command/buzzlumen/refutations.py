"""Refutations: solver text as solvers write it, read into the library's list of numbers, with the line of each clause.

Read are: numbers, each clause ended by 0 (cadical with --no-binary); a first line that starts with % (picosat -R);
comments, lines that start with c or, ours, behind a #; deletions, which are passed over; cadical's binary form. A file
without any clause is a solver's answer to a formula that unit propagation refutes alone: read as the empty clause.
"""

import array
from collections import namedtuple

from . import files
from .formulas import MOST_LITERAL, clause_words, numbers_in
from .refusals import LAST, REFUTATION, STEP, named
from .trouble import Slip
from .words import lines_of, shown

# A refutation out of a file: its numbers; for each clause the line of the file and the line of the text, which is the
# count of clauses up to it, deletions counted. In the binary form there are no lines of the file.
Refutation = namedtuple("Refutation", "path numbers file_lines text_lines binary was_empty")

FRAT = ("is FRAT, as cryptominisat writes it, which is not read here: let cadical (--no-binary) or picosat (-R) refute "
        "the formula")
NO_PROOF = ("is a solver's answer, not a refutation; minisat writes none at all: let cadical (--no-binary) or picosat "
            "(-R) refute the formula")


class Reading:
    """A refutation as far as it has been read."""

    def __init__(self):
        self.numbers, self.file_lines, self.text_lines = array.array("i"), array.array("I"), array.array("I")
        self.clauses = 0

    def end_clause(self, line, deleted):
        """A clause has ended; the lines of one that was added are kept."""
        self.clauses += 1
        if not deleted:
            self.file_lines.append(line)
            self.text_lines.append(self.clauses)

    def whole(self, path, binary):
        """The refutation, when all has been read."""
        was_empty = not self.numbers
        if was_empty:
            self.numbers.append(0)
            self.end_clause(0, False)
        return Refutation(path, self.numbers, self.file_lines, self.text_lines, binary, was_empty)


def read_refutation(path):
    """The refutation in a file."""
    data = files.read_bytes(path)
    kind = files.kind_of(data)
    if kind == files.BINARY_FRAT:
        raise Slip(f"{files.name_of(path)}: {FRAT}")
    if kind == files.BINARY_PROOF:
        return read_binary(path, data)
    if kind in (files.CERTIFICATE, files.NETLIST, files.YOSYS, files.FORMULA):
        raise Slip(f"{files.name_of(path)}: is {kind}, not a refutation")
    return read_lines(path, lines_of(files.text_of(path, data)))


# Text


def read_lines(path, lines):
    """The refutation in lines of text."""
    reading, deleted, open_clause = Reading(), False, False
    for place, line in enumerate(lines, 1):
        words = line.partition("#")[0].split()
        if not words or words[0] == "c" or (words[0].startswith("%") and not reading.clauses):
            continue
        if not open_clause:
            deleted = words[0] == "d"
            words = words[1:] if deleted else words
        numbers = row(path, place, line, words)
        open_clause, deleted = add_row(reading, place, numbers, deleted, open_clause)
    return reading.whole(path, False)


def add_row(reading, place, numbers, deleted, open_clause):
    """A line's numbers; gives whether a clause is still open behind it, and whether that is a deletion."""
    if not deleted:
        reading.numbers.extend(numbers)
    for number in numbers:
        open_clause = number != 0
        if not open_clause:
            reading.end_clause(place, deleted)
    return open_clause, deleted and open_clause


def row(path, place, line, words):
    """The numbers of a line."""
    try:
        return numbers_in(words)
    except ValueError:
        raise Slip(f"{files.name_of(path)}, line {place}: {not_a_row(line)}") from None


def not_a_row(line):
    """What a line is that is no row of numbers."""
    words = line.split()
    if words[0] in ("o", "a", "l", "f", "r"):
        return FRAT
    if words[0] in ("s", "v") or words[0] in ("SAT", "UNSAT", "SATISFIABLE", "UNSATISFIABLE", "INDET"):
        return NO_PROOF
    return f"{shown(line.strip())} is no row of numbers, each clause ended by 0"


# The binary form


def read_binary(path, data):
    """The refutation in cadical's binary form: a or d, then each literal in groups of seven bits, then 0."""
    reading, at = Reading(), 0
    while at < len(data):
        if data[at] not in b"ad":
            raise Slip(f"{files.name_of(path)}: is no binary refutation from byte {at + 1} on")
        deleted = data[at] == ord("d")
        literals, at = binary_clause(path, data, at + 1)
        if not deleted:
            reading.numbers.extend(literals)
            reading.numbers.append(0)
        reading.end_clause(0, deleted)
    return reading.whole(path, True)


def binary_clause(path, data, at):
    """The literals up to a 0, and the place behind it."""
    literals, value, shift = [], 0, 0
    while at < len(data):
        byte = data[at]
        at += 1
        value |= (byte & 127) << shift
        shift += 7
        if byte < 128:
            if value == 0:
                return literals, at
            literals.append(min(value >> 1, MOST_LITERAL) * (-1 if value & 1 else 1))
            value = shift = 0
        elif shift > 63:
            break
    raise Slip(f"{files.name_of(path)}: is no binary refutation: a clause has no end")


# Refusals


def place_words(refutation, clause):
    """Where a clause of a refutation stands."""
    name = files.name_of(refutation.path)
    if clause >= len(refutation.text_lines):
        return f"{name}, behind its last 0"
    line = refutation.text_lines[clause]
    if refutation.was_empty:
        return f"{name} has no clause, and the empty one stands for it"
    if refutation.binary:
        return f"{name}, clause {line}, deletions counted"
    return f"{name}, line {refutation.file_lines[clause]} (clause {line}, deletions counted)"


def clause_at(numbers, place):
    """The number of the clause that the number at a place belongs to."""
    return sum(1 for number in numbers[:place] if number == 0)


def literals_of(numbers, clause):
    """The literals of a clause."""
    literals = []
    for number in numbers:
        if clause == 0 and number:
            literals.append(number)
        elif number == 0:
            clause -= 1
            if clause < 0:
                break
    return literals


def of_refutation(number, place, refutation, variables, meanings):
    """The cause of a refusal from 12 to 14."""
    numbers = refutation.numbers
    if number == REFUTATION and place < len(numbers):
        where = place_words(refutation, clause_at(numbers, place))
        return named(number, f"{where}: literal {numbers[place]}, and the formula has {variables} variables")
    if number == REFUTATION:
        return named(number, f"{files.name_of(refutation.path)}: the last clause has no 0 at its end")
    if number == LAST and place < len(refutation.text_lines):
        return named(number, f"{place_words(refutation, place)}: the empty clause, and further clauses follow it")
    if number == LAST:
        return named(number, f"{files.name_of(refutation.path)}: no clause is empty, so no contradiction is reached; "
                     "the last step of a refutation is 0 alone")
    clause = clause_words(literals_of(numbers, place), meanings)
    return named(STEP, f"{place_words(refutation, place)}: {clause} doesn't follow")
