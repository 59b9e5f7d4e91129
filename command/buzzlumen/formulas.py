"""Formulas: DIMACS text read and written, and what each variable means."""

import array
from collections import namedtuple

from . import files
from .trouble import Slip
from .words import MOST_NUMBER, is_digits, lines_of, number_in, shown

MOST_LITERAL = 2 ** 31 - 1
MOST_SAID, MOST_SAID_NODES = 8, 40
MEANING = "c variable "

# A formula out of a file: the variables that its header says, its numbers, the file's line of each clause, and the
# meaning of variables that its comments give.
Formula = namedtuple("Formula", "path variables numbers lines meanings")


# Numbers


def signed_number(word):
    """A literal, or 0. One that does not fit in 32 bits is beyond every formula, and so is what stands for it."""
    digits = word.lstrip("-")
    if len(digits) > 10 or int(digits) > MOST_LITERAL:
        return -MOST_LITERAL if word.startswith("-") else MOST_LITERAL
    return int(word)


def numbers_in(words):
    """The numbers that some words say; a word that says none is raised as ValueError."""
    for word in words:
        digits = word.removeprefix("-")
        if not is_digits(digits) or (digits[0] == "0" and word != "0"):
            raise ValueError(word)
    return [signed_number(word) for word in words]


# Reading


def read_formula(path):
    """The formula in a DIMACS file."""
    data = files.read_bytes(path)
    if files.kind_of(data) in (files.CERTIFICATE, files.NETLIST, files.YOSYS, files.BINARY_PROOF):
        raise Slip(f"{files.name_of(path)}: is {files.kind_of(data)}, not a formula in DIMACS")
    variables, numbers, lines, meanings = None, array.array("i"), array.array("I"), {}
    for place, line in enumerate(lines_of(files.text_of(path, data)), 1):
        words = line.split()
        if not words:
            continue
        if words[0] == "c":
            note_meaning(line, meanings)
        elif words[0] == "p":
            variables = read_header(path, place, words, variables)
        elif words[0] == "%":
            break
        else:
            read_clauses(path, place, line, words, numbers, lines)
    if variables is None:
        raise Slip(f"{files.name_of(path)}: is no formula in DIMACS: no line starts with p cnf")
    return Formula(path, variables, numbers, lines, meanings)


def read_header(path, place, words, before):
    """The variables that a header says."""
    counts = [number_in(word, MOST_NUMBER) for word in words[2:]]
    if words[:2] != ["p", "cnf"] or len(counts) != 2 or None in counts or before is not None:
        raise Slip(f"{files.name_of(path)}, line {place}: {shown(' '.join(words))} is no header of a formula, "
                   "as p cnf 8 15")
    return counts[0]


def read_clauses(path, place, line, words, numbers, lines):
    """A line of numbers; each 0 ends a clause."""
    try:
        found = numbers_in(words)
    except ValueError:
        raise Slip(f"{files.name_of(path)}, line {place}: {shown(line)} is no row of numbers") from None
    numbers.extend(found)
    lines.extend([place] * found.count(0))


def note_meaning(line, meanings):
    """A comment that says what a variable means, as `formula --names` writes it."""
    if line.strip().startswith(MEANING):
        digits, _, meaning = line.strip().removeprefix(MEANING).partition(": ")
        number = number_in(digits, MOST_LITERAL)
        if number and meaning:
            meanings[number] = meaning


# Writing


def clause_text(numbers):
    """Clauses as text, one a line."""
    text = " ".join(map(str, numbers)).replace(" 0 ", " 0\n")
    # An empty clause behind another one has kept its blank.
    while "\n0 " in text:
        text = text.replace("\n0 ", "\n0\n")
    if text.startswith("0 "):
        text = "0\n" + text[2:]
    return text + "\n" if text else ""


def dimacs(built, comments=()):
    """A formula that the library built, as DIMACS text."""
    head = "".join(f"c {comment}\n" for comment in comments)
    return f"{head}p cnf {built.variables} {built.clauses}\n{clause_text(built.formula)}"


# Meanings


class Meanings:
    """What the variables of a circuit's formula mean: the nodes, then the pairs, which are node and time, or node,
    value and time where rise and fall are apart."""

    def __init__(self, names, pairs, apart=False):
        self.names, self.pairs, self.width = names, pairs, 3 if apart else 2

    def pair(self, number):
        """The node's name of a pair's variable, and its time in words, with its value where it has one."""
        place = self.width * (number - len(self.names) - 1)
        node, *value, time = self.pairs[place:place + self.width]
        return self.names[node], f"{time} with value {value[0]}" if value else str(time)

    def of(self, variable):
        """A variable in words."""
        if variable <= len(self.names):
            return f"{self.names[variable - 1]} is 1"
        name, time = self.pair(variable)
        return f"{name} late at {time}"

    def literal(self, literal):
        """A literal in words."""
        if literal > 0:
            return self.of(literal)
        if -literal <= len(self.names):
            return f"{self.names[-literal - 1]} is 0"
        name, time = self.pair(-literal)
        return f"{name} not late at {time}"

    def comments(self):
        """Every variable's meaning, as comment lines."""
        for variable in range(1, len(self.names) + len(self.pairs) // self.width + 1):
            yield f"variable {variable}: {self.of(variable)}"

    def in_short(self):
        """The meanings in one sentence or two; the pairs as far as there are few."""
        count = len(self.pairs) // self.width
        first = len(self.names) + 1
        said = [f"{variable}: {self.of(variable)}" for variable in range(first, first + min(count, MOST_SAID))]
        if count > MOST_SAID:
            said.append(f"and so on to {first + count - 1} (--names has them all)")
        names = self.names if len(self.names) <= MOST_SAID_NODES else [*self.names[:2], "...", self.names[-1]]
        nodes = f"Variables 1 to {len(self.names)}: {' '.join(names)}."
        return " ".join([nodes] + [", ".join(said) + "."] * bool(said))


class NoMeanings:
    """A formula out of a file: what its comments say, and numbers for the rest."""

    def __init__(self, meanings):
        self.meanings = meanings

    def literal(self, literal):
        """A literal in words, or as its number."""
        meaning = self.meanings.get(abs(literal))
        if meaning is None:
            return str(literal)
        if literal > 0:
            return meaning
        return f"not ({meaning})"


def clause_words(literals, meanings):
    """A clause in words."""
    if not literals:
        return "the empty clause"
    return "the clause \"" + ", or ".join(meanings.literal(literal) for literal in literals) + "\""
