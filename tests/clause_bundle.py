#!/usr/bin/env python3
"""Writes the input and the expected output of the program clause_cases, from docs/RULES.md alone.

A list of numbers is cut at its zeros here, all at once: the clause with a number is a piece, and a reader's place is a
sum of the pieces' lengths. Run without arguments: writes crates/clause_cases/stdin and stdout. With --check: compares
them, and writes nothing.
"""
import pathlib
import random
import struct
import sys

MOST_INPUT = 65536
LEAST, MOST = -(2 ** 31), 2 ** 31 - 1


def pieces(numbers):
    """The clauses of a list, each with its 0; numbers after the last 0 are no clause."""
    cuts = [index + 1 for index, number in enumerate(numbers) if number == 0]
    return [numbers[start:end] for start, end in zip([0, *cuts], cuts)]


def clause(formula, refutation, number):
    """The clause with a number, the formula's first; none has it: nothing."""
    both = pieces(formula) + pieces(refutation)
    return both[number] if number < len(both) else []


def read_at(formula, place):
    """What a reader gives at a place, and the place after a step; where no 0 is left it stays."""
    given = pieces(formula[place:])[:1]
    return (given[0], place + len(given[0])) if given else ([], place)


def line(formula, refutation, number, place):
    """The line of one case."""
    given, after = read_at(formula, place)
    second, _ = read_at(formula, read_at(formula, 0)[1])
    places = [0]
    for _ in range(4):
        places.append(read_at(formula, places[-1])[1])
    words = ["clause", *clause(formula, refutation, number), "reader", *given, "next", after, "second", *second,
             "places", *places[1:]]
    return " ".join(str(word) for word in words) + "\n"


def named_cases():
    """Each clause of two lists and one more; each place of a formula and beyond; lists without an end or a clause."""
    lists = ([], [0], [0, 0], [1, 0], [1], [1, -2, 0, 0, 3], [1, 2, 0, -1, 0], [3, 0, 0, -3, 0, 2], [LEAST, MOST, 0, 7])
    for formula in lists:
        for refutation in lists:
            for number in range(len(pieces(formula)) + len(pieces(refutation)) + 2):
                yield formula, refutation, number, number
        for place in range(len(formula) + 3):
            yield formula, [9, 0], place, place
        yield formula, [9, 0], MOST, MOST


def random_case(source):
    """Two lists with many zeros, a number and a place near their ends."""
    def numbers():
        return [source.choice((0, 0, 1, -1)) * source.randint(1, 99) for _ in range(source.randint(0, 12))]
    formula, refutation = numbers(), numbers()
    return formula, refutation, source.randint(0, 10), source.randint(0, 14)


def all_cases():
    """The named cases, then random ones from one seed."""
    yield from named_cases()
    source = random.Random(20)
    for _ in range(160):
        yield random_case(source)


def packed(formula, refutation, number, place):
    """A case as the program reads it."""
    words = [len(formula), *formula, len(refutation), *refutation, number, place]
    return struct.pack("<%di" % len(words), *words)


def main():
    """Write the stored files, or compare them."""
    cases = list(all_cases())
    given = b"".join(packed(*case) for case in cases)
    expected = "".join(line(*case) for case in cases)
    folder = pathlib.Path(__file__).resolve().parent.parent / "crates" / "clause_cases"
    assert len(given) <= MOST_INPUT, len(given)
    if "--check" in sys.argv[1:]:
        same = (folder / "stdin").read_bytes() == given and (folder / "stdout").read_text() == expected
        print("clause_cases: %d cases, %s" % (len(cases), "same" if same else "different"))
        sys.exit(0 if same else 1)
    (folder / "stdin").write_bytes(given)
    (folder / "stdout").write_text(expected)
    print("clause_cases: %d cases, %d bytes" % (len(cases), len(given)))


main()
