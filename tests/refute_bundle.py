#!/usr/bin/env python3
"""Writes the input and the expected output of the program refute_cases, from docs/RULES.md alone.

Unit propagation here works on sets: the stored clauses are sets of literals, and all clauses are looked at together,
until no rule applies. Run without arguments: writes crates/refute_cases/stdin and stdout. With --check: compares them,
and writes nothing.
"""
import pathlib
import random
import struct
import sys

from document import clauses_in

LEAST = -(2**31)


def follows(stored, clause):
    """Whether the clause follows from the stored clauses by unit propagation."""
    true = {-literal for literal in clause}
    if any(-literal in true for literal in true):
        return True
    sets = [frozenset(c) for c in stored]
    while True:
        left = [{literal for literal in c if -literal not in true} for c in sets]
        if any(not c for c in left):
            return True
        units = {next(iter(c)) for c in left if len(c) == 1} - true
        if not units:
            return False
        if any(-literal in units for literal in units):
            # one of the two would be true and the other's clause false
            return True
        true |= units


def beyond(variables, numbers):
    """The index of the first literal of magnitude over V, or None."""
    for index, number in enumerate(numbers):
        if abs(number) > variables:
            return index
    return None


def answer(variables, formula, refutation, room):
    """The answer to a separate refutation check: 11, 12, 13, 9, 14."""
    if variables > 100000:
        return 11, 0
    if beyond(variables, formula) is not None:
        return 11, beyond(variables, formula)
    if formula and formula[-1] != 0:
        return 11, len(formula)
    if beyond(variables, refutation) is not None:
        return 12, beyond(variables, refutation)
    if not refutation or refutation[-1] != 0:
        return 12, len(refutation)
    steps = clauses_in(refutation)
    for index, step in enumerate(steps[:-1]):
        if not step:
            return 13, index
    if steps[-1]:
        return 13, len(steps)
    if room < variables + 1:
        return 9, variables + 1
    stored = clauses_in(formula)
    for index, step in enumerate(steps):
        if not follows(stored, step):
            return 14, index
        stored.append(step)
    return None


def flat(clauses):
    return [number for clause in clauses for number in [*clause, 0]]


def numbers(text):
    return [int(word) for word in text.split()]


def named_cases():
    """The runs that the rules' examples name, and their edges."""
    four = numbers("1 2 0 1 -2 0 -1 2 0 -1 -2 0")
    yield 2, four, [0], 3
    yield 2, four, numbers("1 0 0"), 3
    yield 2, four, numbers("0 0"), 3
    yield 2, numbers("1 2 0"), numbers("1 -1 0 0"), 3
    yield 0, [], [0], 1
    yield 0, numbers("1 0"), [0], 1
    # the variable count
    for variables in (99999, 100000, 100001, 2**31, 2**32 - 1):
        yield variables, [], [0], 4096
        yield variables, numbers("1 0 -1 0"), [0], 4096
        yield variables, numbers("1 0 -1"), [0], 4096
        yield variables, four, [], 4096
        yield variables, four, numbers("1 0"), 4096
    yield 4095, numbers("4095 0 -4095 0"), [0], 4096
    yield 4096, numbers("4095 0 -4095 0"), [0], 4096
    yield 4095, numbers("4095 0 -4096 0"), [0], 4096
    # the least number, anywhere
    for index in range(len(four)):
        changed = list(four)
        changed[index] = LEAST
        yield 2, changed, numbers("1 0 0"), 3
    for index in range(3):
        changed = numbers("1 0 0")
        changed[index] = LEAST
        yield 2, four, changed, 3
    yield 100000, [LEAST], [LEAST], 0
    yield 2, [LEAST], [LEAST], 0
    yield 2, four, [LEAST], 3
    yield 2**32 - 1, [LEAST], [LEAST], 0
    yield 2, [2**31 - 1, 0], [0], 3
    yield 2, four, [2**31 - 1, 0], 3
    # empty lists, no last 0, many zeros
    yield 2, [], [], 3
    yield 2, four, [], 3
    yield 2, four, [1], 3
    yield 2, four, numbers("1 0 2"), 3
    yield 2, four, numbers("1 0 0 2"), 3
    yield 2, four[:-1], numbers("1 0 0"), 3
    yield 2, [1], numbers("1 0 0"), 3
    yield 2, [0], [0], 3
    yield 2, [0, 0, 0], [0], 3
    yield 2, [0, 0, 0], [0, 0, 0], 3
    yield 2, four + [0], [0], 3
    yield 2, four, numbers("1 0 0 0"), 3
    yield 2, four, numbers("1 0 0 2 0"), 3
    yield 2, four, numbers("1 0 0 2 0 0"), 3
    yield 2, four, numbers("1 0"), 3
    yield 2, four, numbers("1 0 2 0"), 3
    yield 2, four, numbers("0 1 0"), 3
    # a literal that occurs twice and is the only free one
    yield 1, numbers("1 1 0 -1 -1 0"), [0], 2
    yield 1, numbers("1 1 1 1 0 -1 0"), [0], 2
    yield 2, numbers("1 1 0 -1 2 2 0 -2 -1 -2 0"), [0], 3
    yield 2, numbers("2 1 2 0 -1 0 -2 0"), [0], 3
    # two free literals
    yield 2, numbers("1 2 0 -1 0"), [0], 3
    yield 2, numbers("1 2 0 -1 -2 0"), [0], 3
    yield 2, numbers("1 2 1 2 0"), [0], 3
    yield 2, numbers("1 -1 0"), [0], 3
    yield 2, numbers("1 -1 0 2 0 -2 0"), [0], 3
    # a clause that follows only by a later one
    yield 2, four, numbers("2 -1 0 2 0 1 0 0"), 3
    yield 3, numbers("1 2 0 1 -2 0 -1 3 0 -3 0"), numbers("3 0 1 0 0"), 4
    yield 3, numbers("1 2 3 0 -1 0"), numbers("3 0 2 3 0 0"), 4
    yield 3, numbers("1 2 3 0"), numbers("1 0 1 2 0 0"), 4
    yield 2, [], numbers("1 0 1 0 0"), 3
    # the assignment is cleared between clauses
    yield 2, numbers("1 2 0"), numbers("1 2 0 1 0 0"), 3
    yield 3, numbers("1 2 0 -1 3 0"), numbers("2 3 0 1 0 0"), 4
    # a chain against the order of the list
    chain = [[-index, index + 1] for index in range(1, 40)]
    yield 40, flat(chain[::-1] + [[1], [-40]]), [0], 41
    yield 40, flat(chain + [[1], [-40]]), [0], 41
    yield 40, flat(chain[::-1] + [[1]]), [0], 41
    yield 40, flat(chain[::-1]), flat([[-1, 40], [-20, 39], [-1, 41 - 1, -40], []]), 41
    # the room
    for room in (0, 1, 2, 3, 4, 64, 4096):
        yield 2, four, numbers("1 0 0"), room
        yield 2, four, [0], room
        yield 2, four, numbers("0 0"), room
        yield 2, four, numbers("3 0 0"), room


def random_case(source):
    variables = source.randint(1, 6)
    count = source.randint(0, 14)

    def literal():
        return source.choice((-1, 1)) * source.randint(1, variables)

    formula = [[literal() for _ in range(source.choice((1, 1, 2, 2, 2, 3, 3)))] for _ in range(count)]
    steps = [[literal() for _ in range(source.choice((1, 1, 2, 2, 3)))] for _ in range(source.randint(0, 4))]
    first, second = flat(formula), flat(steps + [[]])
    if source.random() < 0.15 and first:
        first[source.randrange(len(first))] = source.choice((0, variables, -variables, variables + 1, -variables - 1))
    if source.random() < 0.15:
        second[source.randrange(len(second))] = source.choice((0, variables, -variables, variables + 1))
    room = variables + 1 if source.random() < 0.9 else source.randint(0, variables + 3)
    return variables, first, second, room


def all_cases():
    yield from named_cases()
    source = random.Random(20)
    for _ in range(160):
        yield random_case(source)


def main():
    given, expected = b"", ""
    for variables, formula, refutation, room in all_cases():
        given += struct.pack("<I", variables)
        for part in (formula, refutation):
            given += struct.pack("<I", len(part)) + struct.pack("<%di" % len(part), *part)
        given += struct.pack("<I", room)
        verdict = answer(variables, formula, refutation, room)
        expected += ("passes" if verdict is None else "refused %d %d" % verdict) + " zeros guards\n"
    folder = pathlib.Path(__file__).resolve().parent.parent / "crates" / "refute_cases"
    assert len(given) <= 65536, len(given)
    if "--check" in sys.argv[1:]:
        same = (folder / "stdin").read_bytes() == given and (folder / "stdout").read_text() == expected
        print("same" if same else "different")
        sys.exit(0 if same else 1)
    (folder / "stdin").write_bytes(given)
    (folder / "stdout").write_text(expected)
    print("%d cases, %d bytes" % (expected.count("\n"), len(given)))


main()
