"""Writes the stored input and expected output of two small programs, or compares them with what is stored.

    python3 tests/bundles.py             writes crates/netlist_cases/{stdin,stdout}, crates/settle_cases/{stdin,stdout}
    python3 tests/bundles.py --check     compares; ends with 1 if a file differs, two methods disagree,
                                         or an example of docs/RULES.md comes out otherwise
    --root DIRECTORY                     the repository, if it is not the directory above this one

netlist_cases reads cases, each a length (4 bytes, little endian) and so many bytes of a netlist file, and prints
`accepted I G P Q` or `refused number place` for each.

settle_cases reads cases, each a netlist, its arrivals and a vector (each a length of 4 bytes, then its bytes, or for
the arrivals numbers of 4 bytes), then the room for values and the room for times (4 bytes each). It evaluates with
slices lent from two arrays that are filled with a pattern, and prints `settled T` or `refused number place`, then
` values` and ` times`, each with the lent part and four numbers behind it. The first cases have no late input.

The expected output is worked out by tests/document.py alone. Cases come from one fixed seed.
"""

import argparse
import os
import struct
import sys

import methods
from document import (AND, BUF, MUX, NAND, NOR, NOT, OR, PIN_COUNTS, XNOR, XOR, Gate, Netlist, Pin, Refusal, Refused,
                      circuit_time, evaluate, formula_program, no_arrivals, node_count, read_netlist)

SEED = 1
MOST_CASE = 65535
MOST_ROOM = 600
VALUE_PATTERN, TIME_PATTERN, GUARDS = 170, 2863311530, 4

CIRCUIT_A = Netlist(2, [Gate(BUF, [Pin(0, 3)]), Gate(AND, [Pin(2, 1), Pin(1, 1)]), Gate(OR, [Pin(3, 1), Pin(1, 1)])],
                    [4])


# Netlist cases: both sides of every boundary of checks 1 to 7


def changed(netlist, change, note=b""):
    """The file of a netlist whose tables were changed before they were written."""
    tables = methods.Tables(netlist, note)
    change(tables)
    return tables.write()


def field(name, value):
    """A change of one number of the trailer."""
    return lambda tables: setattr(tables, name, value)


def count(place, value):
    """A change of one count of the trailer."""
    return lambda tables: tables.counts.__setitem__(place, value)


def row(table, place, column, value):
    """A change of one number of a gate or a pin."""
    return lambda tables: getattr(tables, table)[place].__setitem__(column, value)


def output(place, value):
    """A change of one output."""
    return lambda tables: tables.outputs.__setitem__(place, value)


def all_of(*changes):
    """Several changes together."""
    def together(tables):
        for change in changes:
            change(tables)
    return together


def plain(inputs, gates, outputs):
    """A circuit of so many inputs and single-pin gates, each on the node before, whose first nodes are outputs."""
    return Netlist(inputs, [Gate(NOT, [Pin(inputs + g - 1, 1)]) for g in range(gates)], list(range(outputs)))


def wide(gates, pins):
    """A circuit of one input and so many gates with so many pins in all."""
    each, more = divmod(pins, gates)
    return Netlist(1, [Gate(NOR, [Pin(g, 2)] * (each + (g < more))) for g in range(gates)], [gates])


def lengths():
    """Files of 0, 13 and 14 bytes and the lengths between; tables cut at either end."""
    data = methods.Tables(CIRCUIT_A).write()
    yield from (data[:n] for n in range(len(data) + 1))
    yield from (data[n:] for n in range(1, len(data) + 1))
    yield from (bytes(n) for n in (1, 12, 13, 14, 15))
    yield from (b"\xff" * n for n in (13, 14, 48))


def versions():
    """Version 0, 1, 2 and far off."""
    return (changed(CIRCUIT_A, field("version", version)) for version in (0, 1, 2, 256, 257, 65535))


def counts():
    """I, G, P and Q at, below and above their ranges, in files whose tables agree with them."""
    for inputs in (0, 1, 2, 63, 64, 65):
        yield methods.Tables(plain(inputs, 0, 1)).write()
    for gates in (0, 1, 447, 448, 449):
        yield methods.Tables(plain(1, gates, 1)).write()
    for pins in (2, 2047, 2048, 2049, 2050):
        yield methods.Tables(wide(max(1, pins // 6), pins)).write()
    for outputs in (0, 1, 63, 64, 65):
        yield methods.Tables(plain(64, 4, outputs)).write()
    for place, values in enumerate(((0, 65, 65535), (449, 65535), (2049, 65535), (0, 65, 65535))):
        yield from (changed(CIRCUIT_A, count(place, value)) for value in values)
    for first in range(4):
        yield changed(CIRCUIT_A, all_of(*[count(place, 65535) for place in range(first, 4)]))


def backs():
    """Back one off both ways, far off, and beyond the file."""
    right = methods.Tables(CIRCUIT_A).back
    for back in (right - 1, right, right + 1, 0, right + 256, right + 65536, right + 2 ** 24, 2 ** 32 - 1):
        yield changed(CIRCUIT_A, field("back", back))
        yield changed(CIRCUIT_A, field("back", back), b"note" * 100)
    data = methods.Tables(CIRCUIT_A).write()
    yield from (data[cut:] for cut in (1, 2, right, right - 1))
    yield changed(CIRCUIT_A, count(0, 3))
    yield changed(CIRCUIT_A, all_of(count(1, 2), field("back", right - 4)))
    yield changed(CIRCUIT_A, all_of(count(2, 6), field("back", right + 4)), b"1234")
    yield changed(CIRCUIT_A, all_of(count(2, 6), field("back", right + 4)), b"123")
    yield changed(CIRCUIT_A, all_of(count(3, 2), field("back", right + 2)), b"12")


def kinds():
    """Each kind from 0 to 10, and others, with every pin count from none to one too many."""
    for kind in (*range(11), 128, 255):
        least, most = PIN_COUNTS.get(kind, (1, 1))
        for pins in sorted({0, least - 1, least, least + 1, most - 1, most, most + 1}):
            yield methods.Tables(Netlist(3, [Gate(kind, [Pin(p % 3, p) for p in range(pins)])], [0, 3])).write()
    yield from (changed(CIRCUIT_A, row("gates", g, 1, pins)) for g in range(3) for pins in (9, 255))


def first_pins():
    """The first pin wrong in the first and in the last gate, and the sum wrong, also without gates."""
    for g, first in ((0, 0), (1, 1), (2, 3)):
        for wrong in (first - 1, first + 1, first + 256, 65535):
            yield changed(CIRCUIT_A, row("gates", g, 2, wrong % 65536))
    for pins in (0, 1, 2, 5):
        yield sum_off(plain(2, 0, 1), pins)
    for pins in (4, 6, 7):
        yield sum_off(CIRCUIT_A, pins)
    yield sum_off(wide(300, 2048), 2047)
    yield sum_off(wide(300, 2047), 2048)


def sum_off(netlist, pins):
    """A file with so many pins in its table, whatever its gates say."""
    tables = methods.Tables(netlist)
    tables.pins = (tables.pins + [[0, 0]] * pins)[:pins]
    tables.count()
    return tables.write()


def pins():
    """Drivers below, at, above and far above their gate; delays 999 and 1000."""
    gate_of = (0, 1, 1, 2, 2)
    for place, g in enumerate(gate_of):
        for driver in (0, 2 + g - 1, 2 + g, 2 + g + 1, 4, 5, 256, 65535):
            yield changed(CIRCUIT_A, row("pins", place, 0, driver))
        for delay in (0, 999, 1000, 1024, 65535):
            yield changed(CIRCUIT_A, row("pins", place, 1, delay))
    last = wide(448, 2048)
    for driver in (448, 447, 449):
        yield changed(last, row("pins", 2047, 0, driver))
    yield changed(last, row("pins", 2047, 1, 1000))


def outputs():
    """Outputs equal, falling, N-1, N and beyond, at the first and at later places."""
    three = Netlist(2, CIRCUIT_A.gates, [1, 3, 4])
    for place in range(3):
        for node in (0, 1, 2, 3, 4, 5, 6, 256, 65535):
            yield changed(three, output(place, node))
    every = Netlist(60, [Gate(BUF, [Pin(0, 0)])] * 4, list(range(64)))
    yield methods.Tables(every).write()
    for place in (0, 1, 62, 63):
        for node in (place - 1, place + 1, 63, 64):
            yield changed(every, output(place, node % 65536))


def notes():
    """Notes of 0, 1 and many bytes, also one that looks like a trailer, up to the largest case."""
    data = methods.Tables(CIRCUIT_A).write()
    yield from (b"n" * length + data for length in (0, 1, 2, 255, 256, 4000))
    yield data + data
    yield data[:-14] + data
    yield bytes(MOST_CASE - len(data)) + data
    yield bytes(MOST_CASE - 14) + data[-14:]


def orders():
    """Several faults at once, so that the order of the checks shows."""
    version, inputs, back = field("version", 7), count(0, 0), field("back", 33)
    gates, last_gate = count(1, 449), row("gates", 2, 0, 0)
    first_pin, last_pin = row("pins", 0, 1, 1000), row("pins", 4, 0, 65535)
    first_output = output(0, 5)
    for change in ((version, inputs), (inputs, gates), (gates, back), (back, last_gate), (last_gate, first_pin),
                   (row("gates", 2, 1, 3), first_pin), (row("gates", 2, 2, 4), first_pin), (last_pin, first_output),
                   (first_pin, last_pin), (last_gate, first_output), (row("gates", 0, 1, 2), last_gate),
                   (row("gates", 0, 2, 1), row("gates", 1, 0, 77)), (version, inputs, back, last_gate, first_pin),
                   (back, last_gate, first_pin, first_output), (last_gate, last_pin, first_pin, first_output)):
        yield changed(CIRCUIT_A, all_of(*change))
    for extra in ((first_pin,), (last_pin,), (first_output,), (first_pin, first_output)):
        yield changed(CIRCUIT_A, all_of(row("gates", 2, 0, NAND), row("gates", 2, 1, 3), *extra))
    two = Netlist(2, CIRCUIT_A.gates, [3, 3])
    yield changed(two, all_of(row("pins", 4, 1, 1000), output(0, 9)))
    yield changed(two, output(0, 9))
    yield methods.Tables(two).write()


def random_files(dice):
    """Good and damaged files of random circuits."""
    for _ in range(150):
        yield methods.damage(dice, methods.random_netlist(dice))
    for kind in (AND, NAND, OR, NOR, XOR, XNOR, MUX):
        least, most = PIN_COUNTS[kind]
        for pins in range(least, most + 1):
            yield methods.Tables(Netlist(1, [Gate(kind, [Pin(0, 999)] * pins)], [0, 1])).write()
    largest = methods.largest_netlist(dice)
    yield methods.Tables(largest).write()
    for change in (row("gates", 447, 0, 10), row("pins", 2047, 0, 511), row("pins", 2047, 1, 1000),
                   output(63, 512), count(2, 2049)):
        yield changed(largest, change)


def netlist_cases():
    """Every netlist case."""
    makers = (lengths, versions, counts, backs, kinds, first_pins, pins, outputs, notes, orders)
    cases = [data for make in makers for data in make()]
    return cases + list(random_files(methods.Dice(SEED)))


def netlist_line(data):
    """What the program prints for one case."""
    try:
        netlist = read_netlist(data)
    except Refusal as refusal:
        return "refused %d %d" % refusal.answer
    pin_count = sum(len(gate.pins) for gate in netlist.gates)
    return "accepted %d %d %d %d" % (netlist.inputs, len(netlist.gates), pin_count, len(netlist.outputs))


def netlist_bundle():
    """The stored input and output of netlist_cases."""
    cases = netlist_cases()
    stdin = b"".join(sized(data) for data in cases)
    return stdin, lines(netlist_line(data) for data in cases)


def sized(data):
    """A length of 4 bytes, then the bytes."""
    return struct.pack("<I", len(data)) + data


def counted(numbers):
    """A count of 4 bytes, then the numbers, 4 bytes each."""
    return struct.pack("<I%dI" % len(numbers), len(numbers), *numbers)


def lines(each):
    """Lines as stored."""
    return "".join(line + "\n" for line in each).encode()


# Settle cases: a netlist, its arrivals, a vector and two rooms


def random_room(dice, nodes):
    """Room for N numbers: exact, one short, larger, none or any."""
    room = dice.choice((nodes, nodes, nodes, nodes - 1, nodes + 1, nodes + 7, 0, dice.randrange(40)))
    return min(room, MOST_ROOM)


def settle_case(dice, netlist, good):
    """One case on a circuit: a good one, or one with a damaged file, a bad vector or odd rooms."""
    nodes = node_count(netlist)
    data, vector = methods.Tables(netlist).write(), methods.random_vector(dice, netlist.inputs)
    if good:
        return data, vector, nodes, nodes
    fault = dice.randrange(6)
    if fault == 0:
        data = methods.damage(dice, netlist)
    elif fault < 3:
        vector = methods.bad_vector(dice, netlist.inputs)
    return data, vector, random_room(dice, nodes), random_room(dice, nodes)


def edge_cases():
    """The circuits of rules X1 and X3 under all vectors, and rooms at every edge."""
    data = methods.Tables(CIRCUIT_A).write()
    twice = methods.Tables(Netlist(1, [Gate(XOR, [Pin(0, 1), Pin(0, 4)])], [1])).write()
    chooser = methods.Tables(Netlist(3, [Gate(MUX, [Pin(0, 9), Pin(1, 1), Pin(2, 2)])], [3])).write()
    through = methods.Tables(plain(2, 0, 2)).write()
    for circuit, inputs, nodes in ((data, 2, 5), (twice, 1, 2), (chooser, 3, 4), (through, 2, 2)):
        for vector in methods.all_vectors(inputs):
            yield circuit, bytes(vector), nodes, nodes
    for values in (0, 4, 5, 6, 600):
        for times in (0, 4, 5, 6, 600):
            yield data, bytes((0, 1)), values, times
    for vector in ((), (0,), (0, 0, 0), (2, 0), (0, 2), (2, 2), (255, 1), (0, 0, 2)):
        yield data, bytes(vector), 5, 5
        yield data, bytes(vector), 4, 3
    yield data[:-1], bytes((2, 2, 2)), 3, 2


def timely_cases():
    """The cases in which every input arrives at 0: the edges, small circuits of all kinds, and a few of the largest."""
    dice = methods.Dice(SEED + 1)
    cases = list(edge_cases())
    for number in range(420):
        gates = dice.choice((2, 6, 12, 12, 30))
        cases.append(settle_case(dice, methods.random_netlist(dice, 8, gates), number % 3 != 0))
    for number in range(8):
        cases.append(settle_case(dice, methods.random_netlist(dice, 64, 200), number % 4 != 0))
    for number in range(12):
        cases.append(settle_case(dice, methods.largest_netlist(dice), number % 4 != 0))
    return [(data, no_arrivals(data), *others) for data, *others in cases]


def arrival_cases():
    """Circuit A with late inputs under all vectors, and both sides of every boundary of check 16, alone and together
    with a damaged file, a bad vector and small rooms.
    """
    data = methods.Tables(CIRCUIT_A).write()
    for arrivals in ([0, 7], [9999, 0], [9999, 9999], [1, 2]):
        for vector in methods.all_vectors(2):
            yield data, arrivals, bytes(vector), 5, 5
    for arrivals in ([], [0], [0] * 3, [0] * 64, [0] * 65, [0] * 255, [10000], [10000] * 3, [9999, 10000],
                     [10000, 9999], [10000, 10000], [2 ** 32 - 1, 0], [0, 2 ** 32 - 1], [0, 65536], [75535, 0]):
        for vector, values, times in (((0, 0), 5, 5), ((2, 0), 5, 5), ((0,), 4, 5), ((0, 0), 4, 4)):
            yield data, arrivals, bytes(vector), values, times
        yield changed(CIRCUIT_A, output(0, 5)), arrivals, bytes((0, 0)), 5, 5
    through = methods.Tables(plain(64, 0, 64)).write()
    for arrivals in (list(range(64)), [9999 - place for place in range(64)], [9999] * 63 + [10000], [0] * 63):
        yield through, arrivals, bytes(64), 64, 64
    chain = methods.Tables(Netlist(1, [Gate(BUF, [Pin(node, 999)]) for node in range(448)], [448])).write()
    yield chain, [9999], bytes((1,)), 449, 449


def late_cases():
    """The cases with late inputs: the edges, small circuits of all kinds, a few of the largest."""
    dice = methods.Dice(SEED + 2)
    cases = list(arrival_cases())
    makers = [lambda: methods.random_netlist(dice, 8, dice.choice((2, 6, 12, 12, 30)))] * 240
    makers += [lambda: methods.random_netlist(dice, 64, 200)] * 6 + [lambda: methods.largest_netlist(dice)] * 6
    for number, make in enumerate(makers):
        netlist = make()
        arrivals = (methods.random_arrivals if number % 8 else methods.bad_arrivals)(dice, netlist.inputs)
        data, *others = settle_case(dice, netlist, number % 3 != 0)
        cases.append((data, arrivals, *others))
    return cases


def settle_cases():
    """Every settle case."""
    return timely_cases() + late_cases()


def settle_line(case):
    """What the program prints for one case."""
    answer, values, times = evaluate(*case)
    head = "refused %d %d" % answer if isinstance(answer, Refused) else "settled %d" % answer
    shown = values + [VALUE_PATTERN] * GUARDS, times + [TIME_PATTERN] * GUARDS
    return " ".join([head, "values", *map(str, shown[0]), "times", *map(str, shown[1])])


def settle_bundle():
    """The stored input and output of settle_cases."""
    cases = settle_cases()
    stdin = b"".join(sized(data) + counted(arrivals) + sized(vector) + struct.pack("<II", values, times)
                     for data, arrivals, vector, values, times in cases)
    return stdin, lines(settle_line(case) for case in cases)


def waveform_differences():
    """The settle cases on which the settling rule and the simulation of waveforms disagree."""
    differences = 0
    for data, arrivals, vector, values_room, times_room in settle_cases():
        answer, values, times = evaluate(data, arrivals, vector, values_room, times_room)
        if not isinstance(answer, Refused):
            netlist = read_netlist(data)
            nodes = node_count(netlist)
            by_waveforms = methods.waveforms(netlist, arrivals, vector)
            if by_waveforms != (values[:nodes], times[:nodes]) or answer != (circuit_time(netlist, by_waveforms[1]),):
                differences += 1
    return differences


# What rules X1 and X2 print

FILE_A = """
01 01 00 00 03 02 01 00 05 02 03 00
00 00 03 00 02 00 01 00 01 00 01 00 03 00 01 00 01 00 01 00
04 00  22 00 00 00 02 00 03 00 05 00 01 00 01 00
"""

PRINTED_AT_3 = """p cnf 8 15
1 -3 0
-1 3 0
3 -4 0
2 -4 0
-3 -2 4 0
-4 5 0
-2 5 0
4 2 -5 0
-7 6 0
-7 6 3 0
-7 2 0
-8 7 0
-8 7 -4 0
-8 -2 0
8 0
"""


def page_differences():
    """Where tests/document.py differs from what the rules print for circuit A and say of the formula program."""
    data = methods.Tables(CIRCUIT_A).write()
    at_3, at_6 = (formula_program(struct.pack("<I", target) + data) for target in (3, 6))
    late_a, late_b = [0, 0, 3, 1, 2], [0, 0, 3, 4, 1]
    said = [("the file", data, bytes.fromhex(FILE_A)), ("the formula at 3", at_3, PRINTED_AT_3),
            ("the header at 6", at_6.splitlines()[0], "p cnf 5 9"), ("the last line at 6", at_6[-3:], "\n0\n"),
            ("three bytes", formula_program(b"abc"), "refused 1 3\n"),
            ("a long netlist", formula_program(bytes(65537)), "refused 9 65533\n"),
            ("no netlist", formula_program(bytes(4)), "refused 1 0\n")]
    for vector, times in (((0, 0), late_a), ((0, 1), late_b), ((1, 0), late_a), ((1, 1), late_b)):
        said.append(("times at %d %d" % vector, evaluate(data, [0, 0], bytes(vector), 5, 5)[2], times))
    return [what for what, got, printed in said if got != printed]


# Writing and comparing


def stored_files(root):
    """The path and the content of every stored file."""
    for name, (stdin, stdout) in (("netlist_cases", netlist_bundle()), ("settle_cases", settle_bundle())):
        yield os.path.join(root, "crates", name, "stdin"), stdin
        yield os.path.join(root, "crates", name, "stdout"), stdout


def write(root):
    """Write every stored file."""
    for path, content in stored_files(root):
        os.makedirs(os.path.dirname(path), exist_ok=True)
        with open(path, "wb") as file:
            file.write(content)
        print("%s: %d bytes, %d lines" % (os.path.relpath(path, root), len(content), content.count(b"\n")))


def read_or_nothing(path):
    """The bytes of a file, or None if there is none."""
    try:
        with open(path, "rb") as file:
            return file.read()
    except FileNotFoundError:
        return None


def compare(root):
    """Compare the rules' examples, every stored file, and the two methods of settling; the number of differences."""
    differences = 0
    for what in page_differences():
        print("not as docs/RULES.md prints it: %s" % what)
        differences += 1
    for path, content in stored_files(root):
        if read_or_nothing(path) != content:
            print("differs: %s" % os.path.relpath(path, root))
            differences += 1
    disagreements = waveform_differences()
    if disagreements:
        print("settling and waveforms disagree on %d cases" % disagreements)
    print("bundles: %d netlist cases, %d settle cases, %d differences"
          % (len(netlist_cases()), len(settle_cases()), differences + disagreements))
    return differences + disagreements


def main():
    """Read the options and do what they ask."""
    options = argparse.ArgumentParser(description="Stored cases for netlist_cases and settle_cases.")
    options.add_argument("--check", action="store_true", help="compare with what is stored")
    options.add_argument("--root", default=os.path.dirname(os.path.dirname(os.path.abspath(__file__))))
    chosen = options.parse_args()
    if chosen.check:
        sys.exit(1 if compare(chosen.root) else 0)
    write(chosen.root)


if __name__ == "__main__":
    main()
