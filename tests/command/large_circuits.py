#!/usr/bin/env python3
"""The largest circuits that the command must answer for, and how long it takes beside the solver alone.

    tests/command/large_circuits.py                 asks for each circuit's delay and prints a table
    tests/command/large_circuits.py --runs 21       asks so often; the run in the middle, by its whole time, is shown
    tests/command/large_circuits.py --out FOLDER    writes their netlist files to a folder that is there

Each maker gives a netlist of tests/document.py; a seed fixes every random choice on every machine.
"""

import argparse
import pathlib
import re
import sys
import tempfile
import time

sys.path.insert(0, str(pathlib.Path(__file__).resolve().parents[1]))

from adder import bypass_adder  # noqa: E402
from asking import run  # noqa: E402
from document import AND, BUF, MUX, NAND, NOR, NOT, OR, XNOR, XOR, Gate, Netlist, Pin, write_netlist  # noqa: E402
from methods import Dice, random_pin_count  # noqa: E402

INPUTS, GATES, MOST_OUTPUTS, MOST_DRAWN_PINS = 64, 448, 64, 4
# The kinds of a random block: those of a synthesised one, mostly simple gates.
COMMON = (BUF, NOT, AND, AND, NAND, NAND, NAND, OR, OR, NOR, NOR, NOR, XOR, XNOR, MUX)


class Array:
    """An array multiplier that grows gate by gate; delays come from a maker."""

    def __init__(self, bits, delay):
        self.bits, self.delay, self.gates = bits, delay, []

    def gate(self, kind, *drivers):
        """Add a gate; its node."""
        self.gates.append(Gate(kind, [Pin(driver, self.delay()) for driver in drivers]))
        return 2 * self.bits + len(self.gates) - 1

    def half_adder(self, x, y):
        """Sum and carry of two bits."""
        return self.gate(XOR, x, y), self.gate(AND, x, y)

    def full_adder(self, x, y, z):
        """Sum and carry of three bits."""
        half, both = self.half_adder(x, y)
        total, other = self.half_adder(half, z)
        return total, self.gate(OR, both, other)

    def add_row(self, above, row):
        """A row of partial products added to the row above, by ripple carry; the lowest bit is done."""
        total, carry = self.half_adder(above[0], row[0])
        sums = [total]
        for place in range(1, self.bits):
            if place < len(above):
                total, carry = self.full_adder(above[place], row[place], carry)
            else:
                total, carry = self.half_adder(row[place], carry)
            sums.append(total)
        return sums + [carry]

    def netlist(self):
        """The multiplier: inputs are the bits of x, then of y."""
        rows = [[self.gate(AND, x, self.bits + y) for x in range(self.bits)] for y in range(self.bits)]
        outputs, above = [rows[0][0]], rows[0][1:]
        for row in rows[1:]:
            sums = self.add_row(above, row)
            outputs.append(sums[0])
            above = sums[1:]
        return Netlist(2 * self.bits, self.gates, sorted(outputs + above))


def unit():
    """The delay of every pin where all are alike."""
    return 1


def varied(seed, least, most):
    """A maker of delays."""
    dice = Dice(seed)
    return lambda: dice.randint(least, most)


def multiplier(bits, delay=unit):
    """An array multiplier of two numbers of so many bits."""
    return Array(bits, delay).netlist()


def random_block(seed, delay=unit, window=40):
    """A circuit of 64 inputs and 448 gates whose pins reach at most a window of nodes back; the gates that nothing
    reads are its outputs."""
    dice, gates = Dice(seed), []
    for node in range(INPUTS, INPUTS + GATES):
        kind = dice.choice(COMMON)
        count = min(MOST_DRAWN_PINS, random_pin_count(dice, kind))
        gates.append(Gate(kind, [Pin(max(0, node - 1 - dice.randrange(window)), delay()) for _ in range(count)]))
    used = {pin.driver for gate in gates for pin in gate.pins}
    unread = [node for node in range(INPUTS, INPUTS + GATES) if node not in used]
    assert len(unread) <= MOST_OUTPUTS, "another seed or a smaller window leaves fewer gates that nothing reads"
    return Netlist(INPUTS, gates, unread)


def ladders(stages, copies=1, true_way=0):
    """Circuit A, copies of it side by side, with a ladder of many different lengths in place of its slow gate: a long
    way that no vector makes matter. Formulas for targets between the true delay and the longest path have many pairs.
    A further output may have a true way of a given length."""
    gates, inputs, outputs = [], 2 * copies, []

    def add(kind, *pins):
        gates.append(Gate(kind, [Pin(*pin) for pin in pins]))
        return inputs + len(gates) - 1

    for slow, other in zip(range(0, inputs, 2), range(1, inputs, 2)):
        for stage in range(stages):
            slow = add(XOR, (slow, 1 + stage % 7), (slow, 40 + stage % 11))
        outputs.append(add(OR, (add(AND, (slow, 1), (other, 1)), 1), (other, 1)))
    if true_way:
        way = 0
        for length in [999] * (true_way // 999) + [true_way % 999]:
            way = add(BUF, (way, length))
        outputs.append(way)
    return Netlist(inputs, gates, outputs)


# The circuits by name, and the true delay of each where it is known from a run.
LARGEST = {
    "block, unit delays": lambda: random_block(1),
    "block, delays 1 to 9": lambda: random_block(2, varied(2, 1, 9)),
    "deep block, unit delays": lambda: random_block(3, window=12),
    "deep block, delays 1 to 9": lambda: random_block(4, varied(4, 1, 9), window=20),
    "28-bit bypass adder": lambda: bypass_adder(28, 7),
    "9x9 multiplier, unit delays": lambda: multiplier(9),
    "9x9 multiplier, delays 10 to 60": lambda: multiplier(9, varied(2, 10, 60)),
    "6x6 multiplier, delays 10 to 60": lambda: multiplier(6, varied(6, 10, 60)),
}


def measure(path):
    """Ask for a circuit's delay: the answer, the solver's seconds, its questions, the whole seconds."""
    began = time.monotonic()
    answer = run(["delay", path, "--figures"])
    whole = time.monotonic() - began
    figures = re.search(r"took ([\d.]+) s for (\d+)", answer.err)
    return answer, float(figures[1]), int(figures[2]), whole


def main():
    """The command."""
    parser = argparse.ArgumentParser(description=__doc__, formatter_class=argparse.RawDescriptionHelpFormatter)
    parser.add_argument("--out", help="a folder for the netlist files")
    parser.add_argument("--runs", type=int, default=1, help="how often each is asked for")
    asked = parser.parse_args()
    if not asked.out:
        print("| Circuit | True delay | Questions | Steps | Kept | Solver, s | Whole, s | Ratio |\n" + "|---" * 8 + "|")
    with tempfile.TemporaryDirectory() as folder:
        for name, make in LARGEST.items():
            path = pathlib.Path(asked.out or folder) / (name.replace(" ", "_").replace(",", "") + ".netlist")
            path.write_bytes(write_netlist(make()))
            if not asked.out:
                runs = sorted((measure(path) for _ in range(asked.runs)), key=lambda run: run[-1])
                answer, own, questions, whole = runs[len(runs) // 2]
                top = re.search(r"adds up to (\d+)", answer.err)[1]
                had, kept = re.search(r"had ([\d,]+) steps?; it needs, and keeps, ([\d,]+)", answer.err).groups()
                delay, ratio = answer.out.decode().split()[1], f"{whole / own:.1f}" if own else ""
                print(f"| {name} | {delay} of {top} | {questions} | {had} | {kept} | {own:.3f} | {whole:.3f} | "
                      f"{ratio} |", flush=True)


if __name__ == "__main__":
    main()
