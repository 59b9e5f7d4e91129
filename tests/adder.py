"""A carry bypass adder and a certificate for its true delay.

    python3 tests/adder.py                       12 bits in blocks of 2: says its delays and judges its certificate
    --bits NUMBER --block NUMBER                 another size
    --late NUMBER                                the carry in arrives at this time, all other inputs at 0
    --out DIRECTORY                              writes adder.netlist, adder.arrivals, adder.delay, adder.vector,
                                                 adder.refutation
    --archive PATH, or --twin                    also judges it by the library, or by the C twin

The adder is the one that source document 004 lists as cbp.12.2 (and cbp.16.4), at unit delays: topological delay 40 and
true delay 23 (44 and 27). Each block has ripple carry; its carry out is the block's carry in if every bit propagates,
else the rippled carry, chosen by simple gates. An exclusive or is four levels of simple gates: NOT, AND, NOR, NOT.
A solver answers the formula for D with a model, whose inputs are the vector, and the one for D+1 with a refutation.

The files: the netlist; the arrivals, 4 bytes for each input; the delay as 4 bytes; the vector, a byte for each input;
the refutation, 4 bytes for each number; all little endian.
"""

import argparse
import array
import os
import struct
import sys
import tempfile

import document
import methods
import solvers
import tools
from calls import Call, Host, compare_call
from document import AND, NOR, NOT, OR, Accepted, Gate, Netlist, Pin

# Topological and true delay of the sizes that document 004 lists, where no input is late.
KNOWN_DELAYS = {(12, 2): (40, 23), (16, 4): (44, 27)}


class Drawing:
    """A circuit that grows gate by gate, all delays 1."""

    def __init__(self, inputs):
        self.inputs, self.gates = inputs, []

    def gate(self, kind, *drivers):
        """Add a gate; its node."""
        self.gates.append(Gate(kind, [Pin(driver, 1) for driver in drivers]))
        return self.inputs + len(self.gates) - 1

    def exclusive_or(self, x, y):
        """x differs from y, in four levels: NOT, AND, NOR, NOT."""
        only_x = self.gate(AND, x, self.gate(NOT, y))
        only_y = self.gate(AND, self.gate(NOT, x), y)
        return self.gate(NOT, self.gate(NOR, only_x, only_y))

    def block(self, pairs_of_bits, carry_in):
        """A block of bits: the nodes of its sums, and that of its carry out."""
        carry, sums, propagates = carry_in, [], []
        for x, y in pairs_of_bits:
            propagate = self.exclusive_or(x, y)
            sums.append(self.exclusive_or(propagate, carry))
            carry = self.gate(OR, self.gate(AND, x, y), self.gate(AND, propagate, carry))
            propagates.append(propagate)
        bypass = self.gate(AND, *propagates)
        around = self.gate(AND, bypass, carry_in)
        through = self.gate(AND, self.gate(NOT, bypass), carry)
        return sums, self.gate(OR, around, through)


def bypass_adder(bits, block):
    """The adder: inputs are the bits of x, the bits of y and the carry in; outputs the sums and the carry out."""
    drawing = Drawing(2 * bits + 1)
    carry, outputs = 2 * bits, []
    for first in range(0, bits, block):
        sums, carry = drawing.block([(bit, bits + bit) for bit in range(first, first + block)], carry)
        outputs += sums
    return Netlist(drawing.inputs, drawing.gates, sorted(outputs + [carry]))


def carry_late(netlist, arrival):
    """Arrivals of the adder's inputs: the carry in, which is the last, at this time and all others at 0."""
    return methods.in_time(netlist)[1:] + [arrival]


def adds(netlist, bits, x, y, carry):
    """Whether the circuit adds two numbers and a carry."""
    vector = [x >> bit & 1 for bit in range(bits)] + [y >> bit & 1 for bit in range(bits)] + [carry]
    values, _ = document.settle(netlist, methods.in_time(netlist), vector)
    # The outputs rise with the bits of the sum, the carry out last.
    return sum(values[node] << place for place, node in enumerate(netlist.outputs)) == x + y + carry


def adds_well(dice, netlist, bits):
    """Whether the circuit adds, on some numbers."""
    return all(adds(netlist, bits, dice.randrange(2 ** bits), dice.randrange(2 ** bits), dice.randrange(2))
               for _ in range(100))


def late_formula(netlist, arrivals, target):
    """The variables and clauses of "some output settles at the target or later"."""
    pairs = document.pairs_of(netlist, arrivals, target, document.MOST_PAIRS)
    return document.node_count(netlist) + len(pairs), document.clauses_for(netlist, arrivals, target, pairs)


def true_delay(netlist, arrivals, top):
    """The true delay by a solver, by halves, with a model at it and a refutation beyond it."""
    low, high = 0, top + 1
    model, refutation = set(), [[]]
    while high - low > 1:
        middle = (low + high) // 2
        has_model, found = solvers.cadical(*late_formula(netlist, arrivals, middle))
        if has_model:
            low, model = middle, found
        else:
            high, refutation = middle, found
    return low, model, refutation


def topological_delay(netlist, arrivals):
    """The largest top of the outputs."""
    tops = document.tops_of(netlist, arrivals)
    return max(tops[node] for node in netlist.outputs)


def certificate(netlist, arrivals):
    """A delay, a vector that settles at it, and a refutation of the formula for one more, as numbers."""
    delay, model, refutation = true_delay(netlist, arrivals, topological_delay(netlist, arrivals))
    vector = bytes(1 if node + 1 in model else 0 for node in range(netlist.inputs))
    return delay, vector, document.numbers_of(refutation)


def rooms_for(netlist, arrivals, delay):
    """The rooms that a certificate call needs: values, times, pairs, formula, propagation."""
    nodes = document.node_count(netlist)
    variables, clauses = late_formula(netlist, arrivals, delay + 1)
    return nodes, nodes, 2 * (variables - nodes), len(document.numbers_of(clauses)), variables + 1


def write_files(directory, data, arrivals, delay, vector, refutation):
    """Write the certificate's files."""
    contents = {"adder.netlist": data, "adder.arrivals": array.array("I", arrivals).tobytes(),
                "adder.delay": struct.pack("<I", delay), "adder.vector": vector,
                "adder.refutation": array.array("i", refutation).tobytes()}
    os.makedirs(directory, exist_ok=True)
    for name, content in contents.items():
        with open(os.path.join(directory, name), "wb") as file:
            file.write(content)


def judged_by_host(archive, arguments):
    """What is wrong with the library's judgement, or the twin's where there is no archive; nothing in a right one."""
    with tempfile.TemporaryDirectory() as directory:
        host = Host(tools.runner() + [tools.build_host(directory, archive)])
        _, _, wrong = compare_call(host, Call("judge", arguments, Accepted()))
        host.close()
    return wrong


def read_options():
    """The options of the command line."""
    parser = argparse.ArgumentParser(description="A carry bypass adder and a certificate for its true delay.")
    parser.add_argument("--bits", type=int, default=12)
    parser.add_argument("--block", type=int, default=2)
    parser.add_argument("--late", type=int, default=0, help="when the carry in arrives")
    parser.add_argument("--out", help="a directory for the certificate's files")
    which = parser.add_mutually_exclusive_group()
    which.add_argument("--archive", help="the library's archive")
    which.add_argument("--twin", action="store_true", help="the C twin")
    return parser.parse_args()


def main():
    """Make the adder and its certificate, say the delays, and judge."""
    options = read_options()
    tools.need("cadical")
    netlist = bypass_adder(options.bits, options.block)
    arrivals = carry_late(netlist, options.late)
    top, (delay, vector, refutation) = topological_delay(netlist, arrivals), certificate(netlist, arrivals)
    arguments = (document.write_netlist(netlist), arrivals, delay, vector, refutation,
                 *rooms_for(netlist, arrivals, delay))
    if options.out:
        write_files(options.out, *arguments[:5])
    dice = methods.Dice(options.bits, options.block)
    wrong = [] if adds_well(dice, netlist, options.bits) else ["the circuit does not add"]
    if not options.late and KNOWN_DELAYS.get((options.bits, options.block), (top, delay)) != (top, delay):
        wrong.append("known are delays %d and %d" % KNOWN_DELAYS[options.bits, options.block])
    if document.judge(*arguments)[0] != Accepted():
        wrong.append("document.py does not accept the certificate")
    if options.twin or options.archive:
        wrong += judged_by_host(options.archive, arguments)
    print("adder: %d bits in blocks of %d, %d gates, carry in at %d, topological delay %d, true delay %d, refutation "
          "of %d numbers: %s" % (options.bits, options.block, len(netlist.gates), options.late, top, delay,
                                 len(refutation), "; ".join(wrong) or "certificate accepted"))
    sys.exit(1 if wrong else 0)


if __name__ == "__main__":
    main()
