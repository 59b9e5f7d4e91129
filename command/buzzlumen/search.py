"""Finds a certificate: the largest settling time, a vector that reaches it, and a refutation of anything later.

A circuit settles only at sums of an arrival and the delays along a path, of two delays either, so these are the times
in question. The search goes down from the longest path by growing steps, because the formulas near it are small, until
some vector is as late; then by halves. A target whose formula holds more pairs than the library takes is asked output
by output, each with the gates that it rests on. Without a solver, a circuit of at most 12 inputs is tried vector by
vector, and the refutation fixes the inputs one after the other. Nothing here is trusted: what is found counts once the
library has judged it.
"""

import array
from collections import namedtuple

from .library import Refusal
from .machine import FolderForAWhile
from .netlist import Gate, Netlist, falls_of, longest_path, tops_of, write_netlist
from .refusals import MOST_PAIRS, PAIRS, of_pairs
from .solvers import Solver, read_steps
from .trouble import OfTheMachine

MOST_TRIED_INPUTS = 12
# Of so few inputs the vector that is shown is the first in order, so that every solver's answer is the same.
MOST_ORDERED_INPUTS = 10
FIRST_LOOKS = 30

# What was found, and by whom; the refutation's steps before and after those that it did not need were left out.
Found = namedtuple("Found", "delay vector refutation by steps")


# Times and pairs, as sets of bits


def possible_times(netlist, arrivals):
    """The times at which the circuit can settle at all, rising: the sums of an arrival and the delays along a path from
    there to an output."""
    sums = [1 << arrival for arrival in arrivals]
    for gate in netlist.gates:
        own = 0
        for driver, delay, fall in gate.pins:
            own |= sums[driver] << delay
            if fall != delay:
                own |= sums[driver] << fall
        sums.append(own)
    times = 0
    for node in netlist.outputs:
        times |= sums[node]
    return [time for time, bit in enumerate(reversed(bin(times)[2:])) if bit == "1"]


def count_pairs(netlist, tops, target):
    """How many pairs the formula for a target has: where rise and fall are apart, two for each node and time."""
    asked, pairs = [0] * len(tops), 0
    for node in netlist.outputs:
        asked[node] = 1 << target
    for node in range(len(tops) - 1, netlist.inputs - 1, -1):
        own = asked[node] & ((2 << tops[node]) - 2)
        pairs += own.bit_count()
        if own:
            for driver, delay, fall in netlist.gates[node - netlist.inputs].pins:
                asked[driver] |= own >> delay
                if fall != delay:
                    asked[driver] |= own >> fall
    return pairs * rails(netlist)


def rails(netlist):
    """How many pairs a node has at a time: one for each value where rise and fall are apart."""
    return 1 if falls_of(netlist) is None else 2


def cone(netlist, output):
    """The netlist of one output: all inputs, and the gates that it rests on."""
    inside = {output}
    for node in range(output, netlist.inputs - 1, -1):
        if node in inside:
            inside.update(pin.driver for pin in netlist.gates[node - netlist.inputs].pins)
    number_of = {node: node for node in range(netlist.inputs)}
    gates = []
    for node in sorted(inside - set(number_of)):
        gate = netlist.gates[node - netlist.inputs]
        number_of[node] = netlist.inputs + len(gates)
        gates.append(Gate(gate.kind, [pin._replace(driver=number_of[pin.driver]) for pin in gate.pins]))
    return Netlist(netlist.inputs, gates, [number_of[output]])


# By a solver


class Search:
    """A search by a solver. Some vector settles at times[low]; none at times[high] or later."""

    def __init__(self, circuit, library, solver, progress):
        self.circuit, self.netlist, self.library = circuit, circuit.netlist, library
        self.arrivals = circuit.arrivals
        self.solver, self.progress = solver, progress
        self.times = possible_times(self.netlist, self.arrivals)
        self.place_of = {time: place for place, time in enumerate(self.times)}
        self.tops, self.rails = tops_of(self.netlist, self.arrivals), rails(self.netlist)
        self.known_parts, self.known_cones = {}, []
        self.low, self.high, self.vector = -1, len(self.times), None
        # The file of the refutation at times[high]; None where it was refuted output by output.
        self.refuted = None

    def reach(self, *vectors):
        """Vectors settle at some times: take the latest of them where it is later than all before; gives whether it
        is."""
        times = self.library.times_of(self.circuit.data, self.arrivals, vectors, self.circuit.falls)
        place = self.place_of[max(times)]
        if place > self.low:
            self.low, self.vector = place, vectors[times.index(max(times))]
            return True
        return False

    def first_looks(self):
        """Some vectors, without a solver."""
        state, inputs = 1, self.netlist.inputs
        vectors = [bytes(inputs)]
        for _ in range(FIRST_LOOKS):
            state = state * 6364136223846793005 + 1442695040888963407 & 2 ** 64 - 1
            vectors.append(bytes((state * 0x9E3779B97F4A7C15 >> bit & 1) for bit in range(inputs)))
        self.reach(*vectors)

    def target(self, place):
        """The least target that asks for times[place] or later and for nothing before."""
        return self.times[place - 1] + 1 if place else 0

    def parts(self, place):
        """The netlists whose formulas together ask for a place: the circuit, or its outputs one by one; None where the
        library takes no formula for one of these."""
        if place not in self.known_parts:
            self.known_parts[place] = self.find_parts(self.target(place))
        return self.known_parts[place]

    def find_parts(self, target):
        """The same for a target, by counting pairs."""
        gate_tops = self.tops[self.netlist.inputs:]
        if sum(gate_tops) * self.rails <= MOST_PAIRS or count_pairs(self.netlist, self.tops, target) <= MOST_PAIRS:
            return [self.netlist]
        cones = [each for each in self.cones() if longest_path(each, self.arrivals) >= target]
        if all(self.pairs_of(each, target) <= MOST_PAIRS for each in cones):
            return cones
        return None

    def pairs_of(self, netlist, target):
        """How many pairs the formula of one output's netlist has."""
        return count_pairs(netlist, tops_of(netlist, self.arrivals), target)

    def cones(self):
        """The netlist of each output, that of the longest path first: it has the most pairs."""
        if not self.known_cones:
            outputs = sorted(self.netlist.outputs, key=lambda node: self.tops[node], reverse=True)
            self.known_cones = [cone(self.netlist, node) for node in outputs]
        return self.known_cones

    def next_place(self, step):
        """The place to ask for next, with its parts: down from the top by a step, else in the middle; where these hold
        too many pairs, nearer to what is known above, then below. None where nothing is left to ask for."""
        wanted = self.high - step if self.high - step > self.low else (self.low + self.high) // 2
        tries, above, below = [wanted], wanted, wanted
        while above < self.high - 1:
            above = (above + self.high) // 2
            tries.append(above)
        while below > self.low + 1:
            below = (below + self.low + 1) // 2
            tries.append(below)
        for place in tries:
            parts = self.parts(place) if self.low < place < self.high else None
            if parts is not None:
                return place, parts
        return None, None

    def ask(self, place, parts):
        """Ask the solver for a place; the search goes on above or below it. Gives whether some vector is as late."""
        target = self.target(place)
        for netlist in parts:
            self.progress.show(f"asking for T={target}; the delay is {self.times[self.low]} to "
                               f"{self.times[self.high - 1]}")
            answer = self.answer(netlist, target)
            if answer.has_model:
                if not self.reach(answer.vector) or self.low < place:
                    raise OfTheMachine(f"{self.solver.name} gave a model for T={target} that does not settle there")
                return True
        self.high = place
        self.refuted = answer.refutation if parts[0] is self.netlist else None
        return False

    def answer(self, netlist, target):
        """The solver's answer to a netlist's formula."""
        own = netlist is self.netlist
        data, falls = (self.circuit.data, self.circuit.falls) if own else (write_netlist(netlist), falls_of(netlist))
        self.library.write_formula(data, self.arrivals, target, self.solver.path("formula"), falls)
        return self.solver.ask(self.netlist.inputs)

    def run(self):
        """Narrow the search down to one time."""
        self.first_looks()
        step, found = 1, False
        while self.low + 1 < self.high:
            place, parts = self.next_place(step if not found else self.high)
            if place is None and not self.some_output_late(self.high - 1):
                raise self.too_many_pairs()
            if place is not None:
                found = self.ask(place, parts) or found
            step *= 2

    def some_output_late(self, place):
        """Whether an output whose own formula the library takes is late at a place, others left aside."""
        target = self.target(place)
        for netlist in self.cones():
            if longest_path(netlist, self.arrivals) >= target and self.pairs_of(netlist, target) <= MOST_PAIRS:
                answer = self.answer(netlist, target)
                if answer.has_model and self.reach(answer.vector):
                    return True
        return False

    def too_many_pairs(self):
        """The library's refusal of a formula that it would take to go on."""
        target = self.target(self.low + 1)
        refusal = Refusal(PAIRS, 0)
        low, high = self.times[self.low], self.times[self.high - 1]
        bounds = f"from {low} to {high}" if low < high else low
        refusal.words = (f"{of_pairs(target, count_pairs(self.netlist, self.tops, target))} By {self.solver.name}'s "
                         f"word alone the delay is {bounds}.")
        return refusal

    def refutation(self):
        """The refutation of the formula for the delay + 1."""
        if self.high == len(self.times):
            return array.array("i", [0])
        if self.refuted is None:
            raise self.too_many_pairs()
        return read_steps(self.refuted, self.solver.name)


def smaller(library, circuit, delay, vector):
    """A vector that settles at the delay too, with a 0 for as many of its 1 as go one after the other; of few inputs
    the first one in order."""
    if circuit.netlist.inputs <= MOST_ORDERED_INPUTS:
        return library.walk(circuit.data, circuit.arrivals, delay, circuit.falls)[1]
    return library.fewer_ones(circuit.data, circuit.arrivals, delay, vector, circuit.falls)


def by_solver(circuit, library, name, progress, limit=None):
    """A certificate, by a solver."""
    with FolderForAWhile() as folder:
        search = Search(circuit, library, Solver(name, folder, progress, limit), progress)
        search.run()
        delay, steps = search.times[search.low], search.refutation()
        progress.show("leaving out steps that the refutation does not need")
        refutation = shortened(library, circuit, delay, steps)
        vector = smaller(library, circuit, delay, search.vector)
        return Found(delay, vector, refutation, name, steps.count(0)), search.solver


def shortened(library, circuit, delay, steps):
    """A refutation of the formula for the delay + 1 without the steps that it does not need."""
    if len(steps) == 1:
        return steps
    return library.shorten_for(circuit.data, circuit.arrivals, delay + 1, steps, circuit.falls)


# By trying


def by_trying(circuit, library):
    """A certificate, by trying every vector."""
    delay, vector = library.walk(circuit.data, circuit.arrivals, falls=circuit.falls)
    steps = array.array("i", tree(circuit.netlist.inputs, []))
    try:
        refutation = shortened(library, circuit, delay, steps)
    except Refusal as refusal:
        tops = tops_of(circuit.netlist, circuit.arrivals)
        refusal.words = of_pairs(delay + 1, count_pairs(circuit.netlist, tops, delay + 1))
        raise
    return Found(delay, vector, refutation, "trying every vector", steps.count(0))


def tree(inputs, chosen):
    """The opposites of the choices so far, after both branches of the next choice; the root's clause is empty."""
    numbers = []
    if len(chosen) < inputs:
        variable = len(chosen) + 1
        numbers = tree(inputs, chosen + [-variable]) + tree(inputs, chosen + [variable])
    return numbers + [-literal for literal in chosen] + [0]
