"""Second ways to the answers of docs/RULES.md, each by another method than tests/document.py, and the makers of test
circuits, arrivals, vectors and damaged files.

Settling is simulated as waveforms of three values in time order; the formula is built by recursion with sets and
dictionaries, its controlling values and cubes found from the gates' truth tables; unit propagation watches two
literals a clause; the true delay is the largest time over all vectors. Where each pin has two delays, settling goes by
recursion from node to drivers, without events. Only the record types and the kinds' numbers are shared. Every maker
takes a generator of random numbers, so a seed gives the same cases on every machine.
"""

import functools
import heapq
import itertools
import struct
import sys

from document import (AND, BUF, MOST_ARRIVAL, MOST_DELAY, MOST_GATES, MOST_INPUTS, MOST_OUTPUTS, MOST_PINS, MUX, NAND,
                      NOR, NOT, OR, XNOR, XOR, Gate, Netlist, Pin, node_count)

UNKNOWN = None

# Settling by waveforms


def function_of(kind, pins):
    """A gate's function of known pins."""
    if kind == MUX:
        return pins[1 + pins[0]]
    if kind in (XOR, XNOR):
        return (sum(pins) + (kind == XNOR)) % 2
    plain = min(pins) if kind in (BUF, NOT, AND, NAND) else max(pins)
    return plain if kind in (BUF, AND, OR) else 1 - plain


@functools.lru_cache(None)
def known_output(kind, pins):
    """The output of a gate some of whose pins may still be unknown: known as soon as no unknown pin can change it."""
    ends = itertools.product(*[(0, 1) if pin is UNKNOWN else (pin,) for pin in pins])
    outputs = {function_of(kind, end) for end in ends}
    return outputs.pop() if len(outputs) == 1 else UNKNOWN


def waveforms(netlist, arrivals, vector):
    """The final value of each node and the moment at which it becomes known, by events in time order; an input is
    known from its arrival on.
    """
    readers = [[] for _ in range(node_count(netlist))]
    for g, gate in enumerate(netlist.gates):
        for place, pin in enumerate(gate.pins):
            readers[pin.driver].append((g, place, pin.delay))
    seen = [[UNKNOWN] * len(gate.pins) for gate in netlist.gates]
    values, times = [UNKNOWN] * node_count(netlist), [UNKNOWN] * node_count(netlist)
    events = []

    def becomes_known(moment, node, value):
        values[node], times[node] = value, moment
        for g, place, delay in readers[node]:
            heapq.heappush(events, (moment + delay, g, place, value))

    for node, (arrival, value) in enumerate(zip(arrivals, vector)):
        becomes_known(arrival, node, value)
    while events:
        moment, g, place, value = heapq.heappop(events)
        seen[g][place] = value
        node = netlist.inputs + g
        if values[node] is UNKNOWN:
            output = known_output(netlist.gates[g].kind, tuple(seen[g]))
            if output is not UNKNOWN:
                becomes_known(moment, node, output)
    return values, times


def all_vectors(inputs):
    """Every vector of so many inputs."""
    return itertools.product((0, 1), repeat=inputs)


def true_delay(netlist, arrivals=None):
    """The largest settling time over all vectors, by trying them all; with the first vector that reaches it. Where no
    arrivals are given, all inputs arrive at 0.
    """
    best = (-1, None)
    for vector in all_vectors(netlist.inputs):
        _, times = waveforms(netlist, arrivals or in_time(netlist), vector)
        last = max(times[node] for node in netlist.outputs)
        if last > best[0]:
            best = (last, vector)
    return best


# The formula by recursion


@functools.lru_cache(None)
def controlling(kind, count):
    """(c, k): the first value that forces the output when it stands on one pin, and that output; None where none
    does.
    """
    for c in (0, 1):
        k = known_output(kind, (c,) + (UNKNOWN,) * (count - 1))
        if k is not UNKNOWN:
            return c, k
    return None


@functools.lru_cache(None)
def forcing(kind, count):
    """The settings of some pins that force the output whatever the others are, each a tuple of places and values: one
    pin at c; where there is no c, all pins but one, tried by places and then by values.
    """
    forces = controlling(kind, count)
    if forces:
        return [((place, forces[0]),) for place in range(count)]
    found = []
    for places in itertools.combinations(range(count), count - 1):
        for values in itertools.product((0, 1), repeat=count - 1):
            setting = dict(zip(places, values))
            if known_output(kind, tuple(setting.get(place, UNKNOWN) for place in range(count))) is not UNKNOWN:
                found.append(tuple(setting.items()))
    return found


class Late:
    """Who is late when: tops and wanted times by recursion from the outputs, kept in dictionaries and sets."""

    def __init__(self, netlist, arrivals, target):
        self.netlist, self.arrivals, self.target = netlist, dict(enumerate(arrivals)), target
        self.top_of, self.times_of = {}, {}
        sys.setrecursionlimit(max(sys.getrecursionlimit(), 10000))
        for node in netlist.outputs:
            self.want(node, target)
        keys = [(node, t) for node in sorted(self.times_of) for t in sorted(self.times_of[node])]
        self.number_of = dict(zip(keys, itertools.count(node_count(netlist) + 1)))

    def pins(self, node):
        """The pins of a node; an input has none."""
        return self.netlist.gates[node - self.netlist.inputs].pins if node >= self.netlist.inputs else []

    def top(self, node):
        """The latest moment at which a node can settle, if every sum of delays to it counts."""
        if node not in self.top_of:
            self.top_of[node] = max([self.top(pin.driver) + pin.delay for pin in self.pins(node)],
                                    default=self.arrivals.get(node))
        return self.top_of[node]

    def surely(self, node, t):
        """Whether a node is late at a time under every vector: a gate is at no time above 0."""
        return t <= self.arrivals.get(node, 0)

    def want(self, node, t):
        """Ask for a node at a time, and for its drivers in turn."""
        if self.surely(node, t) or t > self.top(node):
            return
        if t not in self.times_of.setdefault(node, set()):
            self.times_of[node].add(t)
            for pin in self.pins(node):
                self.want(pin.driver, t - pin.delay)

    def either(self, literals, lates):
        """The clause of some literals, then late conditions and literals mixed, as numbers; none where it is true."""
        clause = list(literals)
        for part in lates:
            if isinstance(part, int):
                clause.append(part)
            elif self.surely(*part):
                return []
            elif part[1] <= self.top(part[0]):
                clause.append(self.number_of[part])
        return [clause + [0]]


def truth_clauses(node, gate):
    """The clauses on a gate's value, in the order of rules F9 to F11, from its truth table."""
    literals = [pin.driver + 1 for pin in gate.pins]
    forces = controlling(gate.kind, len(gate.pins))
    sign = (-1, 1)
    if forces:
        c, k = forces
        clauses = [[-sign[c] * literal, sign[k] * (node + 1), 0] for literal in literals]
        return clauses + [[sign[c] * literal for literal in literals] + [-sign[k] * (node + 1), 0]]
    if gate.kind == MUX:
        rows = [(s, value) for s in (0, 1) for value in (1, 0)]
        return [[-sign[s] * literals[0], -sign[value] * literals[1 + s], sign[value] * (node + 1), 0]
                for s, value in rows]
    return [[-sign[x] * literals[0], -sign[y] * literals[1], sign[function_of(gate.kind, (x, y))] * (node + 1), 0]
            for x in (0, 1) for y in (0, 1)]


def formula(netlist, arrivals, target):
    """The pairs in order and the formula as lists of numbers, each clause with its 0."""
    lateness = Late(netlist, arrivals, target)
    clauses = []
    for g, gate in enumerate(netlist.gates):
        clauses += truth_clauses(netlist.inputs + g, gate)
    for (node, t), number in lateness.number_of.items():
        gate = netlist.gates[node - netlist.inputs]
        clauses += lateness.either([-number], [(pin.driver, t - pin.delay) for pin in gate.pins])
        for setting in forcing(gate.kind, len(gate.pins)):
            parts = []
            for place, value in setting:
                driver, delay = gate.pins[place]
                parts += [(driver, t - delay), -(driver + 1) if value else driver + 1]
            clauses += lateness.either([-number], parts)
    clauses += lateness.either([], [(node, target) for node in netlist.outputs])
    return list(lateness.number_of), clauses


# Rise and fall apart, by recursion


def delay_of(netlist, falls):
    """A function of node, place and value: the delay of that pin of the node where the node ends at the value."""
    first_of = list(itertools.accumulate([len(gate.pins) for gate in netlist.gates], initial=0))

    def delay(node, place, value):
        g = node - netlist.inputs
        return netlist.gates[g].pins[place].delay if value else falls[first_of[g] + place]
    return delay


def settled_apart(netlist, arrivals, falls, vector):
    """Value and settling time of each node by recursion: a gate's value first; with the delays for that value it
    settles at the first moment at which the pins that are ready leave it no other.
    """
    delay, known = delay_of(netlist, falls), {}

    def settled(node):
        if node < netlist.inputs:
            return vector[node], arrivals[node]
        if node not in known:
            gate = netlist.gates[node - netlist.inputs]
            drivers = [settled(pin.driver) for pin in gate.pins]
            value = function_of(gate.kind, [each for each, _ in drivers])
            ready = [time + delay(node, place, value) for place, (_, time) in enumerate(drivers)]
            moments = (moment for moment in sorted(ready) if known_output(gate.kind, tuple(
                each if by <= moment else UNKNOWN for (each, _), by in zip(drivers, ready))) is not UNKNOWN)
            known[node] = value, next(moments)
        return known[node]

    sys.setrecursionlimit(max(sys.getrecursionlimit(), 10000))
    both = [settled(node) for node in range(node_count(netlist))]
    return [value for value, _ in both], [time for _, time in both]


def true_delay_apart(netlist, arrivals, falls):
    """The largest settling time over all vectors, with the first vector that reaches it."""
    best = (-1, None)
    for vector in all_vectors(netlist.inputs):
        _, times = settled_apart(netlist, arrivals, falls, vector)
        last = max(times[node] for node in netlist.outputs)
        if last > best[0]:
            best = (last, vector)
    return best


class LateApart(Late):
    """Who is late when with which value. A node that is asked for at a time is asked for with both values, so times are
    kept by node alone, and each gets two numbers.
    """

    def __init__(self, netlist, arrivals, falls, target):
        self.delay = delay_of(netlist, falls)
        super().__init__(netlist, arrivals, target)
        keys = [(node, value, t) for node in sorted(self.times_of) for value in (0, 1)
                for t in sorted(self.times_of[node])]
        self.number_of = dict(zip(keys, itertools.count(node_count(netlist) + 1)))

    def top(self, node):
        """The latest moment at which a node can settle, if every sum of the larger delays to it counts."""
        if node not in self.top_of:
            self.top_of[node] = max([self.top(pin.driver) + self.delay(node, place, value)
                                     for place, pin in enumerate(self.pins(node)) for value in (0, 1)],
                                    default=self.arrivals.get(node))
        return self.top_of[node]

    def want(self, node, t):
        """Ask for a node at a time, with both values, and for its drivers in turn."""
        if self.surely(node, t) or t > self.top(node):
            return
        if t not in self.times_of.setdefault(node, set()):
            self.times_of[node].add(t)
            for place, pin in enumerate(self.pins(node)):
                for value in (0, 1):
                    self.want(pin.driver, t - self.delay(node, place, value))

    def either(self, literals, lates):
        """The clause of some literals, then late conditions (node and time) and literals mixed; a late node is late
        with 0 or with 1. None where the clause is true.
        """
        clause = list(literals)
        for part in lates:
            if isinstance(part, int):
                clause.append(part)
            elif self.surely(*part):
                return []
            elif part[1] <= self.top(part[0]):
                clause += [self.number_of[part[0], value, part[1]] for value in (0, 1)]
        return [clause + [0]]


def formula_apart(netlist, arrivals, falls, target):
    """The pairs in order and the formula as lists of numbers, each clause with its 0, where each pin has two delays."""
    lateness = LateApart(netlist, arrivals, falls, target)
    clauses = []
    for g, gate in enumerate(netlist.gates):
        clauses += truth_clauses(netlist.inputs + g, gate)
    for (node, value, t), number in lateness.number_of.items():
        gate = netlist.gates[node - netlist.inputs]
        drivers = [(pin.driver, t - lateness.delay(node, place, value)) for place, pin in enumerate(gate.pins)]
        clauses.append([-number, node + 1 if value else -(node + 1), 0])
        clauses += lateness.either([-number], drivers)
        for setting in forcing(gate.kind, len(gate.pins)):
            parts = []
            for place, wanted in setting:
                driver = drivers[place][0]
                parts += [drivers[place], -(driver + 1) if wanted else driver + 1]
            clauses += lateness.either([-number], parts)
    clauses += lateness.either([], [(node, target) for node in netlist.outputs])
    return list(lateness.number_of), clauses


# Unit propagation by watched literals


class Watcher:
    """Stored clauses, two watched literals each; what follows without any assertion is kept for good."""

    def __init__(self, clauses):
        self.true, self.trail, self.next = set(), [], 0
        self.watched, self.false_at_root = {}, False
        for clause in clauses:
            self.store(clause)

    def store(self, clause):
        """Add a clause for good."""
        literals = set(clause)
        if any(-literal in literals for literal in literals):
            return
        order = sorted(literals, key=lambda literal: -literal in self.true)
        free = [literal for literal in order if -literal not in self.true]
        if len(order) > 1:
            for literal in order[:2]:
                self.watched.setdefault(literal, []).append(order)
        if not free:
            self.false_at_root = True
        elif len(free) == 1 and free[0] not in self.true:
            self.false_at_root |= not self.propagate([free[0]])

    def propagate(self, literals):
        """Make literals true and all that follows; False where a clause becomes false."""
        for literal in literals:
            if -literal in self.true:
                return False
            self.make_true(literal)
        while self.next < len(self.trail):
            self.next += 1
            if not self.visit(-self.trail[self.next - 1]):
                return False
        return True

    def make_true(self, literal):
        """Note that a literal is true."""
        if literal not in self.true:
            self.true.add(literal)
            self.trail.append(literal)

    def visit(self, false):
        """Look at every clause that watches a literal that became false."""
        clauses = self.watched.get(false, [])
        keep = []
        for place, clause in enumerate(clauses):
            if clause[0] == false:
                clause[0], clause[1] = clause[1], clause[0]
            if self.moved(clause):
                continue
            keep.append(clause)
            if -clause[0] in self.true:
                self.watched[false] = keep + clauses[place + 1:]
                return False
            self.make_true(clause[0])
        self.watched[false] = keep
        return True

    def moved(self, clause):
        """Watch another literal in place of the second one, where one is not false and the first is not true."""
        if clause[0] in self.true:
            return False
        for place in range(2, len(clause)):
            if -clause[place] not in self.true:
                clause[1], clause[place] = clause[place], clause[1]
                self.watched.setdefault(clause[1], []).append(clause)
                return True
        return False

    def follows(self, clause):
        """Whether a clause follows; leaves the stored clauses as they were."""
        if self.false_at_root:
            return True
        mark = len(self.trail)
        consistent = self.propagate([-literal for literal in clause])
        for literal in self.trail[mark:]:
            self.true.discard(literal)
        del self.trail[mark:]
        self.next = mark
        return not consistent


def first_gap(clauses, steps):
    """The first clause of a refutation that does not follow, or None."""
    watcher = Watcher(clauses)
    for place, step in enumerate(steps):
        if not watcher.follows(step):
            return place
        watcher.store(step)
    return None


# Makers of circuits, arrivals and vectors

KINDS = (BUF, NOT, AND, NAND, OR, NOR, XOR, XNOR, MUX)


class Dice:
    """Random numbers that a seed fixes on every machine and with every version of Python (the SplitMix64 rule)."""

    def __init__(self, *seeds):
        self.state = 0
        for seed in seeds:
            self.state = (self.state ^ seed) & 0xFFFFFFFFFFFFFFFF
            self.state = self.throw()

    def throw(self):
        """The next 64 bits."""
        self.state = (self.state + 0x9E3779B97F4A7C15) & 0xFFFFFFFFFFFFFFFF
        z = self.state
        z = ((z ^ (z >> 30)) * 0xBF58476D1CE4E5B9) & 0xFFFFFFFFFFFFFFFF
        z = ((z ^ (z >> 27)) * 0x94D049BB133111EB) & 0xFFFFFFFFFFFFFFFF
        return z ^ (z >> 31)

    def randrange(self, start, stop=None):
        """A number from start up to but not including stop; from 0 where only one number is given."""
        if stop is None:
            start, stop = 0, start
        return start + self.throw() % (stop - start)

    def randint(self, least, most):
        """A number from least to most."""
        return self.randrange(least, most + 1)

    def choice(self, items):
        """One of some items."""
        return items[self.randrange(len(items))]

    def sample(self, items, count):
        """So many of the items, each at most once, in any order."""
        left = list(items)
        for place in range(count):
            other = self.randrange(place, len(left))
            left[place], left[other] = left[other], left[place]
        return left[:count]


def random_delays(dice):
    """A maker of delays for one circuit: units, few small ones, any, or the two ends."""
    style = dice.randrange(5)
    if style == 0:
        return lambda: 1
    if style == 1:
        return lambda: dice.randrange(3)
    if style == 2:
        return lambda: dice.randrange(10)
    if style == 3:
        return lambda: dice.randrange(MOST_DELAY + 1)
    return lambda: dice.choice((0, 1, MOST_DELAY - 1, MOST_DELAY))


def random_pin_count(dice, kind):
    """A number of pins that the kind allows; small ones come more often."""
    if kind in (BUF, NOT):
        return 1
    if kind in (XOR, XNOR):
        return 2
    if kind == MUX:
        return 3
    return dice.choice((2, 2, 2, 3, 3, 4, 5, 6, 7, 8))


def random_driver(dice, node, style):
    """A node below a gate: any, or one of the last few."""
    if style == 0:
        return dice.randrange(node)
    return max(0, node - 1 - dice.randrange(style))


def random_pins(dice, node, count, style, delay):
    """Pins of one gate; now and then one driver serves two of them."""
    drivers = [random_driver(dice, node, style) for _ in range(count)]
    if count > 1 and dice.randrange(8) == 0:
        drivers[dice.randrange(count)] = drivers[dice.randrange(count)]
    return [Pin(driver, delay()) for driver in drivers]


def random_outputs(dice, nodes):
    """Some rising node numbers; mostly with the last node among them."""
    count = dice.choice((1, 1, 2, 3, dice.randint(1, MOST_OUTPUTS)))
    chosen = set(dice.sample(range(nodes), min(count, nodes)))
    if dice.randrange(4):
        chosen.discard(min(chosen))
        chosen.add(nodes - 1)
    return sorted(chosen)


def random_netlist(dice, most_inputs=6, most_gates=12, most_pins=MOST_PINS):
    """A circuit of all kinds, pin counts and delays within the given sizes."""
    inputs = dice.randint(1, most_inputs)
    style, delay = dice.choice((0, 0, 3, 6, 12)), random_delays(dice)
    gates, pins = [], 0
    for node in range(inputs, inputs + dice.randint(0, most_gates)):
        kind = dice.choice(KINDS)
        count = random_pin_count(dice, kind)
        if pins + count > most_pins:
            break
        gates.append(Gate(kind, random_pins(dice, node, count, style, delay)))
        pins += count
    return Netlist(inputs, gates, random_outputs(dice, inputs + len(gates)))


def largest_netlist(dice):
    """A circuit with I 64, G 448, P 2048 and Q 64: gates are widened until the pins are as many as may be."""
    kinds = [dice.choice(KINDS) for _ in range(MOST_GATES)]
    counts = [random_pin_count(dice, kind) for kind in kinds]
    while sum(counts) < MOST_PINS:
        place = dice.randrange(MOST_GATES)
        kinds[place] = dice.choice((AND, NAND, OR, NOR))
        counts[place] = min(8, counts[place] + MOST_PINS - sum(counts))
    style, delay = dice.choice((0, 6)), random_delays(dice)
    gates = [Gate(kind, random_pins(dice, MOST_INPUTS + g, count, style, delay))
             for g, (kind, count) in enumerate(zip(kinds, counts))]
    nodes = MOST_INPUTS + MOST_GATES
    return Netlist(MOST_INPUTS, gates, sorted(dice.sample(range(nodes), MOST_OUTPUTS)))


def in_time(netlist):
    """Arrivals of 0 for all inputs of a circuit."""
    return [0] * netlist.inputs


def random_arrivals(dice, inputs):
    """Arrivals for so many inputs: all 0, small ones, one late input, some of a delay's size, any, or the two ends."""
    style = dice.randrange(7)
    if style < 2:
        return [0] * inputs
    if style == 2:
        return [dice.randrange(4) for _ in range(inputs)]
    if style == 3:
        late = dice.randrange(inputs)
        return [dice.randint(1, 40) if place == late else 0 for place in range(inputs)]
    if style == 4:
        return [dice.choice((0, dice.randrange(MOST_DELAY + 1))) for _ in range(inputs)]
    if style == 5:
        return [dice.randrange(MOST_ARRIVAL + 1) for _ in range(inputs)]
    return [dice.choice((0, 1, MOST_ARRIVAL - 1, MOST_ARRIVAL)) for _ in range(inputs)]


def bad_arrivals(dice, inputs):
    """Arrivals that check 16 refuses: of another number, or with one or two over 9,999; or both."""
    arrivals = random_arrivals(dice, inputs)
    style = dice.randrange(4)
    if style != 0:
        for _ in range(dice.randint(1, 2)):
            arrivals[dice.randrange(inputs)] = dice.choice((10000, 10001, 16384, 65536, 2 ** 31, 2 ** 32 - 1))
    if style < 2:
        arrivals = (arrivals * 3)[:dice.choice((0, inputs - 1, inputs + 1, inputs + dice.randint(1, 2 * inputs)))]
    return arrivals


def own_falls(netlist):
    """Fall delays that are the file's own."""
    return [pin.delay for gate in netlist.gates for pin in gate.pins]


def random_falls(dice, netlist):
    """Fall delays for a circuit: the file's own, near them, exchanged among the pins, few small ones, any, or the two
    ends.
    """
    own, style = own_falls(netlist), dice.randrange(8)
    if style == 0:
        return own
    if style in (1, 2):
        return [min(MOST_DELAY, max(0, delay + dice.choice((-2, -1, 0, 0, 1, 2)))) for delay in own]
    if style == 3:
        return dice.sample(own, len(own))
    if style == 4:
        return [dice.randrange(4) for _ in own]
    if style == 5:
        return [dice.choice((delay, 0)) for delay in own]
    if style == 6:
        return [dice.randrange(MOST_DELAY + 1) for _ in own]
    return [dice.choice((0, 1, MOST_DELAY - 1, MOST_DELAY)) for _ in own]


def bad_falls(dice, netlist):
    """Fall delays that check 19 refuses: of another number, or with one or two over 999; or both."""
    falls, style = random_falls(dice, netlist), dice.randrange(4)
    pins = len(falls)
    if style != 0 and pins:
        for _ in range(dice.randint(1, 2)):
            falls[dice.randrange(pins)] = dice.choice((1000, 1001, 1024, 65536, 65541, 2 ** 31, 2 ** 32 - 1))
    if style < 2 or not pins:
        falls = (falls * 3 + [1] * (2 * pins + 2))[:dice.choice((0 if pins else 1, max(1, pins - 1) if pins > 1 else 2,
                                                                 pins + 1, pins + dice.randint(1, pins + 1)))]
    return falls


def random_vector(dice, inputs):
    """A vector for so many inputs."""
    return bytes(dice.randrange(2) for _ in range(inputs))


def bad_vector(dice, inputs):
    """A vector that check 8 refuses: of another length, or with a byte over 1."""
    if dice.randrange(2):
        length = dice.choice((0, inputs - 1, inputs + 1, inputs + dice.randrange(2, 6)))
        return random_vector(dice, length) if length != inputs else b""
    vector = bytearray(random_vector(dice, inputs))
    for _ in range(dice.randint(1, 2)):
        vector[dice.randrange(inputs)] = dice.choice((2, 3, 128, 255))
    return bytes(vector)


def ladder(dice, start, rungs):
    """Gates from node `start` on: one on input 0 with the largest delay, then each with two pins on the one before,
    delays 0 and 1. At a target below that delay the gate j rungs below the top has j + 1 pairs.
    """
    gates = [Gate(dice.choice((BUF, NOT)), [Pin(0, MOST_DELAY)])]
    for node in range(start + 1, start + rungs):
        gates.append(Gate(dice.choice((AND, NAND, OR, NOR, XOR, XNOR)), [Pin(node - 1, 0), Pin(node - 1, 1)]))
    return gates


LADDER_TARGET = 600


def ladders_for_pairs(dice, count):
    """A circuit whose formula for LADDER_TARGET has exactly `count` pairs: ladders side by side, each as high as the
    pairs that are still missing allow, their tops the outputs.
    """
    gates, outputs = [], []
    while count > 0:
        rungs = max(r for r in range(1, 400) if r * (r + 1) // 2 <= count)
        gates += ladder(dice, 1 + len(gates), rungs)
        outputs.append(len(gates))
        count -= rungs * (rungs + 1) // 2
    return Netlist(1, gates, outputs)


# Damaged files


class Tables:
    """The tables and the trailer of a file as they are to be written, right or wrong."""

    def __init__(self, netlist, note=b""):
        self.note, self.outputs, self.version = note, list(netlist.outputs), 1
        self.gates, self.pins = [], []
        for gate in netlist.gates:
            self.gates.append([gate.kind, len(gate.pins), len(self.pins)])
            self.pins += [[pin.driver, pin.delay] for pin in gate.pins]
        self.inputs = netlist.inputs
        self.count()

    def count(self):
        """Set the trailer's counts and its way back to what the tables hold."""
        self.counts = [self.inputs, len(self.gates), len(self.pins), len(self.outputs)]
        self.back = 4 * len(self.gates) + 4 * len(self.pins) + 2 * len(self.outputs)

    def write(self):
        """The bytes of the file."""
        data = b"".join(struct.pack("<BBH", *row) for row in self.gates)
        data += b"".join(struct.pack("<HH", *row) for row in self.pins)
        data += b"".join(struct.pack("<H", node) for node in self.outputs)
        return self.note + data + struct.pack("<IHHHHH", self.back, *self.counts, self.version)


def near(dice, number, most=65535):
    """A number beside another one, or at an end of the range."""
    return dice.choice((number - 1, number + 1, 0, most, number + 256)) % (most + 1)


def damage_trailer(dice, tables):
    """One number of the trailer is changed, mostly to the other side of a boundary."""
    field = dice.randrange(6)
    if field == 0:
        tables.version = dice.choice((0, 2, 256, 257, 65535))
    elif field == 1:
        tables.back = near(dice, tables.back, 4294967295)
    else:
        tables.counts[field - 2] = dice.choice(
            (0, (65, 449, 2049, 65)[field - 2], near(dice, tables.counts[field - 2])))


def damage_gate(dice, tables):
    """One number of one gate is changed."""
    row = dice.choice(tables.gates)
    field = dice.randrange(3)
    if field == 0:
        row[0] = dice.choice((0, 10, 255, dice.randrange(1, 10)))
    elif field == 1:
        row[1] = dice.choice((0, 1, 2, 3, 8, 9, 255))
    else:
        row[2] = near(dice, row[2])


def damage_pin(dice, tables):
    """A pin gets a driver at, above or below its gate, or a delay at the boundary."""
    g = dice.randrange(len(tables.gates))
    _, count, first = tables.gates[g]
    row = tables.pins[min(first + dice.randrange(max(1, count)), len(tables.pins) - 1)]
    node = tables.inputs + g
    if dice.randrange(3):
        row[0] = dice.choice((node, node + 1, max(0, node - 1), 65535, node + 256 & 65535))
    else:
        row[1] = dice.choice((999, 1000, 1001, 1024, 65535))


def damage_sum(dice, tables):
    """A pin too many or too few, with a trailer that counts the table as it is."""
    if len(tables.pins) > 1 and dice.randrange(2):
        tables.pins.pop()
    else:
        tables.pins.append([0, 0])
    tables.count()


def damage_output(dice, tables):
    """An output becomes equal to the one before, falls, or leaves the nodes."""
    nodes = tables.inputs + len(tables.gates)
    place = dice.randrange(len(tables.outputs))
    before = tables.outputs[place - 1] if place else 0
    tables.outputs[place] = dice.choice((before, max(0, before - 1), nodes - 1, nodes, nodes + 1, 65535))


def damage_length(dice, data):
    """The file loses bytes at an end, gains some, or has a byte flipped."""
    style = dice.randrange(4)
    if style == 0:
        return data[:dice.randrange(len(data))]
    if style == 1:
        return data[dice.randint(1, len(data)):]
    if style == 2:
        return data + bytes(dice.randrange(256) for _ in range(dice.randint(1, 4)))
    changed = bytearray(data)
    for _ in range(dice.randint(1, 3)):
        changed[dice.randrange(len(data))] ^= 1 << dice.randrange(8)
    return bytes(changed)


def damage(dice, netlist):
    """The bytes of a file with one to three faults (now and then a change that is none)."""
    tables = Tables(netlist, bytes(dice.randrange(256) for _ in range(dice.choice((0, 0, 1, 5)))))
    changes = [damage_trailer, damage_output]
    if tables.pins:
        changes += [damage_gate, damage_pin, damage_pin, damage_sum]
    for _ in range(dice.choice((0, 1, 1, 1, 2, 3))):
        dice.choice(changes)(dice, tables)
    data = tables.write()
    return damage_length(dice, data) if dice.randrange(4) == 0 else data
