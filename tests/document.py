"""The rules (docs/RULES.md) in Python, written to be obviously right and not to be fast.

Each function is one rule or one table of that page and nothing else, and names it. It was written from the page alone,
never from the library, so that a difference between the two shows a mistake in one of them. The four calls at the end
(evaluate, build, check, judge) give the answer and the whole final content of every slice that the caller lends.
Assumes nothing but the standard library of Python 3.
"""

import struct
from collections import namedtuple

# The table of refusals (rule T1): number and name.
(SHORT, VERSION, COUNT, BACK, GATE, PIN, OUTPUT, VECTOR,
 ROOM, PAIRS, FORMULA, REFUTATION, LAST, STEP, WITNESS, ARRIVAL) = range(1, 17)
FALL = 19

# The nine kinds (rule K1).
BUF, NOT, AND, NAND, OR, NOR, XOR, XNOR, MUX = range(1, 10)
SIMPLE = (BUF, NOT, AND, NAND, OR, NOR)

# Least and largest number of pins of each kind.
PIN_COUNTS = {BUF: (1, 1), NOT: (1, 1), AND: (2, 8), NAND: (2, 8), OR: (2, 8), NOR: (2, 8),
              XOR: (2, 2), XNOR: (2, 2), MUX: (3, 3)}

# Of the simple kinds, the controlling value c and the value k that a pin at c makes the gate give (rule K2).
CONTROLLING = {BUF: 0, NOT: 0, AND: 0, NAND: 0, OR: 1, NOR: 1}
FORCED = {BUF: 0, NOT: 1, AND: 0, NAND: 1, OR: 1, NOR: 0}

# The controlling cubes of MUX, in their order (rule K6): each of its literals is a pin's place and the value it must
# have. Pin 0 is select, 1 is a, 2 is b.
MUX_CUBES = (((0, 0), (1, 0)), ((0, 0), (1, 1)), ((0, 1), (2, 0)), ((0, 1), (2, 1)), ((1, 0), (2, 0)), ((1, 1), (2, 1)))

TRAILER = 14
MOST_INPUTS, MOST_GATES, MOST_PINS, MOST_OUTPUTS = 64, 448, 2048, 64
MOST_DELAY = 999
MOST_ARRIVAL = 9999
MOST_PAIRS = 65536
MOST_VARIABLES = 100000

# The room of the program that prints a formula (rule W3).
PROGRAM_NETLIST, PROGRAM_PAIRS, PROGRAM_FORMULA = 65532, 8192, 16384

# The parts of a clause that are decided outright (rule F2).
SURE, NEVER = "always true", "always false"

Pin = namedtuple("Pin", "driver delay")
Gate = namedtuple("Gate", "kind pins")
Netlist = namedtuple("Netlist", "inputs gates outputs")

# What a call answers.
Refused = namedtuple("Refused", "number place")
Settled = namedtuple("Settled", "time")
Built = namedtuple("Built", "variables clauses numbers pairs")
Passes = namedtuple("Passes", "")
Accepted = namedtuple("Accepted", "")


class Refusal(Exception):
    """Raised at the first check that fails; carries the answer."""

    def __init__(self, number, place):
        super().__init__(number, place)
        self.answer = Refused(number, place)


# The netlist file


def read_netlist(data):
    """The circuit that a file stands for (rule N10); checks 1 to 7, one after the other."""
    gate_count, pin_count, output_count, inputs, tables = read_trailer(data)
    gate_rows = [struct.unpack_from("<BBH", tables, 4 * g) for g in range(gate_count)]
    pin_rows = [struct.unpack_from("<HH", tables, 4 * (gate_count + p)) for p in range(pin_count)]
    first_output = 4 * (gate_count + pin_count)
    outputs = [struct.unpack_from("<H", tables, first_output + 2 * q)[0] for q in range(output_count)]
    check_gates(gate_rows, pin_count)
    check_pins(gate_rows, pin_rows, inputs)
    check_outputs(outputs, inputs + gate_count)
    gates = [Gate(kind, [Pin(*row) for row in pin_rows[first:first + count]]) for kind, count, first in gate_rows]
    return Netlist(inputs, gates, outputs)


def read_trailer(data):
    """The trailer's counts, and the bytes of the three tables before it (rules N2 to N4); checks 1 to 4."""
    if len(data) < TRAILER:
        raise Refusal(SHORT, len(data))
    end = len(data) - TRAILER
    back, inputs, gates, pins, outputs, version = struct.unpack_from("<IHHHHH", data, end)
    if version != 1:
        raise Refusal(VERSION, version)
    ranges = ((inputs, 1, MOST_INPUTS), (gates, 0, MOST_GATES), (pins, 0, MOST_PINS), (outputs, 1, MOST_OUTPUTS))
    for place, (count, least, most) in enumerate(ranges):
        if not least <= count <= most:
            raise Refusal(COUNT, place)
    if back != 4 * gates + 4 * pins + 2 * outputs or back > end:
        raise Refusal(BACK, 0)
    return gates, pins, outputs, inputs, data[end - back:end]


def check_gates(gate_rows, pin_count):
    """Check 5: every gate by itself, then the total of the pin counts (rule N5)."""
    pins_before = 0
    for place, (kind, count, first) in enumerate(gate_rows):
        if kind not in PIN_COUNTS:
            raise Refusal(GATE, place)
        least, most = PIN_COUNTS[kind]
        if not least <= count <= most or first != pins_before:
            raise Refusal(GATE, place)
        pins_before += count
    if pins_before != pin_count:
        raise Refusal(GATE, len(gate_rows))


def check_pins(gate_rows, pin_rows, inputs):
    """Check 6: what drives a gate lies below it, and no delay is over 999 (rules N6 and N9)."""
    for g, (_, count, first) in enumerate(gate_rows):
        for place in range(first, first + count):
            driver, delay = pin_rows[place]
            if driver >= inputs + g or delay > MOST_DELAY:
                raise Refusal(PIN, place)


def check_outputs(outputs, nodes):
    """Check 7: outputs are nodes, each larger than the one in front of it (rule N7)."""
    for place, node in enumerate(outputs):
        if node >= nodes or (place > 0 and node <= outputs[place - 1]):
            raise Refusal(OUTPUT, place)


def write_netlist(netlist, note=b""):
    """The bytes of a file that holds a netlist, with a note in front. Nothing is checked."""
    gate_table, pin_table = b"", b""
    first = 0
    for gate in netlist.gates:
        gate_table += struct.pack("<BBH", gate.kind, len(gate.pins), first)
        pin_table += b"".join(struct.pack("<HH", pin.driver, pin.delay) for pin in gate.pins)
        first += len(gate.pins)
    output_table = b"".join(struct.pack("<H", node) for node in netlist.outputs)
    tables = gate_table + pin_table + output_table
    counts = (netlist.inputs, len(netlist.gates), first, len(netlist.outputs))
    return note + tables + struct.pack("<IHHHHH", len(tables), *counts, 1)


def node_count(netlist):
    """N: inputs and gates together."""
    return netlist.inputs + len(netlist.gates)


def check_arrivals(netlist, arrivals):
    """Check 16: one arrival for each input, then none over 9,999."""
    if len(arrivals) != netlist.inputs:
        raise Refusal(ARRIVAL, netlist.inputs)
    for place, arrival in enumerate(arrivals):
        if arrival > MOST_ARRIVAL:
            raise Refusal(ARRIVAL, place)


def read_circuit(data, arrivals):
    """The circuit of a file whose inputs arrive at these times; checks 1 to 7, then 16."""
    netlist = read_netlist(data)
    check_arrivals(netlist, arrivals)
    return netlist


# Settling


def check_vector(netlist, vector):
    """Check 8: the vector's length, then each byte."""
    if len(vector) != netlist.inputs:
        raise Refusal(VECTOR, netlist.inputs)
    for place, byte in enumerate(vector):
        if byte > 1:
            raise Refusal(VECTOR, place)


def gate_value(kind, pins):
    """The value that a gate gives for those of its pins, in pin order (rules K2 to K4)."""
    if kind == BUF:
        return pins[0]
    if kind == NOT:
        return 1 - pins[0]
    if kind in (AND, NAND):
        every = 1 if all(pins) else 0
        return every if kind == AND else 1 - every
    if kind in (OR, NOR):
        some = 1 if any(pins) else 0
        return some if kind == OR else 1 - some
    if kind in (XOR, XNOR):
        differ = 1 if pins[0] != pins[1] else 0
        return differ if kind == XOR else 1 - differ
    select, a, b = pins
    return b if select else a


def cubes_of(kind, count):
    """The controlling cubes of a gate with so many pins, in their order (rule K6): of a simple gate each pin at c."""
    if kind in SIMPLE:
        return [((place, CONTROLLING[kind]),) for place in range(count)]
    return MUX_CUBES if kind == MUX else ()


def gate_time(kind, pins):
    """When a gate settles; a pin is (value, the time it is ready).

    Where controlling cubes hold, it is as soon as all pins of one of them are ready; otherwise, once all the gate's
    pins are (rules S3 and S4).
    """
    holding = [cube for cube in cubes_of(kind, len(pins)) if all(pins[place][0] == value for place, value in cube)]
    if holding:
        return min(max(pins[place][1] for place, _ in cube) for cube in holding)
    return max(ready for _, ready in pins)


def settle(netlist, arrivals, vector):
    """Value and settling time of all nodes, from the inputs up, each settled at its arrival (rules S1, S2 and S5)."""
    values, times = list(vector), list(arrivals)
    for gate in netlist.gates:
        pins = [(values[pin.driver], times[pin.driver] + pin.delay) for pin in gate.pins]
        values.append(gate_value(gate.kind, [value for value, _ in pins]))
        times.append(gate_time(gate.kind, pins))
    return values, times


def circuit_time(netlist, times):
    """The circuit settles with the latest of its outputs (rule S6)."""
    return max(times[node] for node in netlist.outputs)


def check_room(room, needed):
    """Check 9: a lent slice has the elements that it needs."""
    if room < needed:
        raise Refusal(ROOM, needed)


# The formula for a target


def tops_of(netlist, arrivals):
    """The top of each node: an input's arrival, and the longest way to a gate counted in delays (rule S7)."""
    tops = list(arrivals)
    for gate in netlist.gates:
        tops.append(max(tops[pin.driver] + pin.delay for pin in gate.pins))
    return tops


def late(netlist, tops, node, t):
    """That a node is late at t (rule F2): an input up to its arrival and not beyond; of a gate decided outright at 0 or
    below and above the top, else open, a pair.
    """
    if node < netlist.inputs:
        return SURE if t <= tops[node] else NEVER
    if t <= 0:
        return SURE
    if t > tops[node]:
        return NEVER
    return (node, t)


def pairs_of(netlist, arrivals, target, limit):
    """The pairs of a target (rule F4), in the order of their variables. Check 10: at most `limit` of them; the set only
    grows, so the search ends where it has passed the limit.
    """
    tops = tops_of(netlist, arrivals)
    found = set()
    waiting = [late(netlist, tops, node, target) for node in netlist.outputs]
    while waiting:
        pair = waiting.pop()
        if pair in (SURE, NEVER) or pair in found:
            continue
        found.add(pair)
        if len(found) > limit:
            raise Refusal(PAIRS, 0)
        node, t = pair
        gate = netlist.gates[node - netlist.inputs]
        waiting += [late(netlist, tops, pin.driver, t - pin.delay) for pin in gate.pins]
    return sorted(found)


def pair_limit(room):
    """How many pairs a table of so many numbers has room for (rule C5)."""
    return min(room // 2, MOST_PAIRS)


def node_is(node, value):
    """The literal that wants a node at a value; node n has variable n + 1 (rule F5)."""
    return node + 1 if value else -(node + 1)


def gate_clauses(node, gate):
    """The clauses that tie a gate's value to those of its drivers (rules F9 to F11)."""
    drivers = [pin.driver for pin in gate.pins]
    if gate.kind in SIMPLE:
        return simple_clauses(node, drivers, CONTROLLING[gate.kind], FORCED[gate.kind])
    if gate.kind in (XOR, XNOR):
        first, second = drivers
        return [[node_is(first, 1 - x), node_is(second, 1 - y), node_is(node, gate_value(gate.kind, [x, y]))]
                for x, y in ((0, 0), (0, 1), (1, 0), (1, 1))]
    s, a, b, f = (variable + 1 for variable in drivers + [node])
    return [[s, -a, f], [s, a, -f], [-s, -b, f], [-s, b, -f]]


def simple_clauses(node, drivers, c, k):
    """A clause of two literals for each pin, then one over all pins (rule F9)."""
    each = [[node_is(driver, 1 - c), node_is(node, k)] for driver in drivers]
    return each + [[node_is(driver, c) for driver in drivers] + [node_is(node, 1 - k)]]


def pair_clauses(pair, number, gate, part):
    """The clauses of a pair with variable `number` (rule F12); `part` gives, of a node and a time, the part of a clause
    that says that the node is late then.
    """
    _, t = pair
    drivers_late = [part(pin.driver, t - pin.delay) for pin in gate.pins]
    clauses = [[-number] + drivers_late]
    for cube in cubes_of(gate.kind, len(gate.pins)):
        clause = [-number]
        for place, value in cube:
            clause += [drivers_late[place], node_is(gate.pins[place].driver, 1 - value)]
        clauses.append(clause)
    return clauses


def without_constants(clauses):
    """The clauses without what is decided outright (rule F14)."""
    return [[part for part in clause if part != NEVER] for clause in clauses if SURE not in clause]


def clauses_for(netlist, arrivals, target, pairs):
    """The formula's clauses: the gates', the pairs', the clause of the outputs (rules F8 and F13)."""
    tops = tops_of(netlist, arrivals)
    # The numbers after N are the pairs'.
    number_of = {pair: node_count(netlist) + 1 + place for place, pair in enumerate(pairs)}

    def part(node, t):
        condition = late(netlist, tops, node, t)
        return condition if condition in (SURE, NEVER) else number_of[condition]

    clauses = []
    for g, gate in enumerate(netlist.gates):
        clauses += gate_clauses(netlist.inputs + g, gate)
    for pair in pairs:
        gate = netlist.gates[pair[0] - netlist.inputs]
        clauses += pair_clauses(pair, number_of[pair], gate, part)
    clauses.append([part(node, target) for node in netlist.outputs])
    return without_constants(clauses)


def numbers_of(clauses):
    """Clauses as one list of numbers, a 0 behind each (rule F7)."""
    return [number for clause in clauses for number in clause + [0]]


# Unit propagation


def clauses_in(numbers):
    """The clauses of a list of numbers, cut behind its zeros (rule L1)."""
    clauses, clause = [], []
    for number in numbers:
        if number == 0:
            clauses.append(clause)
            clause = []
        else:
            clause.append(number)
    return clauses


def follows(clause, stored):
    """Whether a clause follows from stored ones by unit propagation (rules P1 to P4)."""
    true = set()
    # The opposites of its literals are true; two that contradict each other settle it.
    for literal in clause:
        if literal in true:
            return True
        true.add(-literal)
    again = True
    while again:
        again = False
        for other in stored:
            not_false = {literal for literal in other if -literal not in true}
            # A stored clause that is false.
            if not not_false:
                return True
            # All false except one free literal, however often it occurs.
            if len(not_false) == 1 and not not_false <= true:
                true |= not_false
                again = True
    # No stored clause does either any more.
    return False


def first_beyond(numbers, variables):
    """The index of the first number whose size is above V, or None."""
    for index, number in enumerate(numbers):
        if abs(number) > variables:
            return index
    return None


def check_formula(variables, formula):
    """Check 11, in its order."""
    if variables > MOST_VARIABLES:
        raise Refusal(FORMULA, 0)
    beyond = first_beyond(formula, variables)
    if beyond is not None:
        raise Refusal(FORMULA, beyond)
    if formula and formula[-1] != 0:
        raise Refusal(FORMULA, len(formula))


def check_refutation(variables, formula, refutation, propagation_room):
    """Checks 12, 13, 9 for the propagation slice, 14."""
    beyond = first_beyond(refutation, variables)
    if beyond is not None:
        raise Refusal(REFUTATION, beyond)
    if not refutation or refutation[-1] != 0:
        raise Refusal(REFUTATION, len(refutation))
    steps = clauses_in(refutation)
    check_last(steps)
    check_room(propagation_room, variables + 1)
    stored = clauses_in(formula)
    for place, step in enumerate(steps):
        if not follows(step, stored):
            raise Refusal(STEP, place)
        stored.append(step)


def check_last(steps):
    """Check 13: only the last clause is empty (rule P6)."""
    for place, step in enumerate(steps[:-1]):
        if not step:
            raise Refusal(LAST, place)
    if steps[-1]:
        raise Refusal(LAST, len(steps))


# The four calls. Rooms are the lengths of the slices lent for writing; each call gives its answer and then the final
# content of those slices in the order of its rooms.


def after(results, room):
    """What a lent slice holds at the end: the results, then zeros."""
    return list(results) + [0] * (room - len(results))


def call(work, rooms):
    """Run one call. After a refusal all that was lent for writing holds zeros (rule C7)."""
    try:
        answer, results = work()
    except Refusal as refusal:
        answer, results = refusal.answer, [[] for _ in rooms]
    return (answer, *[after(result, room) for result, room in zip(results, rooms)])


def settle_checked(netlist, arrivals, vector, values_room, times_room):
    """Check 8, check 9 for values, then for times; then the values and times."""
    check_vector(netlist, vector)
    check_room(values_room, node_count(netlist))
    check_room(times_room, node_count(netlist))
    return settle(netlist, arrivals, vector)


def build_checked(netlist, arrivals, target, pairs_room, formula_room):
    """Check 10, then 9 for the formula; the pairs, the clauses and the formula's numbers."""
    pairs = pairs_of(netlist, arrivals, target, pair_limit(pairs_room))
    clauses = clauses_for(netlist, arrivals, target, pairs)
    numbers = numbers_of(clauses)
    check_room(formula_room, len(numbers))
    return pairs, clauses, numbers


def table_of(pairs):
    """The lent table: node and time of each pair (rule F6)."""
    return [number for pair in pairs for number in pair]


def evaluate(data, arrivals, vector, values_room, times_room):
    """Gives Settled or Refused, values, times; the checks as in rule C3."""
    def work():
        netlist = read_circuit(data, arrivals)
        values, times = settle_checked(netlist, arrivals, vector, values_room, times_room)
        return Settled(circuit_time(netlist, times)), [values, times]
    return call(work, [values_room, times_room])


def build(data, arrivals, target, pairs_room, formula_room):
    """Gives Built or Refused, pairs, formula; the checks as in rule C3."""
    def work():
        netlist = read_circuit(data, arrivals)
        pairs, clauses, numbers = build_checked(netlist, arrivals, target, pairs_room, formula_room)
        built = Built(node_count(netlist) + len(pairs), len(clauses), len(numbers), len(pairs))
        return built, [table_of(pairs), numbers]
    return call(work, [pairs_room, formula_room])


def check(variables, formula, refutation, propagation_room):
    """Gives Passes or Refused, propagation; the checks as in rule C3."""
    def work():
        check_formula(variables, formula)
        check_refutation(variables, formula, refutation, propagation_room)
        return Passes(), [[]]
    return call(work, [propagation_room])


def judge(data, arrivals, delay, vector, refutation,
          values_room, times_room, pairs_room, formula_room, propagation_room):
    """Gives Accepted or Refused, values, times, pairs, formula, propagation; the checks as in rule C3."""
    def work():
        netlist = read_circuit(data, arrivals)
        values, times = settle_checked(netlist, arrivals, vector, values_room, times_room)
        if circuit_time(netlist, times) != delay:
            raise Refusal(WITNESS, circuit_time(netlist, times))
        pairs, _, numbers = build_checked(netlist, arrivals, delay + 1, pairs_room, formula_room)
        check_refutation(node_count(netlist) + len(pairs), numbers, refutation, propagation_room)
        return Accepted(), [values, times, table_of(pairs), numbers, []]
    return call(work, [values_room, times_room, pairs_room, formula_room, propagation_room])


# The program that prints a formula


def dimacs(variables, clauses):
    """A formula as DIMACS CNF prints it (rule W2)."""
    lines = ["p cnf %d %d" % (variables, len(clauses))]
    lines += [" ".join(str(number) for number in clause + [0]) for clause in clauses]
    return "".join(line + "\n" for line in lines)


def refused_line(number, place):
    """What a program prints on a refusal."""
    return "refused %d %d\n" % (number, place)


def no_arrivals(data):
    """An arrival of 0 for each input of a file; none where the file is refused."""
    try:
        return [0] * read_netlist(data).inputs
    except Refusal:
        return []


def formula_program(data):
    """What the formula program prints for the bytes of a target and a netlist (rules W2 and W3); every input arrives
    at 0.
    """
    if len(data) < 4:
        return refused_line(SHORT, len(data))
    target, netlist = struct.unpack_from("<I", data)[0], data[4:]
    if len(netlist) > PROGRAM_NETLIST:
        return refused_line(ROOM, PROGRAM_NETLIST + 1)
    answer, _, numbers = build(netlist, no_arrivals(netlist), target, 2 * PROGRAM_PAIRS, PROGRAM_FORMULA)
    if isinstance(answer, Refused):
        return refused_line(*answer)
    return dimacs(answer.variables, clauses_in(numbers[:answer.numbers]))
