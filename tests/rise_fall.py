"""Cells that rise slower than they fall, or faster: the rules of tests/document.py where each pin has two delays.

The netlist file's own delay of a pin serves a gate whose final value is 1. A second list, the falls, has one delay for
each pin of the file, and that one serves a gate whose final value is 0. Where only this matters, a rule is written here
anew, to be obviously right; all else is document.py's. A pair is node, value and time: "late at t with value v". The
three calls at the end (evaluate, build, judge) give the answer and the whole final content of every lent slice.
"""

from document import (FALL, MOST_DELAY, MOST_PAIRS, NEVER, PAIRS, SURE, WITNESS, Accepted, Built, Refusal, Settled,
                      call, check_refutation, check_room, check_vector, circuit_time, cubes_of, gate_clauses, gate_time,
                      gate_value, node_count, node_is, numbers_of, read_circuit, table_of, without_constants)

VALUES = (0, 1)


# The circuit


def pin_count(netlist):
    """P: the pins of all gates together."""
    return sum(len(gate.pins) for gate in netlist.gates)


def check_falls(netlist, falls):
    """Check 19, directly after 16: one fall delay for each pin, then none over 999."""
    if len(falls) != pin_count(netlist):
        raise Refusal(FALL, pin_count(netlist))
    for place, fall in enumerate(falls):
        if fall > MOST_DELAY:
            raise Refusal(FALL, place)


def read_checked(data, arrivals, falls):
    """The circuit of a file with these arrivals and falls; checks 1 to 7, then 16, then 19."""
    netlist = read_circuit(data, arrivals)
    check_falls(netlist, falls)
    return netlist


def delays_of(netlist, falls):
    """For each gate the delays of its pins in two lists: at 0 those for a gate that ends at 0, at 1 for one that ends
    at 1. Pin j of the falls is pin j of the file.
    """
    delays, first = [], 0
    for gate in netlist.gates:
        delays.append((list(falls[first:first + len(gate.pins)]), [pin.delay for pin in gate.pins]))
        first += len(gate.pins)
    return delays


# Settling


def settle(netlist, arrivals, falls, vector):
    """Value and settling time of all nodes: a pin is ready its delay after its driver settles, and which of its two
    delays that is the gate's final value says.
    """
    values, times = list(vector), list(arrivals)
    for gate, delays in zip(netlist.gates, delays_of(netlist, falls)):
        pins = [values[pin.driver] for pin in gate.pins]
        value = gate_value(gate.kind, pins)
        ready = [times[pin.driver] + delay for pin, delay in zip(gate.pins, delays[value])]
        values.append(value)
        times.append(gate_time(gate.kind, list(zip(pins, ready))))
    return values, times


def tops_of(netlist, arrivals, falls):
    """The top of each node: an input's arrival, and the longest way to a gate, of each pin the larger delay."""
    tops = list(arrivals)
    for gate, (fall, rise) in zip(netlist.gates, delays_of(netlist, falls)):
        tops.append(max(tops[pin.driver] + max(both) for pin, both in zip(gate.pins, zip(fall, rise))))
    return tops


# The formula for a target


def late(netlist, tops, node, value, t):
    """That a node is late at t with a value: an input up to its arrival, whatever the value; of a gate decided outright
    at 0 or below and above the top, else open, a pair.
    """
    if node < netlist.inputs:
        return SURE if t <= tops[node] else NEVER
    if t <= 0:
        return SURE
    if t > tops[node]:
        return NEVER
    return (node, value, t)


def pairs_of(netlist, arrivals, falls, target, limit):
    """The least set that holds both pairs of each output at the target and, for each pair (f, v, t) and each pin of f,
    both pairs of its driver at t less the pin's delay for v; by node, then value, then time. Check 10: at most `limit`.
    """
    tops, delays = tops_of(netlist, arrivals, falls), delays_of(netlist, falls)
    found = set()
    waiting = [late(netlist, tops, node, value, target) for node in netlist.outputs for value in VALUES]
    while waiting:
        pair = waiting.pop()
        if pair in (SURE, NEVER) or pair in found:
            continue
        found.add(pair)
        if len(found) > limit:
            raise Refusal(PAIRS, 0)
        node, value, t = pair
        g = node - netlist.inputs
        for pin, delay in zip(netlist.gates[g].pins, delays[g][value]):
            waiting += [late(netlist, tops, pin.driver, of_driver, t - delay) for of_driver in VALUES]
    return sorted(found)


def pair_limit(room):
    """How many pairs a table of so many numbers has room for: three numbers each."""
    return min(room // 3, MOST_PAIRS)


def pair_clauses(pair, number, gate, delays, part):
    """The clauses of a pair with variable `number`: "-p, gate is v"; "-p, or some driver late"; then one for each
    controlling cube. A late driver is either of its two pairs, value 0 first. `part` gives, of a node, a value and a
    time, the part of a clause that says that the node is late then with that value.
    """
    node, value, t = pair
    drivers_late = [[part(pin.driver, of_driver, t - delay) for of_driver in VALUES]
                    for pin, delay in zip(gate.pins, delays[value])]
    clauses = [[-number, node_is(node, value)],
               [-number] + [either for both in drivers_late for either in both]]
    for cube in cubes_of(gate.kind, len(gate.pins)):
        clause = [-number]
        for place, wanted in cube:
            clause += [*drivers_late[place], node_is(gate.pins[place].driver, 1 - wanted)]
        clauses.append(clause)
    return clauses


def clauses_for(netlist, arrivals, falls, target, pairs):
    """The formula's clauses: the gates', the pairs', the clause of the outputs, each late with value 0 or with 1."""
    tops, delays = tops_of(netlist, arrivals, falls), delays_of(netlist, falls)
    number_of = {pair: node_count(netlist) + 1 + place for place, pair in enumerate(pairs)}

    def part(node, value, t):
        condition = late(netlist, tops, node, value, t)
        return condition if condition in (SURE, NEVER) else number_of[condition]

    clauses = []
    for g, gate in enumerate(netlist.gates):
        clauses += gate_clauses(netlist.inputs + g, gate)
    for pair in pairs:
        g = pair[0] - netlist.inputs
        clauses += pair_clauses(pair, number_of[pair], netlist.gates[g], delays[g], part)
    clauses.append([part(node, value, target) for node in netlist.outputs for value in VALUES])
    return without_constants(clauses)


# The three calls, as those of document.py


def settle_checked(netlist, arrivals, falls, vector, values_room, times_room):
    """Check 8, check 9 for values, then for times; then the values and times."""
    check_vector(netlist, vector)
    check_room(values_room, node_count(netlist))
    check_room(times_room, node_count(netlist))
    return settle(netlist, arrivals, falls, vector)


def build_checked(netlist, arrivals, falls, target, pairs_room, formula_room):
    """Check 10, then 9 for the formula; the pairs, the clauses and the formula's numbers."""
    pairs = pairs_of(netlist, arrivals, falls, target, pair_limit(pairs_room))
    clauses = clauses_for(netlist, arrivals, falls, target, pairs)
    numbers = numbers_of(clauses)
    check_room(formula_room, len(numbers))
    return pairs, clauses, numbers


def evaluate_rise_fall(data, arrivals, falls, vector, values_room, times_room):
    """Gives Settled or Refused, values, times. Checks: 1 to 7, 16, 19, 8, 9 for values, 9 for times."""
    def work():
        netlist = read_checked(data, arrivals, falls)
        values, times = settle_checked(netlist, arrivals, falls, vector, values_room, times_room)
        return Settled(circuit_time(netlist, times)), [values, times]
    return call(work, [values_room, times_room])


def build_rise_fall(data, arrivals, falls, target, pairs_room, formula_room):
    """Gives Built or Refused, pairs, formula. Checks: 1 to 7, 16, 19, 10, 9 for the formula."""
    def work():
        netlist = read_checked(data, arrivals, falls)
        pairs, clauses, numbers = build_checked(netlist, arrivals, falls, target, pairs_room, formula_room)
        built = Built(node_count(netlist) + len(pairs), len(clauses), len(numbers), len(pairs))
        return built, [table_of(pairs), numbers]
    return call(work, [pairs_room, formula_room])


def judge_rise_fall(data, arrivals, falls, delay, vector, refutation,
                    values_room, times_room, pairs_room, formula_room, propagation_room):
    """Gives Accepted or Refused, values, times, pairs, formula, propagation. Checks: 1 to 7, 16, 19, 8, 9 for values
    and times, 15, 10, 9 for the formula, 12, 13, 9 for propagation, 14.
    """
    def work():
        netlist = read_checked(data, arrivals, falls)
        values, times = settle_checked(netlist, arrivals, falls, vector, values_room, times_room)
        if circuit_time(netlist, times) != delay:
            raise Refusal(WITNESS, circuit_time(netlist, times))
        pairs, _, numbers = build_checked(netlist, arrivals, falls, delay + 1, pairs_room, formula_room)
        check_refutation(node_count(netlist) + len(pairs), numbers, refutation, propagation_room)
        return Accepted(), [values, times, table_of(pairs), numbers, []]
    return call(work, [values_room, times_room, pairs_room, formula_room, propagation_room])
