"""The library's table of refusals in words (docs/RULES.md, "Numbers a refusal gives").

`in_words` says a number and a place by themselves. The rest says the cause, where what was asked is at hand: which
counts, which gate, which values. Places count from 0.
"""

import struct

from .netlist import KINDS, MOST_ARRIVAL, MOST_DELAY, PIN_COUNTS, TRAILER
from .words import count

(SHORT, VERSION, COUNT, BACK, GATE, PIN, OUTPUT, VECTOR, ROOM, PAIRS, FORMULA, REFUTATION, LAST, STEP, WITNESS,
 ARRIVAL) = range(1, 17)
FALL = 19

# Each row by its number: the refusal's name, when it is given, what its place is (nothing where it is always 0).
TABLE = {
    SHORT: ("SHORT", "fewer than 14 bytes", "the length"),
    VERSION: ("VERSION", "the version isn't 1", "the version"),
    COUNT: ("COUNT", "inputs, gates, pins or outputs outside their range", "the first such, from 0 to 3"),
    BACK: ("BACK", "back isn't 4G+4P+2Q or exceeds the length less 14", None),
    GATE: ("GATE", "unknown kind, pin count or first pin wrong, or final sum isn't P", "the gate, or G for the sum"),
    PIN: ("PIN", "driver not below its gate, or delay over 999", "the pin"),
    OUTPUT: ("OUTPUT", "outputs not rising, or no such node", "its position"),
    VECTOR: ("VECTOR", "not one byte for each input, or a byte over 1", "the number of inputs, or the byte's position"),
    ROOM: ("ROOM", "a lent slice is shorter than needed", "the length needed"),
    PAIRS: ("PAIRS", "over 65,536 pairs, or more than the lent table has room for", None),
    FORMULA: ("FORMULA", "V over 100,000, or a literal over V, or last number not 0", "0, or its index, or the length"),
    REFUTATION: ("REFUTATION", "a literal over V, or empty, or last number not 0", "its index, or the length"),
    LAST: ("LAST", "an empty clause before the last, or none", "that clause, or the number of clauses"),
    STEP: ("STEP", "a clause doesn't follow", "the first such clause, counted from 0"),
    WITNESS: ("WITNESS", "the vector doesn't settle at the claimed delay", "the time it does settle at"),
    ARRIVAL: ("ARRIVAL", "not one arrival for each input, or an arrival over 9,999",
              "the number of inputs, or the arrival's position"),
    FALL: ("FALL", "not one fall delay for each pin, or one over 999", "the number of pins, or the delay's position"),
}

COUNTED = (("input", 1, 64), ("gate", 0, 448), ("pin", 0, 2048), ("output", 1, 64))
MOST_PAIRS = 65536


def in_words(number, place):
    """A refusal by itself, as a person says it."""
    name, when, what = TABLE[number]
    return f"{name}: {when}." + (f" Place {place} is {what}." if what else "")


def named(number, cause):
    """A refusal's name and its cause."""
    return f"{TABLE[number][0]}: {cause}."


# Refusals of a netlist file


def of_netlist(number, place, data):
    """The cause of a refusal from 1 to 7, from the bytes."""
    if number == SHORT:
        return named(number, f"a netlist file has at least {TRAILER.size} bytes, and this has {place}")
    back, *counts, version = TRAILER.unpack_from(data, len(data) - TRAILER.size)
    if number == VERSION:
        return named(number, f"the file's last two bytes say version {version}, and 1 is known")
    if number == COUNT:
        what, least, most = COUNTED[place]
        return named(number, f"{count(counts[place], what)}, and {least} to {most} may be")
    inputs, gates, pins, outputs = counts
    if number == BACK:
        return named(number, back_cause(len(data) - TRAILER.size, back, 4 * gates + 4 * pins + 2 * outputs))
    tables = data[len(data) - TRAILER.size - back:]
    rows = [struct.unpack_from("<BBH", tables, 4 * gate) for gate in range(gates)]
    if number == GATE:
        return named(number, gate_cause(place, rows, inputs, pins))
    if number == PIN:
        driver, delay = struct.unpack_from("<HH", tables, 4 * (gates + place))
        return named(number, pin_cause(place, driver, delay, rows, inputs))
    nodes = struct.unpack_from(f"<{outputs}H", tables, 4 * (gates + pins))
    return named(number, output_cause(place, nodes, inputs + gates))


def back_cause(held, back, wanted):
    """Why the way back to the tables is wrong."""
    if back != wanted:
        return f"the trailer points {count(back, 'byte')} back, and its counts ask for {wanted}"
    return f"the trailer points {count(back, 'byte')} back, and only {held} stand before it"


def gate_cause(gate, rows, inputs, pins):
    """Why a gate, or the sum of the pin counts, is wrong."""
    before = sum(row[1] for row in rows[:gate])
    if gate == len(rows):
        return f"the gates have {count(before, 'pin')} together, and the trailer says {pins}"
    kind, own, first = rows[gate]
    if not 1 <= kind <= len(KINDS):
        return f"gate {gate} (node {inputs + gate}) has kind {kind}, and 1 to {len(KINDS)} are known"
    name = KINDS[kind - 1]
    least, most = PIN_COUNTS[name]
    if not least <= own <= most:
        wanted = f"{least} to {most}" if least < most else least
        return f"gate {gate} (node {inputs + gate}) is of kind {name} with {count(own, 'pin')}, and {wanted} may be"
    return f"gate {gate} (node {inputs + gate}) says that its first pin is {first}, and {before} stand before it"


def pin_cause(pin, driver, delay, rows, inputs):
    """Why a pin is wrong."""
    gate, first = 0, 0
    while gate < len(rows) and pin >= first + rows[gate][1]:
        first += rows[gate][1]
        gate += 1
    node = inputs + gate
    if driver >= node:
        return f"pin {pin} belongs to node {node} and is driven by node {driver}, which is not below it"
    return f"pin {pin}, of node {node}, has delay {delay}, over {MOST_DELAY}"


def output_cause(place, nodes, all_nodes):
    """Why an output is wrong."""
    if nodes[place] >= all_nodes:
        return f"output {place} is node {nodes[place]}, and the last node is {all_nodes - 1}"
    return f"output {place} is node {nodes[place]}, which is not above the one before it, {nodes[place - 1]}"


# Refusals of arrivals, of a vector and of a formula


def of_arrivals(place, arrivals, names, inputs):
    """Why arrivals are refused."""
    if len(arrivals) != inputs:
        return named(ARRIVAL, f"{count(len(arrivals), 'arrival')} for {count(inputs, 'input')}")
    return named(ARRIVAL, f"input {names[place]} arrives at {arrivals[place]}, the latest is {MOST_ARRIVAL}")


def of_falls(place, falls, pins):
    """Why fall delays are refused."""
    if len(falls) != pins:
        return named(FALL, f"{count(len(falls), 'fall delay')} for {count(pins, 'pin')}")
    return named(FALL, f"pin {place} has the fall delay {falls[place]}, over {MOST_DELAY}")


def of_vector(place, vector, names, inputs):
    """Why a vector is refused."""
    if len(vector) != inputs:
        return named(VECTOR, f"{count(len(vector), 'value')} for {count(inputs, 'input')}")
    return named(VECTOR, f"{names[place]} has the value {vector[place]}, and a value is 0 or 1")


def of_pairs(target, pairs):
    """Why a target has no formula."""
    return named(PAIRS, f"the formula for T={target} has {count(pairs, 'pair')}, and the library holds {MOST_PAIRS:,}")


def of_witness(place, delay):
    """Why a vector is no witness."""
    return named(WITNESS, f"the vector settles at {place}, and the claim is {delay}")
