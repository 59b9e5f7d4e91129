"""A netlist as data, and the bytes of its file (docs/RULES.md, "The netlist file").

What is read here is only for showing and searching; whether the bytes are a netlist is the library's word alone. A
pin has two delays here: its own, which the file holds, for a gate that ends at 1, and its fall delay for a gate that
ends at 0, which stands beside the file. Where nothing else is said, the second is the first.
"""

import struct
from collections import namedtuple

KINDS = ("BUF", "NOT", "AND", "NAND", "OR", "NOR", "XOR", "XNOR", "MUX")
PIN_COUNTS = {"BUF": (1, 1), "NOT": (1, 1), "AND": (2, 8), "NAND": (2, 8), "OR": (2, 8), "NOR": (2, 8),
              "XOR": (2, 2), "XNOR": (2, 2), "MUX": (3, 3)}

TRAILER = struct.Struct("<IHHHHH")
MOST_INPUTS, MOST_GATES, MOST_PINS, MOST_OUTPUTS, MOST_DELAY, MOST_ARRIVAL = 64, 448, 2048, 64, 999, 9999
VERSION = 1

Pin = namedtuple("Pin", "driver delay fall")
Gate = namedtuple("Gate", "kind pins")
Netlist = namedtuple("Netlist", "inputs gates outputs")


def write_netlist(netlist):
    """The bytes of a netlist file."""
    gate_table, pin_table = bytearray(), bytearray()
    first = 0
    for gate in netlist.gates:
        gate_table += struct.pack("<BBH", KINDS.index(gate.kind) + 1, len(gate.pins), first)
        for pin in gate.pins:
            pin_table += struct.pack("<HH", pin.driver, pin.delay)
        first += len(gate.pins)
    output_table = b"".join(struct.pack("<H", node) for node in netlist.outputs)
    tables = bytes(gate_table + pin_table) + output_table
    counts = (netlist.inputs, len(netlist.gates), first, len(netlist.outputs))
    return tables + TRAILER.pack(len(tables), *counts, VERSION)


def read_netlist(data):
    """The netlist in bytes that the library has accepted."""
    end = len(data) - TRAILER.size
    back, inputs, gate_count, pin_count, output_count, _ = TRAILER.unpack_from(data, end)
    tables = data[end - back:end]
    pin_table, output_table = 4 * gate_count, 4 * (gate_count + pin_count)
    pins = [Pin(driver, delay, delay) for driver, delay in struct.iter_unpack("<HH", tables[pin_table:output_table])]
    gates = [Gate(KINDS[kind - 1], pins[first:first + count])
             for kind, count, first in struct.iter_unpack("<BBH", tables[:pin_table])]
    return Netlist(inputs, gates, list(struct.unpack_from(f"<{output_count}H", tables, output_table)))


def looks_like_netlist(data):
    """Whether the last bytes are a trailer that points back to tables of its own counts, right or wrong inside."""
    if len(data) < TRAILER.size:
        return False
    back, inputs, gates, pins, outputs, version = TRAILER.unpack_from(data, len(data) - TRAILER.size)
    return version == VERSION and back == 4 * gates + 4 * pins + 2 * outputs and inputs > 0


def falls_of(netlist):
    """The fall delays of all pins in order; None where each is the pin's own delay."""
    falls = [pin.fall for gate in netlist.gates for pin in gate.pins]
    return falls if falls != [pin.delay for gate in netlist.gates for pin in gate.pins] else None


def with_falls(netlist, falls):
    """The netlist with these fall delays, one for each pin in order."""
    rest = iter(falls)
    gates = [Gate(gate.kind, [pin._replace(fall=next(rest)) for pin in gate.pins]) for gate in netlist.gates]
    return Netlist(netlist.inputs, gates, netlist.outputs)


def pin_count(netlist):
    """The pins of all gates together."""
    return sum(len(gate.pins) for gate in netlist.gates)


def tops_of(netlist, arrivals):
    """The longest sum of delays to each node, of each pin the larger one, an input's arrival counted."""
    tops = list(arrivals)
    for gate in netlist.gates:
        tops.append(max(tops[driver] + (delay if delay > fall else fall) for driver, delay, fall in gate.pins))
    return tops


def longest_path(netlist, arrivals):
    """The longest sum of delays to an output, the arrival at its start counted."""
    tops = tops_of(netlist, arrivals)
    return max(tops[node] for node in netlist.outputs)
