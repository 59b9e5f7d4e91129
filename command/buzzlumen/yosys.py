"""The circuit of a block that yosys mapped to simple gates, out of its JSON.

Without a table of delays every pin has delay 1. In the table a line is a cell and the delay of its pins, or a cell, one
of its pins and that pin's delay; a delay may be two, for rising and for falling, as 3/5; `#` starts a comment. The
inverted pin of $_ANDNOT_ and $_ORNOT_ becomes a NOT of delay 0, a constant a gate of delay 0 over the first input.
Cells that keep state and feedback loops are turned away: a block's delay is that of the logic between its flip-flops.
"""

import json
import re

from . import files
from .circuit import Drawing, Mistake
from .netlist import MOST_DELAY
from .trouble import Slip
from .words import lines_of, number_in, printable, shown

# Each cell's kind and its pins in the order of a netlist; ! stands before a pin that the cell inverts.
CELLS = {
    "$_BUF_": ("BUF", ("A",)),
    "$_NOT_": ("NOT", ("A",)),
    "$_AND_": ("AND", ("A", "B")),
    "$_NAND_": ("NAND", ("A", "B")),
    "$_OR_": ("OR", ("A", "B")),
    "$_NOR_": ("NOR", ("A", "B")),
    "$_XOR_": ("XOR", ("A", "B")),
    "$_XNOR_": ("XNOR", ("A", "B")),
    "$_ANDNOT_": ("AND", ("A", "!B")),
    "$_ORNOT_": ("OR", ("A", "!B")),
    "$_MUX_": ("MUX", ("S", "A", "B")),
}
# yosys's own cells that keep state, word by word ($dff, $_DFFE_PP_) and mapped to gates ($_SDFF_PP0_, $_DLATCH_N_).
KEEPS_STATE = re.compile(r"\$(ff|(a|s|al)?dff(e|ce|sr|sre)?|sdffce|a?dlatch(sr)?|sr|mem\w*)"
                         r"|\$_(FF|(AL|S)?DFF(E|CE|SR|SRE)?|DLATCH(SR)?|SR)(_[NP01]+)?_", re.IGNORECASE)
CUT_FLIP_FLOPS = ("cut the flip-flops into inputs and outputs by yosys's `dffunmap; expose -evert-dff` before "
                  "`abc -g gates`")

# The gate over one input twice that gives each constant, at time 0.
CONSTANTS = {"0": ("zero", "XOR"), "1": ("one", "XNOR")}


# The block


def read_module(path, top):
    """The module that yosys calls top, or the one that is named."""
    data = files.read_bytes(path, files.MOST_NETLIST)
    try:
        modules = dictionary(json.loads(files.text_of(path, data)), "modules")
    except (ValueError, RecursionError, Mistake):
        raise Slip(f"{files.name_of(path)}: is no JSON of yosys, as its write_json writes it") from None
    if top is None:
        tops = [name for name in modules if marked_top(modules[name])] or list(modules)
        if len(tops) != 1:
            names = " ".join(printable(name) for name in tops) or "there is none"
            raise Slip(f"{files.name_of(path)}: name one module by --top: {names}")
        top = tops[0]
    if top not in modules:
        raise Slip(f"{files.name_of(path)}: has no module {shown(top)}")
    return modules[top]


def marked_top(module):
    """Whether yosys marked a module as top."""
    return isinstance(module, dict) and isinstance(module.get("attributes"), dict) and "top" in module["attributes"]


def dictionary(holder, name):
    """An entry of a dictionary that is one itself."""
    if not isinstance(holder, dict) or not isinstance(holder.get(name), dict):
        raise Mistake(f"has no {name}, which yosys writes")
    return holder[name]


def checked_bits(holder, name):
    """A list of bits: numbers of wires, or constants."""
    bits = holder.get(name) if isinstance(holder, dict) else None
    if not isinstance(bits, list) or not all(type(bit) is int or isinstance(bit, str) for bit in bits):
        raise Mistake(f"{shown(name)} is no list of bits, as yosys writes it")
    return bits


def check_module(module):
    """The parts of a module that are read are as yosys writes them."""
    for name, port in dictionary(module, "ports").items():
        checked_bits(port, "bits")
        if port.get("direction") not in ("input", "output", "inout"):
            raise Mistake(f"port {shown(name)} has no direction")
    for name, cell in dictionary(module, "cells").items():
        check_cell(name, cell)
    if isinstance(module.get("netnames"), dict):
        for net in module["netnames"].values():
            checked_bits(net, "bits")


def check_cell(name, cell):
    """A cell is one of the table's, each pin on one bit."""
    if not isinstance(cell, dict) or not isinstance(cell.get("type"), str):
        raise Mistake(f"cell {shown(name)} has no type")
    kind = cell["type"]
    if KEEPS_STATE.fullmatch(kind):
        raise Mistake(f"cell {shown(name)} keeps state ({printable(kind)}): {CUT_FLIP_FLOPS}")
    if kind.startswith("$paramod") or not kind.startswith("$"):
        raise Mistake(f"cell {shown(name)} is a module or a library's cell ({printable(kind)}): flatten and map the "
                      "block by synth -flatten; abc -g gates")
    if kind not in CELLS:
        raise Mistake(f"cell {shown(name)} is no simple gate ({printable(kind)}): map the block by synth -flatten; "
                      "abc -g gates")
    connections = dictionary(cell, "connections")
    for pin in [pin.lstrip("!") for pin in CELLS[kind][1]] + ["Y"]:
        if len(checked_bits(connections, pin)) != 1:
            raise Mistake(f"pin {pin} of cell {shown(name)} is not one bit")


def bits_of(ports, direction):
    """The bits of all ports of one direction, in order."""
    return [bit for port in ports.values() if port["direction"] == direction for bit in port["bits"]]


def sources(cell):
    """The bit that each pin of a cell reads, in the order of a netlist."""
    return [cell["connections"][pin.lstrip("!")][0] for pin in CELLS[cell["type"]][1]]


def result(cell):
    """The bit that a cell drives."""
    return cell["connections"]["Y"][0]


# Names


def names_of(module):
    """A name for each bit that has one in the source: the ports' names first."""
    names, netnames = {}, module.get("netnames")
    nets = [net for net in netnames.items() if not net[1].get("hide_name")] if isinstance(netnames, dict) else []
    for name, net in list(module["ports"].items()) + nets:
        first = net.get("offset") if type(net.get("offset")) is int else 0
        for place, bit in enumerate(net["bits"]):
            at = len(net["bits"]) - 1 - place if net.get("upto") else place
            own = name if len(net["bits"]) == 1 else f"{name}[{first + at}]"
            names.setdefault(bit, plain(own))
    return names


def plain(name):
    """A name without what a circuit's text keeps for itself."""
    return "".join("_" if letter in "(),:=#" or letter.isspace() or not letter.isprintable() else letter
                   for letter in name) or "_"


class Names:
    """Names of bits, each different from all others."""

    def __init__(self, module):
        self.of_bit, self.taken = {}, set()
        for bit, name in names_of(module).items():
            self.of_bit[bit] = self.new(name)

    def new(self, name):
        """This name, or the same with as many _ after it as make it new."""
        while name in self.taken:
            name += "_"
        self.taken.add(name)
        return name

    def __getitem__(self, bit):
        if bit not in self.of_bit:
            self.of_bit[bit] = self.new(plain(f"n{bit}"))
        return self.of_bit[bit]


# Delays


def read_delays(path):
    """The delays in a table, by cell, or by cell and pin."""
    delays = {}
    if path is None:
        return delays
    text = files.text_of(path, files.read_bytes(path, files.MOST_TEXT))
    for number, line in enumerate(lines_of(text), 1):
        words = line.partition("#")[0].split()
        if not words:
            continue
        pins = [pin.lstrip("!") for pin in CELLS[words[0]][1]] if words[0] in CELLS else []
        delay = delay_word(words[-1])
        if not pins or len(words) not in (2, 3) or delay is None or not set(words[1:-1]) <= set(pins):
            raise Slip(f"{files.name_of(path)}, line {number}: {shown(line)} is no cell and delay from 0 to "
                       f"{MOST_DELAY}, nor cell, pin and delay")
        delays[tuple(words[:-1])] = delay
    return delays


def delay_word(word):
    """A delay as a circuit's text has it, one number or two with a slash between; None where it is no such."""
    numbers = [number_in(part, MOST_DELAY) for part in word.split("/", 1)]
    return None if None in numbers else "/".join(map(str, numbers))


def delay_of(delays, cell_type, pin):
    """A pin's own delay, or its cell's, or 1."""
    return delays.get((cell_type, pin), delays.get((cell_type,), 1))


# The circuit


class Conversion:
    """The circuit of a module, as far as its cells have been placed."""

    def __init__(self, module, delays):
        check_module(module)
        self.module, self.delays = module, delays
        self.names, self.drawing = Names(module), Drawing()
        self.inputs = bits_of(module["ports"], "input")
        if not self.inputs:
            raise Mistake("the block has no input")
        if not bits_of(module["ports"], "output"):
            raise Mistake("the block has no output")
        self.placed = {}
        self.drawing.add_inputs([self.names[bit] for bit in self.inputs])
        for bit in self.inputs:
            self.placed[bit] = self.names[bit]

    def add(self, name, kind, pins):
        """A gate; a pin is a name and a delay."""
        self.drawing.add_gate(name, kind, ", ".join(f"{driver}:{delay}" for driver, delay in pins))
        return name

    def add_constants(self):
        """A gate for each constant that a cell or an output reads."""
        read = set(bits_of(self.module["ports"], "output"))
        for cell in self.module["cells"].values():
            read.update(sources(cell))
        for bit, (name, kind) in CONSTANTS.items():
            if bit in read:
                first = self.names[self.inputs[0]]
                own = self.names.of_bit.get(bit) or self.names.new(name)
                self.placed[bit] = self.add(own, kind, [(first, 0), (first, 0)])

    def inverse(self, bit):
        """The NOT of a bit, made once."""
        if ("!", bit) not in self.placed:
            driver = self.placed[bit]
            self.placed["!", bit] = self.add(self.names.new(f"not_{driver}"), "NOT", [(driver, 0)])
        return self.placed["!", bit]

    def add_cell(self, cell):
        """A cell whose sources are all placed."""
        kind, pins = CELLS[cell["type"]]
        drivers = []
        for pin, bit in zip(pins, sources(cell)):
            driver = self.inverse(bit) if pin.startswith("!") else self.placed[bit]
            drivers.append((driver, delay_of(self.delays, cell["type"], pin.lstrip("!"))))
        self.placed[result(cell)] = self.add(self.names[result(cell)], kind, drivers)

    def add_cells(self):
        """Every cell, each after those that drive it."""
        waiting = dict(self.module["cells"])
        self.check_driven(waiting)
        while waiting:
            ready = [name for name, cell in waiting.items() if set(sources(cell)) <= set(self.placed)]
            if not ready:
                raise Mistake(f"feedback loop through cell {shown(on_loop(waiting))}: a circuit has none")
            for name in ready:
                self.add_cell(waiting.pop(name))

    def check_driven(self, cells):
        """Every bit that is read is driven, and by one cell."""
        driven = set(self.placed)
        for name, cell in cells.items():
            if result(cell) in driven:
                raise Mistake(f"cell {shown(name)} drives a bit that is driven already ({self.names[result(cell)]})")
            driven.add(result(cell))
        for name, cell in cells.items():
            for bit in sources(cell):
                if bit not in driven:
                    raise Mistake(f"cell {shown(name)} reads a bit that nothing drives ({printable(str(bit))})")
        for bit in bits_of(self.module["ports"], "output"):
            if bit not in driven:
                raise Mistake(f"nothing drives an output ({self.names[bit]})")

    def whole(self):
        """What is drawn; every input arrives at 0."""
        if bits_of(self.module["ports"], "inout"):
            raise Mistake("a port is both input and output")
        self.add_constants()
        self.add_cells()
        outputs = dict.fromkeys(self.placed[bit] for bit in bits_of(self.module["ports"], "output"))
        self.drawing.add_outputs(outputs)
        return self.drawing.whole()


def on_loop(cells):
    """The name of a cell on a loop, among cells of which each waits for another: go back until one comes twice."""
    driver_of = {result(cell): name for name, cell in cells.items()}
    name, seen = next(iter(cells)), set()
    while name not in seen:
        seen.add(name)
        name = next(driver_of[bit] for bit in sources(cells[name]) if bit in driver_of)
    return name


def convert(path, top=None, delays_path=None):
    """A block's circuit, as it is drawn."""
    delays, module = read_delays(delays_path), read_module(path, top)
    try:
        return Conversion(module, delays).whole()
    except Mistake as mistake:
        raise Slip(f"{files.name_of(path)}: {mistake}") from None
