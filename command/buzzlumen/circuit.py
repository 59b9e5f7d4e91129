"""The text format for circuits that people write, and a circuit as the command holds it.

    # Circuit A
    input a b
    n2 = BUF(a:3)
    n3 = AND(n2:1, b:1)
    n4 = OR(n3:1, b:1)
    output n4

One statement a line; `#` starts a comment. Inputs come first; one that arrives late has a colon and its arrival behind
its name, as b:25, and the others arrive at 0. A pin is the name of an input or of a gate on a line above, a colon, and
the pin's delay, 0 to 999. Where a gate rises and falls at different speeds there are two, as a:3/5: 3 where the gate
ends at 1, 5 where it ends at 0. MUX takes its pins as select, a, b. A name is any run of printable characters but
blanks and ( ) , : = #. Outputs may be named in any order.
"""

from collections import namedtuple

from . import files
from .arrivals import asked_arrivals
from .netlist import (KINDS, MOST_ARRIVAL, MOST_DELAY, MOST_GATES, MOST_INPUTS, MOST_OUTPUTS, MOST_PINS, PIN_COUNTS,
                      Gate, Netlist, Pin, falls_of, read_netlist, write_netlist)
from .refusals import ARRIVAL, of_arrivals, of_netlist
from .trouble import Slip
from .words import MOST_NUMBER, is_digits, is_name, lines_of, number_in, printable, shown

# A circuit out of a file: the netlist file's bytes, the netlist, each input's arrival, the name of each node, inputs
# first; `plain` says that the names are n0, n1 and so on, as a netlist file holds none. The falls are each pin's delay
# for a gate that ends at 0; None where no pin has two delays.
Circuit = namedtuple("Circuit", "path data netlist arrivals names plain falls")

# What a text draws: the netlist, each input's arrival and the line that names it, the name of each node.
Drawn = namedtuple("Drawn", "netlist arrivals lines names")


class Mistake(Exception):
    """What is wrong with a statement."""


# Reading the text


class Drawing:
    """The circuit as far as it has been read; `takes_falls` says whether the library has calls for two delays a pin."""

    def __init__(self, takes_falls=lambda: True):
        self.takes_falls = takes_falls
        self.number_of = {}
        self.arrivals, self.lines = [], []
        self.gates = []
        self.outputs = set()
        # The line that is being read, counted from 1.
        self.inputs = self.pins = self.line = 0

    def name_node(self, name):
        """The next node gets a name of its own."""
        if not is_name(name) or not name.isprintable():
            raise Mistake(f"{shown(name)} is no name: blanks and ( ) , : = # are kept for the format")
        if name in self.number_of:
            raise Mistake(f"{name} is named twice")
        self.number_of[name] = len(self.number_of)

    def node(self, name):
        """The number of a node that an earlier line named."""
        if name not in self.number_of:
            raise Mistake(f"{printable(name)} is no input and no gate of a line above")
        return self.number_of[name]

    def add_inputs(self, words):
        """A line `input NAME NAME:ARRIVAL ...`."""
        if self.gates:
            raise Mistake("inputs come before the first gate")
        for word in words:
            name, arrival = input_parts(word)
            self.name_node(name)
            self.arrivals.append(arrival)
            self.lines.append(self.line)
        self.inputs = len(self.number_of)
        at_most("inputs", self.inputs, MOST_INPUTS)

    def add_outputs(self, names):
        """A line `output NAME ...`."""
        for name in names:
            if self.node(name) in self.outputs:
                raise Mistake(f"{name} is an output already")
            self.outputs.add(self.node(name))
        at_most("outputs", len(self.outputs), MOST_OUTPUTS)

    def add_gate(self, name, kind, pin_words):
        """A line `NAME = KIND(PIN, ...)`."""
        if kind not in KINDS:
            raise Mistake(f"{shown(kind)} is no kind of gate; the kinds are {' '.join(KINDS)}")
        pins = [self.pin(word.strip()) for word in pin_words.split(",")]
        least, most = PIN_COUNTS[kind]
        if not least <= len(pins) <= most:
            wanted = f"{least} to {most}" if least < most else least
            raise Mistake(f"{kind} takes {wanted} pins and has {len(pins)}")
        self.name_node(name)
        self.gates.append(Gate(kind, pins))
        self.pins += len(pins)
        at_most("gates", len(self.gates), MOST_GATES)
        at_most("pins", self.pins, MOST_PINS)

    def pin(self, word):
        """A pin, `NAME:DELAY` or `NAME:RISE/FALL`."""
        name, delay = (part.strip() for part in word.partition(":")[::2])
        if is_name(name) and "/" in delay:
            return self.pin_of_two(word, name, *(part.strip() for part in delay.split("/", 1)))
        if not is_name(name) or not is_digits(delay):
            raise Mistake(f"{shown(word)} is no pin; a pin is a name, a colon and a delay, as b:1")
        own = delay_in(delay, name, "delay")
        return Pin(self.node(name), own, own)

    def pin_of_two(self, word, name, rise, fall):
        """A pin with two delays."""
        if not is_digits(rise) or not is_digits(fall):
            raise Mistake(f"{shown(word)} is no pin; two delays are one for rising, a slash and one for falling, as "
                          "b:3/5")
        if not self.takes_falls():
            raise Mistake(f"{shown(word)}: a delay for rising and one for falling are not read yet; write one")
        return Pin(self.node(name), delay_in(rise, name, "rise delay"), delay_in(fall, name, "fall delay"))

    def whole(self):
        """What is drawn, when every line has been read."""
        if not self.inputs:
            raise Mistake("the circuit has no input")
        if not self.outputs:
            raise Mistake("the circuit has no output")
        netlist = Netlist(self.inputs, self.gates, sorted(self.outputs))
        return Drawn(netlist, self.arrivals, self.lines, list(self.number_of))


def delay_in(digits, name, what):
    """A delay of a pin."""
    delay = number_in(digits, MOST_DELAY)
    if delay is None:
        raise Mistake(f"the {what} {shown(digits)} of pin {printable(name)} is over {MOST_DELAY}")
    return delay


def at_most(what, number, most):
    """A count that is limited."""
    if number > most:
        raise Mistake(f"more than {most} {what}")


def input_parts(word):
    """The name and the arrival in a word `NAME` or `NAME:ARRIVAL`. Whether an arrival is too large is the library's to
    say."""
    name, colon, digits = word.partition(":")
    if is_digits(word.rpartition("=")[2]) and "=" in word:
        raise Mistake(f"{shown(word)}: in a circuit's text an arrival stands behind a colon, as b:25")
    if not colon or not is_name(name):
        return word, 0
    if ":" in digits:
        raise Mistake(f"{shown(word)}: a name holds no colon, one arrival stands behind it, as b:25, and blanks part "
                      "the inputs")
    arrival = number_in(digits, MOST_NUMBER)
    if arrival is None:
        raise Mistake(f"{shown(word)}: an arrival is a number from 0 to {MOST_ARRIVAL} right behind the colon, as b:25")
    return name, arrival


def gate_parts(line):
    """The name, the kind and the words of the pins in a line `NAME = KIND(PIN, ...)`; None where it is no such line."""
    name, _, rest = line.partition("=")
    kind, bracket, pin_words = rest.partition("(")
    name, kind = name.strip(), kind.strip()
    if bracket and pin_words.endswith(")") and is_name(name) and is_name(kind):
        return name, kind, pin_words.removesuffix(")")
    return None


def read_line(drawing, line):
    """One statement, without its comment."""
    gate, words = gate_parts(line), line.split()
    if gate:
        drawing.add_gate(*gate)
    elif words[:1] == ["input"] and words[1:]:
        drawing.add_inputs(words[1:])
    elif words[:1] == ["output"] and words[1:]:
        drawing.add_outputs(words[1:])
    elif words:
        raise Mistake(f"{shown(line)} is no statement; write input NAME, NAME = KIND(NAME:DELAY, ...) or output NAME")


def read_text(text, takes_falls=lambda: True):
    """What a text draws; a Mistake says its line, counted from 1."""
    drawing = Drawing(takes_falls)
    try:
        for drawing.line, line in enumerate(lines_of(text), 1):
            read_line(drawing, line.partition("#")[0].strip())
        return drawing.whole()
    except Mistake as mistake:
        raise Mistake(f"line {drawing.line}: {mistake}") from None


# Writing the text


def write_text(netlist, arrivals, names):
    """The text that draws a circuit."""
    inputs = [f"{name}:{arrival}" if arrival else name for name, arrival in zip(names, arrivals)]
    lines = ["input " + " ".join(inputs)]
    for name, gate in zip(names[netlist.inputs:], netlist.gates):
        pins = ", ".join(f"{names[pin.driver]}:{delay_text(pin)}" for pin in gate.pins)
        lines.append(f"{name} = {gate.kind}({pins})")
    lines.append("output " + " ".join(names[node] for node in netlist.outputs))
    return "".join(line + "\n" for line in lines)


def delay_text(pin):
    """A pin's delay, or its two where they differ."""
    return str(pin.delay) if pin.delay == pin.fall else f"{pin.delay}/{pin.fall}"


def plain_names(netlist):
    """A netlist file holds no names: a node is called n and its number."""
    return [f"n{node}" for node in range(netlist.inputs + len(netlist.gates))]


# Circuits out of files


def load(path, library, asked=None, asked_falls=None):
    """The circuit in a file, a text or a netlist file, with the arrivals and the fall delays that are asked for beside
    it. The library alone says whether bytes are a netlist and numbers its arrivals and falls."""
    data = files.read_bytes(path, files.MOST_NETLIST)
    kind = files.kind_of(data)
    if kind in (files.CERTIFICATE, files.FORMULA, files.YOSYS):
        hint = "; convert it by: buzzlumen from-yosys" if kind == files.YOSYS else ""
        raise Slip(f"{files.name_of(path)}: is {kind}, not a circuit{hint}")
    circuit = load_text(path, data, library) if kind == files.CIRCUIT else load_netlist(path, data, library)
    if asked is not None:
        circuit = circuit._replace(arrivals=asked_arrivals(asked, circuit))
        check_arrivals(circuit, library)
    if asked_falls is not None:
        from .falls import with_asked_falls
        circuit = with_asked_falls(asked_falls, circuit, library)
    return circuit


def check_arrivals(circuit, library, lines=None):
    """The library's refusal of a circuit's arrivals, with its cause and, where a text has them, its line. Where every
    input arrives at 0 there is nothing to ask."""
    inputs = circuit.netlist.inputs
    refusal = library.refusal_of(circuit.data, circuit.arrivals) if circuit.arrivals != [0] * inputs else None
    if refusal:
        where = f"{files.name_of(circuit.path)}, line {lines[refusal.place]}: " if lines else ""
        refusal.words = where + of_arrivals(refusal.place, circuit.arrivals, circuit.names, inputs)
        raise refusal


def load_text(path, data, library):
    """The circuit that a text draws."""
    if len(data) > files.MOST_TEXT:
        raise Slip(files.too_large(path, files.MOST_TEXT))
    if not data.strip():
        raise Slip(f"{files.name_of(path)}: is empty")
    try:
        drawn = read_text(files.text_of(path, data), library.takes_falls)
    except Mistake as mistake:
        raise Slip(f"{files.name_of(path)}, {mistake}") from None
    circuit = Circuit(path, write_netlist(drawn.netlist), drawn.netlist, drawn.arrivals, drawn.names, False,
                      falls_of(drawn.netlist))
    check_arrivals(circuit, library, drawn.lines)
    return circuit


def load_netlist(path, data, library):
    """The circuit in a netlist file, every input at 0; the refusal where it is none. No arrivals are refused after all
    that a netlist is refused for."""
    refusal = library.refusal_of(data, ())
    if refusal.number != ARRIVAL:
        refusal.words = f"{files.name_of(path)}: {of_netlist(refusal.number, refusal.place, data)}"
        raise refusal
    netlist = read_netlist(data)
    return Circuit(path, data, netlist, [0] * netlist.inputs, plain_names(netlist), True, None)
