"""Arrivals as people ask for them, b=25 or 0,25, and as they are shown.

In the text of a circuit an arrival stands behind the input's name (circuit.py); a netlist file holds none. What is
asked for goes before either: names set those inputs alone, a list sets all.
"""

from .trouble import Slip
from .vectors import named_values
from .words import MOST_NUMBER, number_in, shown


def asked_arrivals(word, circuit):
    """The arrivals that a word asks for, one for each input in order; how many there are and whether each is small
    enough is the library's to say."""
    parts = word.replace(",", " ").split()
    if any("=" in part for part in parts):
        arrival_of = named_values(parts, circuit, MOST_NUMBER, "arrival", "b=25")
        return [arrival_of.get(name, arrival) for name, arrival in zip(circuit.names, circuit.arrivals)]
    arrivals = [number_in(part, MOST_NUMBER) for part in parts]
    if not arrivals or None in arrivals:
        raise Slip(f"arrivals are a number for each input, as 0,25, or some by name, as b=25,c=3, not {shown(word)}")
    return arrivals


def late_inputs(names, arrivals):
    """The inputs that arrive after 0, each with its arrival, as a certificate and --arrivals name them."""
    return [f"{name}={arrival}" for name, arrival in zip(names, arrivals) if arrival]


def late_words(circuit):
    """Which inputs arrive after 0, in words; nothing where none does."""
    late = [f"{name} at {arrival}" for name, arrival in zip(circuit.names, circuit.arrivals) if arrival]
    return f"Arriving late: {', '.join(late)}." if late else ""
