"""Fall delays as people ask for them, 5,1,1, and as they are shown.

In the text of a circuit a pin's fall delay stands behind a slash (circuit.py); a netlist file holds none. What is asked
for goes before either: one number for each pin, in the order in which the pins stand in the file. Where every pin falls
as it rises, the circuit is one of single delays.
"""

from .netlist import falls_of, pin_count, with_falls
from .refusals import of_falls
from .trouble import Slip
from .words import MOST_NUMBER, number_in, shown

MOST_SHOWN = 8


def with_asked_falls(word, circuit, library):
    """The circuit with the fall delays that a word asks for; how many there are and whether each is small enough is the
    library's to say."""
    falls = [number_in(part, MOST_NUMBER) for part in word.replace(",", " ").split()]
    if None in falls or (not falls and pin_count(circuit.netlist)):
        raise Slip(f"fall delays are a number for each pin, in the pins' order, as 5,1,1, not {shown(word)}")
    if not library.takes_falls():
        raise Slip("the library here has no calls for fall delays")
    refusal = library.refusal_of(circuit.data, circuit.arrivals, falls)
    if refusal:
        refusal.words = of_falls(refusal.place, falls, pin_count(circuit.netlist))
        raise refusal
    netlist = with_falls(circuit.netlist, falls)
    return circuit._replace(netlist=netlist, falls=falls_of(netlist))


def pins_apart(netlist, names):
    """Each pin with two delays: the names of its gate and of its driver, then the delays."""
    for name, gate in zip(names[netlist.inputs:], netlist.gates):
        for pin in gate.pins:
            if pin.delay != pin.fall:
                yield name, names[pin.driver], pin.delay, pin.fall


def fall_words(circuit):
    """Which pins have two delays, in words, the first few of them; nothing where none has."""
    if circuit.falls is None:
        return ""
    pins = [f"{name} from {driver} {rise}/{fall}" for name, driver, rise, fall in
            pins_apart(circuit.netlist, circuit.names)]
    more = [f"and {len(pins) - MOST_SHOWN} more"] if len(pins) > MOST_SHOWN else []
    return f"Rising and falling: {', '.join(pins[:MOST_SHOWN] + more)}."


def all_falls(netlist):
    """The fall delay of every pin in order, as a certificate and --falls have them."""
    return [pin.fall for gate in netlist.gates for pin in gate.pins]
