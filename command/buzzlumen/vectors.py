"""Vectors as people write them, 0,1 or 01 or a=0 b=1, and as they are shown."""

from .trouble import Slip
from .words import is_digits, is_name, number_in, shown

MOST_BYTE = 255


def read_vector(words, circuit):
    """The values of a vector, one for each input in order; how many there are and whether each is 0 or 1 is the
    library's to say."""
    parts = [part for word in words for part in word.replace(",", " ").split()]
    if any("=" in part for part in parts):
        return by_name(parts, circuit)
    if len(parts) == 1 and is_digits(parts[0]):
        parts = list(parts[0])
    values = [number_in(part, MOST_BYTE) for part in parts]
    if not values or None in values:
        raise Slip(f"a vector is one value for each input, as 0,1 or 01 or a=0 b=1, not {shown(' '.join(words))}")
    return bytes(values)


def named_value(part, most):
    """The name and the value that a part as a=0 says; the value is None where it says none or one over the most."""
    name, _, digits = part.partition("=")
    return name, number_in(digits, most) if is_name(name) else None


def named_values(parts, circuit, most, what, example):
    """The number of each input that some parts name: its value, or what else they say of it."""
    inputs, number_of = circuit.names[:circuit.netlist.inputs], {}
    for part in parts:
        name, number = named_value(part, most)
        if number is None:
            raise Slip(f"{shown(part)} is no input and its {what}, as {example}")
        if name not in inputs:
            raise Slip(f"{shown(name)} is no input; the inputs are {' '.join(inputs)}")
        if name in number_of:
            raise Slip(f"{name} has its {what} twice")
        number_of[name] = number
    return number_of


def by_name(parts, circuit):
    """The values of a vector that names the inputs, in the inputs' order."""
    value_of = named_values(parts, circuit, MOST_BYTE, "value", "a=0")
    inputs = circuit.names[:circuit.netlist.inputs]
    missing = [name for name in inputs if name not in value_of]
    if missing:
        raise Slip(f"no value for {' '.join(missing)}")
    return bytes(value_of[name] for name in inputs)


def shown_vector(vector, names):
    """A vector as it is shown: each input and its value."""
    return " ".join(f"{name}={value}" for name, value in zip(names, vector))
