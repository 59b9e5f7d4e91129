"""A certificate as one text file; docs/CERTIFICATE.md has its grammar.

    buzzlumen certificate 1
    netlist sha256 64 hexadecimal digits
    arrivals b=25
    falls 5 1 1 1 1
    delay 27
    vector a=1 b=0
    refutation 1
    0

The line of arrivals is there where an input arrives after 0, and names those inputs. The line of falls is there where a
pin falls at another speed than it rises, and has the fall delay of every pin in the netlist's order. A line that this
version does not know is refused by its name, so that a later one may add some.
"""

import array
from collections import namedtuple

from . import files
from .arrivals import late_inputs
from .falls import all_falls
from .formulas import clause_text
from .netlist import TRAILER, pin_count
from .refutations import Refutation, row
from .trouble import Refused, Slip
from .vectors import named_value, shown_vector
from .words import MOST_NUMBER, count, lines_of, number_in, shown

FIRST_LINE = "buzzlumen certificate 1"
DIGEST_DIGITS = 64
KNOWN = ("netlist", "arrivals", "falls", "delay", "vector", "refutation")
NOT_NEEDED = ("arrivals", "falls")

# A certificate: the netlist's digest, the delay, the inputs' names in the vector's order, with the arrival and the
# value of each, the pins' fall delays or None, the refutation.
Certificate = namedtuple("Certificate", "path digest delay names arrivals values falls refutation")


def digest_of(data):
    """The digest of a netlist: SHA-256 over its tables and its trailer. A note before them is no part of a circuit."""
    import hashlib
    back, = TRAILER.unpack_from(data, len(data) - TRAILER.size)[:1]
    return hashlib.sha256(data[len(data) - TRAILER.size - back:]).hexdigest()


def write_certificate(circuit, delay, vector, refutation):
    """The text of a certificate."""
    late = late_inputs(circuit.names, circuit.arrivals)
    given = ["arrivals " + " ".join(late)] if late else []
    if circuit.falls is not None:
        given.append("falls " + " ".join(map(str, circuit.falls)))
    lines = [FIRST_LINE, f"netlist sha256 {digest_of(circuit.data)}", *given, f"delay {delay}",
             f"vector {shown_vector(vector, circuit.names)}", f"refutation {sum(1 for n in refutation if n == 0)}"]
    return "".join(line + "\n" for line in lines) + clause_text(refutation)


# Reading


class Reading:
    """A certificate as far as it has been read."""

    def __init__(self, path, takes_falls):
        self.path, self.found, self.takes_falls = path, {}, takes_falls
        self.numbers, self.file_lines = array.array("i"), array.array("I")

    def slip(self, place, words):
        """A Slip with its line."""
        return Slip(f"{files.name_of(self.path)}, line {place}: {words}")

    def add(self, place, line):
        """A line before the refutation's steps."""
        word, _, rest = line.partition(" ")
        if word not in KNOWN or (word == "falls" and not self.takes_falls()):
            known = " ".join(each for each in KNOWN if each != "falls" or self.takes_falls())
            raise self.slip(place, f"{shown(word)} is no line of a certificate of version 1; known are {known}")
        if word in self.found:
            raise self.slip(place, f"{word} stands here for the second time")
        self.found[word] = getattr(self, "read_" + word)(place, rest.strip())

    def read_netlist(self, place, rest):
        """The digest."""
        method, _, digest = rest.partition(" ")
        if method != "sha256" or len(digest) != DIGEST_DIGITS or digest.strip("0123456789abcdef"):
            raise self.slip(place, "a digest is sha256 and 64 hexadecimal digits")
        return digest

    def read_delay(self, place, rest):
        """The delay."""
        delay = number_in(rest, MOST_NUMBER)
        if delay is None:
            raise self.slip(place, f"a delay is a number from 0 to {MOST_NUMBER}, not {shown(rest)}")
        return delay

    def read_arrivals(self, place, rest):
        """The arrivals by name, with the line."""
        wrong = "arrivals names inputs and when they arrive, as b=25"
        return place, self.numbers_by_name(place, rest, MOST_NUMBER, wrong, "an arrival")

    def read_falls(self, place, rest):
        """The fall delays of all pins, with the line."""
        falls = [number_in(word, MOST_NUMBER) for word in rest.split()]
        if not falls or None in falls:
            raise self.slip(place, "falls has a delay for each pin, in the pins' order, as 5 1 1")
        return place, falls

    def read_vector(self, place, rest):
        """The values by name."""
        wrong = "a vector names each input and its value, 0 or 1, as a=0 b=1"
        return self.numbers_by_name(place, rest, 1, wrong, "a value")

    def numbers_by_name(self, place, rest, most, wrong, what):
        """A number for each name of a line."""
        parts = [named_value(word, most) for word in rest.split()]
        number_of = dict(parts)
        if not parts or None in number_of.values():
            raise self.slip(place, wrong)
        if len(number_of) < len(parts):
            raise self.slip(place, f"an input has {what} twice")
        return number_of

    def read_refutation(self, place, rest):
        """The number of steps."""
        steps = number_in(rest, MOST_NUMBER)
        if not steps:
            raise self.slip(place, f"refutation is followed by its number of steps, not {shown(rest)}")
        return steps

    def add_step(self, place, line):
        """A line of the refutation: one clause and its 0."""
        numbers = row(self.path, place, line, line.split())
        if numbers.count(0) != 1 or numbers[-1]:
            raise self.slip(place, f"{shown(line)} is no step: one clause and a 0 behind it")
        self.numbers.extend(numbers)
        self.file_lines.append(place)

    def whole(self):
        """The certificate, when every line has been read."""
        missing = [word for word in KNOWN if word not in self.found and word not in NOT_NEEDED]
        if missing:
            raise Slip(f"{files.name_of(self.path)}: the certificate has no line {missing[0]}")
        steps = self.found["refutation"]
        if len(self.file_lines) != steps:
            raise Slip(f"{files.name_of(self.path)}: the certificate says {count(steps, 'step')} and has "
                       f"{len(self.file_lines)}")
        lines = array.array("I", range(1, steps + 1))
        refutation = Refutation(self.path, self.numbers, self.file_lines, lines, False, False)
        value_of = self.found["vector"]
        arrivals = [self.arrival_of().get(name, 0) for name in value_of]
        return Certificate(self.path, self.found["netlist"], self.found["delay"], list(value_of), arrivals,
                           list(value_of.values()), self.found.get("falls", (0, None))[1], refutation)

    def arrival_of(self):
        """The arrivals by name; each name is one of the vector's."""
        place, arrival_of = self.found.get("arrivals", (0, {}))
        for name in arrival_of:
            if name not in self.found["vector"]:
                raise self.slip(place, f"{shown(name)} has an arrival, and the vector does not name it")
        return arrival_of


def read_certificate(path, takes_falls=lambda: True):
    """The certificate in a file; `takes_falls` says whether the library has calls for two delays a pin."""
    data = files.read_bytes(path)
    kind = files.kind_of(data)
    if kind != files.CERTIFICATE:
        what = "is empty" if not data.strip() else "is no certificate: its first line is not " + shown(FIRST_LINE)
        raise Slip(f"{files.name_of(path)}: {what}")
    reading, first = Reading(path, takes_falls), True
    for place, line in enumerate(lines_of(files.text_of(path, data)), 1):
        line = line.partition("#")[0].strip()
        if not line:
            continue
        if first and line != FIRST_LINE:
            raise reading.slip(place, f"{shown(line)}: only {shown(FIRST_LINE)} is known")
        if not first and "refutation" in reading.found:
            reading.add_step(place, line)
        elif not first:
            reading.add(place, line)
        first = False
    return reading.whole()


# For a circuit


def check_digest(certificate, circuit):
    """A refusal where the certificate is for another circuit."""
    own = digest_of(circuit.data)
    if certificate.digest != own:
        raise Refused(f"{files.name_of(certificate.path)}: is for another circuit: it names the netlist "
                      f"{certificate.digest[:12]}..., and {files.name_of(circuit.path)} is {own[:12]}...")


def vector_for(certificate, circuit):
    """The certificate's values in the order of the circuit's inputs."""
    return bytes(in_order(certificate, circuit, certificate.values))


def check_arrivals(certificate, circuit):
    """A refusal where the certificate is for other arrivals than the circuit's."""
    theirs = in_order(certificate, circuit, certificate.arrivals)
    for name, there, here in zip(circuit.names, theirs, circuit.arrivals):
        if there != here:
            hint = "; a netlist file holds no arrivals, --arrivals sets them" if circuit.plain else ""
            raise Refused(f"{files.name_of(certificate.path)}: is for other arrivals: {name} arrives at {there} there, "
                          f"and at {here} here{hint}")


def check_falls(certificate, circuit):
    """A refusal where the certificate is for other fall delays than the circuit's; without its line each is the pin's
    own delay."""
    pins = [(name, circuit.names[pin.driver], pin) for name, gate
            in zip(circuit.names[circuit.netlist.inputs:], circuit.netlist.gates) for pin in gate.pins]
    theirs = [pin.delay for _, _, pin in pins] if certificate.falls is None else certificate.falls
    if len(theirs) != pin_count(circuit.netlist):
        raise Refused(f"{files.name_of(certificate.path)}: has {count(len(theirs), 'fall delay')}, and the circuit has "
                      f"{count(len(pins), 'pin')}")
    for (name, driver, _), there, here in zip(pins, theirs, all_falls(circuit.netlist)):
        if there != here:
            hint = "; a netlist file holds no fall delays, --falls sets them" if circuit.plain else ""
            raise Refused(f"{files.name_of(certificate.path)}: is for other fall delays: {name} falls {there} after "
                          f"{driver} there, and {here} here{hint}")


def in_order(certificate, circuit, numbers):
    """The numbers that a certificate has for its names, in the order of the circuit's inputs: by name, or as they stand
    where one side has no names but n0, n1 and so on."""
    inputs = circuit.names[:circuit.netlist.inputs]
    number_of = dict(zip(certificate.names, numbers))
    if set(number_of) == set(inputs):
        return [number_of[name] for name in inputs]
    plain = [f"n{node}" for node in range(len(certificate.names))]
    if circuit.plain or certificate.names == plain:
        return numbers
    unknown = [name for name in certificate.names if name not in inputs] or \
              [name for name in inputs if name not in number_of]
    raise Refused(f"{files.name_of(certificate.path)}: its vector does not name the circuit's inputs, as {unknown[0]} "
                  "shows")
