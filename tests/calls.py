"""One call of the library through the C host: the host's protocol, and what it must give back.

A call is worked out by tests/document.py, or by tests/rise_fall.py where rise and fall are apart, and made by the host
(tests/host.c); the answer and every byte of every slice lent for writing are compared. Assumes a little endian machine.
"""

import array
import select
import struct
import subprocess
import time
from collections import namedtuple

import document
import rise_fall
from document import Built, Refused

# A call of the library; `wanted` is an answer that is known beforehand, or None.
Call = namedtuple("Call", "function arguments wanted", defaults=(None,))

FUNCTIONS = {"evaluate": 1, "build": 2, "check": 3, "judge": 4,
             "evaluate_rise_fall": 5, "build_rise_fall": 6, "judge_rise_fall": 7}
# The parameters of each function: bytes, a number, unsigned numbers, signed ones, or the room of a slice lent for
# writing.
PARAMETERS = {"evaluate": "bubrr", "build": "bunrr", "check": "nssr", "judge": "bunbsrrrrr",
              "evaluate_rise_fall": "buubrr", "build_rise_fall": "buunrr", "judge_rise_fall": "buunbsrrrrr"}
# The element types of the slices to read.
READ = {"b": "B", "u": "I", "s": "i"}
# The slices lent for writing, by a function's name without its form, and the types of their elements.
APART = "_rise_fall"
LENT_NAMES = {"evaluate": ("values", "times"), "build": ("pairs", "formula"), "check": ("propagation",),
              "judge": ("values", "times", "pairs", "formula", "propagation")}
LENT = {"evaluate": "BI", "build": "Ii", "check": "B", "judge": "BIIiB"}

# A reply that takes longer is a difference.
MOST_SECONDS = 200


class Host:
    """The C host as a running program."""

    def __init__(self, command):
        self.command = command
        self.start()

    def start(self):
        """Start the program."""
        self.process = subprocess.Popen(self.command, stdin=subprocess.PIPE, stdout=subprocess.PIPE, bufsize=0)

    def reply(self, request, length):
        """Make a call; the bytes it gives back, fewer where the program ended or took too long."""
        try:
            sent = memoryview(request)
            while sent:
                sent = sent[self.process.stdin.write(sent):]
        except BrokenPipeError:
            pass
        got = self.read_within(length, time.monotonic() + MOST_SECONDS)
        if len(got) < length:
            self.process.kill()
            self.close()
            self.start()
        return got

    def read_within(self, length, until):
        """So many bytes of the program's output, or what of them has come at a given moment."""
        parts, missing = [], length
        while missing and select.select([self.process.stdout], [], [], max(0, until - time.monotonic()))[0]:
            part = self.process.stdout.read(missing)
            if not part:
                break
            parts.append(part)
            missing -= len(part)
        return b"".join(parts)

    def close(self):
        """End the program; what it ended with."""
        self.process.stdin.close()
        self.process.stdout.close()
        return self.process.wait()


def request_of(call):
    """A call in the host's form."""
    parts = [bytes((FUNCTIONS[call.function],))]
    for form, argument in zip(PARAMETERS[call.function], call.arguments):
        if form in "nr":
            parts.append(struct.pack("<I", argument))
        else:
            parts.append(struct.pack("<I", len(argument)) + array.array(READ[form], argument).tobytes())
    return b"".join(parts)


def plain(function):
    """A function's name without its form."""
    return function.removesuffix(APART)


def answer_bytes(function, answer):
    """An answer in the host's form: number 0 is acceptance, and on a refusal every other field is 0."""
    number, place = answer if isinstance(answer, Refused) else (0, 0)
    if plain(function) == "evaluate":
        return struct.pack("<IIQ", number, answer.time if number == 0 else 0, place)
    if plain(function) == "build":
        built = answer if number == 0 else Built(0, 0, 0, 0)
        return struct.pack("<IIQQQQ", number, built.variables, place, built.clauses, built.numbers, built.pairs)
    return struct.pack("<IQ", number, place)


def expected_reply(call, answer, slices):
    """What the host must give back, its last byte saying that nothing else was touched."""
    parts = [answer_bytes(call.function, answer)]
    parts += [array.array(form, content).tobytes() for form, content in zip(LENT[plain(call.function)], slices)]
    return b"".join(parts) + b"\1"


def first_difference(call, expected, got):
    """Where two replies differ, in words."""
    names = LENT_NAMES[plain(call.function)]
    if len(got) < len(expected):
        return "the host ended after %d of %d bytes" % (len(got), len(expected))
    place = next(place for place in range(len(expected)) if expected[place] != got[place])
    start = len(answer_bytes(call.function, Refused(document.SHORT, 0)))
    if place < start:
        return "answer %s, not %s" % (got[:start].hex(" "), expected[:start].hex(" "))
    for name, form, room in zip(names, LENT[plain(call.function)], call.arguments[-len(names):]):
        size = array.array(form).itemsize
        if place < start + size * room:
            return "%s, element %d" % (name, (place - start) // size)
        start += size * room
    return "a guard, or a slice to read"


def agrees(wanted, answer):
    """Whether an answer is the wanted one; None in a field leaves it open."""
    return type(wanted) is type(answer) and all(w is None or w == a for w, a in zip(wanted, answer))


def compare_call(host, call):
    """Work a call out and make it: the answer, the slices, and what is wrong, in words."""
    rules = rise_fall if call.function.endswith(APART) else document
    answer, *slices = getattr(rules, call.function)(*call.arguments)
    wrong = []
    if call.wanted is not None and not agrees(call.wanted, answer):
        wrong.append("%s.py gives %s, known is %s" % (rules.__name__, answer, call.wanted))
    expected = expected_reply(call, answer, slices)
    got = host.reply(request_of(call), len(expected))
    if got != expected:
        wrong.append("%s: %s" % (answer, first_difference(call, expected, got)))
    return answer, slices, wrong
