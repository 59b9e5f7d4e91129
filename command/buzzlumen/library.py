"""The proved library, called through one small program that stays alive for as long as there are questions.

The program is command/host.c over the library's archive. In the tree it stands in target/command/, and is built there
when it is missing or older than its parts; in a package it stands beside this one or in /usr/lib/buzzlumen. The
variable BUZZLUMEN_HOST names another. It is x86-64 code: another machine runs it under qemu-x86_64.
Every call lends the room that it needs: what is not known beforehand is asked for, by lending less and reading the
refusal ROOM.
"""

import array
import os
import struct
import sys
from collections import namedtuple

from .machine import FolderForAWhile, Process, on_path
from .refusals import ROOM, TABLE, VECTOR, in_words
from .trouble import OfTheMachine, Refused

(EVALUATE, BUILD, CHECK, JUDGE, SHORTEN, WALK, WRITE_FORMULA, SHORTEN_FOR, TIMES_OF, FEWER_ONES,
 TAKES_FALLS) = range(1, 12)
NUMBER, BYTES, WORDS, LENT_BYTES, LENT_WORDS, WORK_BYTES, WORK_WORDS = range(1, 8)

MOST_NODES = 512
MOST_PAIRS = 65536
MOST_VARIABLES = 100000
FIRST_FORMULA_ROOM = 2 ** 18

# What the calls give. Lists of numbers are arrays of 32-bit numbers; a pair is node and time, or node, value and time
# where rise and fall are apart.
Settled = namedtuple("Settled", "time values times")
Built = namedtuple("Built", "variables clauses formula pairs")

PACKAGE = os.path.dirname(os.path.realpath(__file__))
BESIDE = os.path.dirname(PACKAGE)
TREE = os.path.dirname(BESIDE)
INSTALLED = (os.path.join(BESIDE, "host"), "/usr/lib/buzzlumen/host")
HEADER = "include/buzzlumen.h"
SOURCES = ("command/host.c", "command/shorten.c", "command/shorten.h", HEADER)
ARCHIVE = "target/staticlib/libbuzzlumen.a"
BUILT = "target/command/host"
REBUILD = "Build it by: tools/build"
REBUILD_ANEW = "Build it anew by: tools/build"


class Refusal(Refused):
    """The library's refusal: its number and place, and its cause in words once someone knows it."""

    def __init__(self, number, place):
        super().__init__(f"refused {number} {place}")
        self.number, self.place, self.words = number, place, in_words(number, place)


# The program


def is_native():
    """Whether this machine runs x86-64 code itself."""
    return os.uname().machine in ("x86_64", "amd64")


def runner():
    """What stands before the program's name to run it here."""
    if is_native():
        return []
    if not on_path("qemu-x86_64"):
        raise OfTheMachine("the library is x86-64 code and qemu-x86_64 is not here: install Debian's qemu-user")
    return ["qemu-x86_64"]


def compiler():
    """The C compiler that makes x86-64 code."""
    command, packages = ["gcc"], "gcc and libc6-dev"
    if not is_native():
        command, packages = ["x86_64-linux-gnu-gcc", "-static"], "gcc-x86-64-linux-gnu and libc6-dev-amd64-cross"
    if not on_path(command[0]):
        raise OfTheMachine(f"{command[0]} is not here to build the host program: install Debian's {packages}")
    return command


def host_program():
    """Where the program stands: as the variable says, built in the tree, or in a package."""
    named = os.environ.get("BUZZLUMEN_HOST")
    if named:
        if not os.path.isfile(named):
            raise OfTheMachine(f"BUZZLUMEN_HOST names {named}, which is no file")
        return named
    if is_tree():
        return built_in_tree()
    for program in INSTALLED:
        if os.path.isfile(program):
            return program
    raise OfTheMachine(f"the host program is not here; looked for {' and '.join(INSTALLED)}")


def is_tree():
    """Whether the command stands in the tree and uses the program that is built there."""
    return not os.environ.get("BUZZLUMEN_HOST") and os.path.isfile(in_tree(SOURCES[0]))


def in_tree(part):
    """The path of a part of the tree."""
    return os.path.join(TREE, part)


def built_in_tree():
    """The tree's own program, built anew where it is older than its parts."""
    program = in_tree(BUILT)
    if not os.path.isfile(in_tree(ARCHIVE)):
        raise OfTheMachine(f"the library is not built yet: there is no {ARCHIVE}. {REBUILD}")
    parts = [in_tree(part) for part in SOURCES + (ARCHIVE,)]
    if os.path.isfile(program) and all(os.path.getmtime(part) <= os.path.getmtime(program) for part in parts):
        return program
    return build(program)


def build(program):
    """Build the program beside its place, see that the archive is the header's, then put it there in one step."""
    import subprocess
    options = ["-DRISE_FALL"] if RISE_FALL in declared_in_archive() else []
    try:
        os.makedirs(os.path.dirname(program), exist_ok=True)
        with FolderForAWhile(os.path.dirname(program)) as folder:
            made = os.path.join(folder, "host")
            sources = [in_tree(part) for part in SOURCES + (ARCHIVE,) if not part.endswith(".h")]
            command = compiler() + ["-O2", *options, "-I", in_tree("include"), "-o", made, *sources]
            ended = subprocess.run(command, capture_output=True, text=True, check=False)
            if ended.returncode:
                raise OfTheMachine(f"the host program does not build: {last_line(ended.stderr)}")
            if not answers_rightly(made):
                raise OfTheMachine(f"the library's archive {ARCHIVE} does not answer as {HEADER} says: it is of "
                                   f"another state of the tree. {REBUILD_ANEW}")
            os.replace(made, program)
    except OSError as error:
        raise OfTheMachine(f"the host program cannot be built as {program}: {error.strerror}") from None
    return program


# Does the archive belong to the header?

# One of the calls for rise and fall apart.
RISE_FALL = "buzzlumen_judge_rise_fall"

# A circuit, the arrivals of its inputs and a vector, and the times of its nodes then (circuit A of docs/RULES.md).
TRIED = bytes.fromhex("01010000 03020100 05020300 00000300 02000100 01000100 03000100 01000100 0400 22000000 0200 0300"
                      "0500 0100 0100")
TRIED_ARRIVALS, TRIED_VECTOR, TRIED_TIMES = (0, 4), bytes((1, 0)), [0, 4, 3, 5, 6]


def declared_in_archive():
    """The functions that the header declares, all of which the archive has; else it is of an older state."""
    import re
    with open(in_tree(HEADER), encoding="utf-8") as header:
        declared = set(re.findall(r"^buzzlumen_\w+ (buzzlumen_\w+)\(", header.read(), flags=re.M))
    missing = sorted(declared - functions_in(in_tree(ARCHIVE)))
    if missing:
        raise OfTheMachine(f"the library's archive {ARCHIVE} has no {missing[0]}, which {HEADER} declares: it is of an "
                           f"older state of the tree. {REBUILD_ANEW}")
    return declared


def functions_in(archive):
    """The functions that an archive lists in the table at its front."""
    with open(archive, "rb") as file:
        start = file.read(68)
        if len(start) < 68 or not start.startswith(b"!<arch>\n/ "):
            return set()
        table = file.read(int(start[56:66]))
    names = table[4 + 4 * int.from_bytes(table[:4], "big"):]
    return {name.decode(errors="replace") for name in names.split(b"\0") if name}


def answers_rightly(program):
    """Whether a program that was just built answers one call of each function as it must: functions with the same names
    and other parameters break off or answer anything."""
    runner()
    try:
        with Library(program) as library:
            return tried(library, None) and (not library.takes_falls() or tried(library, (3, 1, 1, 1, 1)))
    except (OfTheMachine, Refusal, ValueError, OverflowError, MemoryError):
        return False


def tried(library, falls):
    """One call of each function, on a circuit that settles at 6 and at nothing later."""
    settled = library.evaluate(TRIED, TRIED_ARRIVALS, TRIED_VECTOR, falls)
    built = library.build(TRIED, TRIED_ARRIVALS, 7, falls)
    library.check(built.variables, built.formula, [0])
    library.judge(TRIED, TRIED_ARRIVALS, 6, TRIED_VECTOR, [0], falls)
    return list(settled.times[:len(TRIED_TIMES)]) == TRIED_TIMES and settled.time == 6 and built.variables == 5


def last_line(text):
    """The last line of a text that says something."""
    lines = [line for line in text.splitlines() if line.strip()]
    return lines[-1].strip() if lines else "it says nothing"


# Requests and answers


def number(value):
    """An argument: one number."""
    return struct.pack("<IQ", NUMBER, value)


def given_bytes(values):
    """An argument: bytes to read."""
    return struct.pack("<IQ", BYTES, len(values)) + bytes(values)


def given_words(values):
    """An argument: 32-bit numbers with a sign, to read."""
    return struct.pack("<IQ", WORDS, len(values)) + little(array.array("i", values)).tobytes()


def given_times(values):
    """An argument: 32-bit numbers without a sign, to read."""
    return struct.pack("<IQ", WORDS, len(values)) + little(array.array("I", values)).tobytes()


def given_circuit(netlist, arrivals, falls):
    """The arguments of a circuit: its netlist, its arrivals, and its fall delays where rise and fall are apart."""
    return [given_bytes(netlist), given_times(arrivals)] + ([given_times(falls)] if falls is not None else [])


def pair_numbers(falls):
    """How many numbers the largest table of pairs has."""
    return (2 if falls is None else 3) * MOST_PAIRS


def lent_bytes(length):
    """An argument: room for so many bytes."""
    return struct.pack("<IQ", LENT_BYTES, length)


def lent_words(length):
    """An argument: room for so many 32-bit numbers."""
    return struct.pack("<IQ", LENT_WORDS, length)


def work_bytes(length):
    """An argument: room for so many bytes that nobody reads afterwards."""
    return struct.pack("<IQ", WORK_BYTES, length)


def work_words(length):
    """An argument: room for so many 32-bit numbers that nobody reads afterwards."""
    return struct.pack("<IQ", WORK_WORDS, length)


def little(numbers):
    """Numbers in the order of bytes that the host has."""
    if sys.byteorder == "big":
        numbers.byteswap()
    return numbers


class Library:
    """The running program, the one that is found where none is named; started at the first call."""

    def __init__(self, program=None):
        self.program = program
        self.process = self.requests = self.answers = None
        # The numbers that the largest formula so far took, and some.
        self.room = FIRST_FORMULA_ROOM
        # What the program said of calls for rise and fall apart, once it was asked.
        self.with_falls = None

    def start(self):
        """Start the program, its standard input and output two pipes."""
        command = [*runner(), self.program or host_program()]
        its_input, requests = os.pipe()
        answers, its_output = os.pipe()
        self.requests, self.answers = open(requests, "wb"), open(answers, "rb")
        streams = [(os.POSIX_SPAWN_DUP2, its_input, 0), (os.POSIX_SPAWN_DUP2, its_output, 1),
                   (os.POSIX_SPAWN_OPEN, 2, os.devnull, os.O_WRONLY, 0)]
        try:
            # Out of the reach of the terminal: an interrupt there is the command's to handle.
            self.process = Process(command, streams, own_session=True)
        except OSError as error:
            raise OfTheMachine(f"the host {command[-1]} does not start: {error.strerror}") from None
        finally:
            os.close(its_input)
            os.close(its_output)

    def close(self):
        """End the program."""
        if self.process:
            self.process.kill()
            self.process = None

    def __enter__(self):
        return self

    def __exit__(self, *_):
        self.close()

    def call(self, function, arguments, lent):
        """The fields of an answer and the content of each lent slice; `lent` has a letter for each, B or i."""
        if self.process is None:
            self.start()
        try:
            self.requests.write(struct.pack("<II", function, len(arguments)))
            for argument in arguments:
                self.requests.write(argument)
            self.requests.flush()
        except OSError:
            raise self.ended() from None
        count, = struct.unpack("<I", self.read(4))
        fields = struct.unpack(f"<{count}Q", self.read(8 * count))
        return fields, [self.read_slice(letter) for letter in lent]

    def read(self, count):
        """So many bytes of an answer."""
        data = self.answers.read(count)
        if len(data) < count:
            raise self.ended()
        return data

    def read_slice(self, letter):
        """The elements of one lent slice."""
        length, = struct.unpack("<Q", self.read(8))
        numbers = array.array(letter)
        numbers.frombytes(self.read(length * numbers.itemsize))
        return little(numbers)

    def ended(self):
        """What to say where the program broke off."""
        status = self.process.kill()
        self.process = None
        causes = {4: "memory is short", 127: "it was not found"}
        hint = f"; is {ARCHIVE} of this state of the tree? {REBUILD_ANEW}" if status < 0 and is_tree() else ""
        return OfTheMachine(f"the host program broke off: {causes.get(status, f'status {status}')}{hint}")

    def with_room(self, call):
        """The answer of a call that takes room for a formula, without its number and place; where the room is too
        small the refusal says how much it must be."""
        (refusal, place, *fields), lent = call(self.room)
        if refusal == ROOM and place > self.room:
            self.room = place + place // 4
            (refusal, place, *fields), lent = call(self.room)
        accept(refusal, place)
        return fields, lent

    def takes_falls(self):
        """Whether the library has the calls for rise and fall apart."""
        if self.with_falls is None:
            (self.with_falls,), _ = self.call(TAKES_FALLS, [], "")
        return bool(self.with_falls)

    # The library's functions. Where falls are given, they are those for rise and fall apart.

    def evaluate(self, netlist, arrivals, vector, falls=None):
        """Values and settling times under a vector."""
        arguments = [*given_circuit(netlist, arrivals, falls), given_bytes(vector), lent_bytes(MOST_NODES),
                     lent_words(MOST_NODES)]
        (refusal, place, time), (values, times) = self.call(EVALUATE, arguments, "BI")
        accept(refusal, place)
        return Settled(time, values, times)

    def refusal_of(self, netlist, arrivals, falls=None):
        """The refusal of bytes that are no netlist, or of numbers that are no arrivals or falls for it, or None: a
        vector without a value is refused after all of those."""
        try:
            self.evaluate(netlist, arrivals, b"", falls)
        except Refusal as refusal:
            return refusal if refusal.number != VECTOR else None
        return None

    def build(self, netlist, arrivals, target, falls=None):
        """The formula for a target."""
        (variables, clauses, _, _), (pairs, formula) = self.with_room(lambda room: self.call(
            BUILD, [*given_circuit(netlist, arrivals, falls), number(target), lent_words(pair_numbers(falls)),
                    lent_words(room)], "Ii"))
        return Built(variables, clauses, formula, pairs)

    def check(self, variables, formula, refutation):
        """Whether a refutation of a formula passes."""
        room = min(variables, MOST_VARIABLES) + 1
        arguments = [number(variables), given_words(formula), given_words(refutation), work_bytes(room)]
        (refusal, place), _ = self.call(CHECK, arguments, "")
        accept(refusal, place)

    def judge(self, netlist, arrivals, delay, vector, refutation, falls=None):
        """Whether a delay, a vector and a refutation are a certificate."""
        self.with_room(lambda room: self.call(
            JUDGE, [*given_circuit(netlist, arrivals, falls), number(delay), given_bytes(vector),
                    given_words(refutation), work_bytes(MOST_NODES), work_words(MOST_NODES),
                    work_words(pair_numbers(falls)), work_words(room), work_bytes(MOST_VARIABLES + 1)], ""))

    # What the program has beside the library's functions, for a search.

    def write_formula(self, netlist, arrivals, target, path, falls=None):
        """The formula for a target, to a file as DIMACS CNF."""
        (wrong,), _ = self.with_room(lambda room: self.call(
            WRITE_FORMULA, [*given_circuit(netlist, arrivals, falls), number(target),
                            given_bytes(os.fsencode(path) + b"\0"), work_words(pair_numbers(falls)),
                            work_words(room)], ""))
        if wrong:
            raise OfTheMachine(f"the formula for T={target} cannot be written to {path}: is the disk full?")

    def shorten(self, variables, formula, refutation):
        """A refutation without the steps that it does not need; the given one where it does not hold."""
        arguments = [number(variables), given_words(formula), given_words(refutation), lent_words(len(refutation))]
        _, (shorter,) = self.call(SHORTEN, arguments, "i")
        return shorter or refutation

    def shorten_for(self, netlist, arrivals, target, refutation, falls=None):
        """The same for a refutation of a netlist's formula for a target."""
        _, (shorter,) = self.with_room(lambda room: self.call(
            SHORTEN_FOR, [*given_circuit(netlist, arrivals, falls), number(target), given_words(refutation),
                          work_words(pair_numbers(falls)), work_words(room), lent_words(len(refutation))], "i"))
        return shorter or refutation

    def times_of(self, netlist, arrivals, vectors, falls=None):
        """The settling times of some vectors."""
        arguments = [*given_circuit(netlist, arrivals, falls), given_bytes(b"".join(vectors)),
                     number(len(vectors[0])), lent_words(len(vectors))]
        (refusal, place), (times,) = self.call(TIMES_OF, arguments, "I")
        accept(refusal, place)
        return times

    def fewer_ones(self, netlist, arrivals, time, vector, falls=None):
        """A vector that settles at a time, with a 0 for as many of its ones as go one after the other."""
        arguments = [*given_circuit(netlist, arrivals, falls), number(time), given_bytes(vector),
                     lent_bytes(len(vector))]
        _, (smaller,) = self.call(FEWER_ONES, arguments, "B")
        return bytes(smaller)

    def walk(self, netlist, arrivals, enough=None, falls=None):
        """Of all vectors in order, 0 before 1, the first that settles latest, or at `enough` or later: time, vector."""
        arguments = [*given_circuit(netlist, arrivals, falls), number(enough or 0), number(enough is not None),
                     lent_bytes(len(arrivals))]
        (refusal, place, time), (vector,) = self.call(WALK, arguments, "B")
        accept(refusal, place)
        return time, bytes(vector)


def accept(refusal, place):
    """Nothing, where the library accepts."""
    if refusal and refusal not in TABLE:
        raise OfTheMachine(f"the library refuses by the number {refusal}, which this command does not know")
    if refusal:
        raise Refusal(refusal, place)
