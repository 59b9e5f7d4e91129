"""Solvers as peers: cadical or picosat answers a formula with a model or with a refutation.

Nothing that a solver says is trusted: a model's vector is settled by the library, a refutation is judged by it.
"""

import array
import os
import time
from collections import namedtuple

from .machine import Process, Uninterrupted, on_path, remove
from .trouble import OfTheMachine, Slip
from .words import MOST_NUMBER, count, number_in, shown

HAS_MODEL, HAS_NONE = 10, 20
# The arguments of each solver; the formula's file and the refutation's stand in them.
SOLVERS = {
    "cadical": ("-q", "--no-binary", "{formula}", "{refutation}"),
    "picosat": ("-R", "{refutation}", "{formula}"),
}
POLL_SECONDS = 0.2

# A solver's answer: whether there is a model, the model's vector, the file that holds the refutation.
Answer = namedtuple("Answer", "has_model vector refutation")


def find_solver(name=None):
    """The solver of a name, or the first that is installed, or None."""
    if name is not None and name not in SOLVERS:
        raise Slip(f"{shown(name)} is no solver that is known here; known are {' and '.join(SOLVERS)}")
    for each in (name,) if name else SOLVERS:
        if on_path(each):
            return each
    if name:
        raise OfTheMachine(f"the solver {name} is not installed; Debian's package is called {name}")
    return None


class Solver:
    """One solver, its files in a folder of its own, and the seconds that it took."""

    def __init__(self, name, folder, progress, limit=None):
        self.name, self.folder, self.progress, self.limit = name, folder, progress, limit
        self.seconds, self.calls = 0.0, 0

    def path(self, name):
        """A file in the folder."""
        return os.path.join(self.folder, name)

    def ask(self, inputs):
        """The answer to the formula in the folder's file `formula`; the model's vector has so many inputs."""
        self.calls += 1
        refutation = self.path(f"refutation_{self.calls}")
        try:
            status = self.run(refutation)
            if status == HAS_MODEL:
                return Answer(True, self.read_model(inputs), None)
            if status == HAS_NONE:
                return Answer(False, None, refutation)
            raise OfTheMachine(f"{self.name} ended with status {status} and no answer; it said: {self.last_line()}")
        except OSError as error:
            raise OfTheMachine(f"{self.name} cannot be asked: {error.strerror or error}") from None
        finally:
            # The next question's files are new ones: to write over the old ones would take longer.
            remove(self.path("formula"))
            remove(self.path("said"))

    def run(self, refutation):
        """Run the solver; its status."""
        names = {"formula": self.path("formula"), "refutation": refutation}
        command = [self.name] + [argument.format(**names) for argument in SOLVERS[self.name]]
        streams = [(os.POSIX_SPAWN_OPEN, 0, os.devnull, os.O_RDONLY, 0),
                   (os.POSIX_SPAWN_OPEN, 1, self.path("said"), os.O_WRONLY | os.O_CREAT | os.O_TRUNC, 0o600),
                   (os.POSIX_SPAWN_DUP2, 1, 2)]
        began, process = time.monotonic(), None
        try:
            with Uninterrupted():
                process = Process(command, streams)
            return self.wait(process, began)
        finally:
            if process is not None:
                process.kill()
            self.seconds += time.monotonic() - began

    def wait(self, process, began):
        """Wait for the solver, showing that it goes on."""
        while not process.ended_within(POLL_SECONDS):
            self.progress.show(f"{self.name} at work for {time.monotonic() - began:.0f} s")
            if self.limit is not None and time.monotonic() - began > self.limit:
                raise OfTheMachine(f"{self.name} found no answer within {count(self.limit, 'second')}")
        return process.wait()

    def read_model(self, inputs):
        """The inputs' values in the model that the solver printed."""
        true = set()
        with open(self.path("said"), encoding="utf-8", errors="replace") as said:
            for line in said:
                if line.startswith("v"):
                    words = line[1:].split()
                    true.update(words)
                    last = number_in(words[-1].lstrip("-"), MOST_NUMBER) if words else None
                    if last is not None and last > inputs:
                        break
        return bytes(1 if str(variable) in true else 0 for variable in range(1, inputs + 1))

    def last_line(self):
        """The last line that the solver printed."""
        with open(self.path("said"), encoding="utf-8", errors="replace") as said:
            lines = [line.strip() for line in said if line.strip()]
        return shown(lines[-1]) if lines else "nothing"


def read_slowly(path, lines, name):
    """The same for a text that is not quite so, or the line that does not read."""
    from .refutations import read_lines
    try:
        return read_lines(path, lines).numbers
    except Slip as slip:
        raise OfTheMachine(f"{name} wrote no refutation that can be read: {slip}") from None


def read_steps(path, name):
    """The refutation that a solver wrote, ended by the empty clause."""
    try:
        with open(path, "rb") as file:
            text = file.read()
    except OSError:
        text = b""
    try:
        # As solvers write it: one clause a line, and nothing but deletions and comments between.
        rows = [line for line in text.split(b"\n") if line and line[0] not in b"dc%"]
        numbers = array.array("i", map(int, b" ".join(rows).split())) or array.array("i", [0])
    except (ValueError, OverflowError):
        numbers = read_slowly(path, text.decode("utf-8", "replace").split("\n"), name)
    if numbers[-1] != 0 or (len(numbers) > 1 and numbers[-2] != 0):
        numbers.append(0)
    return numbers
