"""Two SAT solvers as peers: cadical and picosat answer a formula with a model or with a refutation.

A refutation is what the solver wrote as DRUP text, deletions stripped, cut after its first empty clause; where the
solver left the empty clause out, because a clause of the formula is empty, it is added. Assumes both are installed
(tests/tools.py does that) and end with 10 for a model and 20 for a refutation, as solvers do.
"""

import os
import subprocess
import tempfile

from document import dimacs

HAS_MODEL, HAS_NONE = 10, 20


def run_solver(arguments, text, read_proof):
    """Run a solver on DIMACS text; `{cnf}` and `{proof}` in the arguments become file names."""
    with tempfile.TemporaryDirectory() as directory:
        cnf, proof = os.path.join(directory, "formula"), os.path.join(directory, "proof")
        with open(cnf, "w") as file:
            file.write(text)
        command = [argument.format(cnf=cnf, proof=proof) for argument in arguments]
        ended = subprocess.run(command, stdout=subprocess.PIPE, stderr=subprocess.STDOUT, text=True, check=False)
        if ended.returncode == HAS_MODEL:
            return True, read_model(ended.stdout)
        if ended.returncode == HAS_NONE:
            with open(proof) as file:
                return False, read_proof(file.read())
        raise RuntimeError("%s ended with %d: %s" % (command[0], ended.returncode, ended.stdout))


def read_model(text):
    """The true literals that a solver printed on its `v` lines."""
    numbers = [int(word) for line in text.splitlines() if line.startswith("v") for word in line[1:].split()]
    return {number for number in numbers if number != 0}


def read_drup(text):
    """The clauses of a refutation in DRUP text, without its deletions."""
    steps = []
    for line in text.splitlines():
        words = line.split()
        if not words or words[0] == "d" or words[0].startswith("%"):
            continue
        steps.append([int(word) for word in words[:-1]])
        if not steps[-1]:
            return steps
    return steps + [[]]


def cadical(variables, clauses):
    """(True, model) or (False, refutation)."""
    return run_solver(["cadical", "-q", "--no-binary", "{cnf}", "{proof}"], dimacs(variables, clauses), read_drup)


def picosat(variables, clauses):
    """(True, model) or (False, refutation)."""
    return run_solver(["picosat", "-R", "{proof}", "{cnf}"], dimacs(variables, clauses), read_drup)


SOLVERS = (("cadical", cadical), ("picosat", picosat))
