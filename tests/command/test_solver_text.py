"""Solver text as solvers write it, and how a step that does not follow is told."""

import shutil
import subprocess
import unittest

from asking import COURSE, Asking

C = COURSE / "circuit_c.txt"
PASSES = "passes\n"

# Texts that refute circuit C at T=3, by the way they are written.
FORMS = {
    "plain": "-14 0\n-16 0\n0\n",
    "comments": "c a comment\n-14 0 # ours\nc another 0\n\n-16 0\n0\n",
    "deletions": "-14 0\nd 1 -5 0\n-16 0\nd -1 5 0\n0\n",
    "after the end": "-14 0\n-16 0\n0\nd -14 0\n",
    "header": "%RUPD32 18 39      \n-14 0\n-16 0\n0\n",
    "over lines": "-14\n0 -16 0 0\n",
    "line ends": "-14 0\r\n-16 0\r\n0\r\n",
}

# A refutation of circuit C at T=3 that does not pass, its refusal, and the cause.
REFUSED = (
    ("-14 0\n0\n", "14 1", "STEP: {}, line 2 (clause 2, deletions counted): the empty clause doesn't follow."),
    ("c one\nd 1 0\n-13 0\n0\n", "14 0", "STEP: {}, line 3 (clause 2, deletions counted): the clause \"and_b not late "
     "at 2\" doesn't follow."),
    ("14 2 0\n0\n", "14 0", "STEP: {}, line 1 (clause 1, deletions counted): the clause \"out_b late at 3, or b is 1\" "
     "doesn't follow."),
    ("-14 0\n", "13 1", "LAST: {}: no clause is empty, so no contradiction is reached; the last step of a refutation "
     "is 0 alone."),
    ("-14 0\n0\n-16 0\n0\n", "13 1", "LAST: {}, line 2 (clause 2, deletions counted): the empty clause, and further "
     "clauses follow it."),
    ("-14 0\n-16", "12 3", "REFUTATION: {}: the last clause has no 0 at its end."),
    ("-14 0\n99 0\n0\n", "12 2", "REFUTATION: {}, line 2 (clause 2, deletions counted): literal 99, and the formula "
     "has 18 variables."),
    ("-14 0\n" + "9" * 5000 + " 0\n0\n", "12 2", "REFUTATION: {}, line 2 (clause 2, deletions counted): literal "
     "2147483647, and the formula has 18 variables."),
    ("", "14 0", "STEP: {} has no clause, and the empty one stands for it: the empty clause doesn't follow."),
)

# What is no refutation, and what is said of it.
NOT_READ = (
    ("o 1 1 -5 0\na 2 1 0\n", "is FRAT, as cryptominisat writes it"),
    (b"o\x02\x03\0a\x04\x02\0", "is FRAT, as cryptominisat writes it"),
    ("UNSAT\n", "is a solver's answer, not a refutation; minisat writes none at all"),
    ("s UNSATISFIABLE\n", "is a solver's answer, not a refutation; minisat writes none at all"),
    ("1 x 0\n", "line 1: `1 x 0` is no row of numbers"),
    ("1 -0 0\n", "line 1: `1 -0 0` is no row of numbers"),
    ("p cnf 1 1\n1 0\n", "is a formula (DIMACS), not a refutation"),
    (b"a\x02", "line 1: `a\\x02` is no row of numbers"),
    (b"a\x02\0x\0", "is no binary refutation from byte 4 on"),
    (b"a\x80\x80\0\0\x80", "is no binary refutation"),
)


class SolverText(Asking):
    """What `check` and `judge` read."""

    def formula(self, *words):
        """The formula of circuit C at T=3, in a file."""
        path = self.folder / "late.cnf"
        self.ask("formula", C, "3", "-o", path, "-f", *words)
        return path

    def judge(self, path, status=0):
        """Ask for a judgement of circuit C at D=2 by a refutation."""
        return self.ask("judge", C, "--delay", "2", "--vector", "0000", "--refutation", path, status=status)

    def test_forms(self):
        """Each form is read, by both commands."""
        formula = self.formula()
        for name, text in FORMS.items():
            path = self.file("steps", text)
            self.assertEqual(self.ask("check", formula, path).out, PASSES, name)
            self.assertEqual(self.judge(path).out, "accepted\n", name)

    def test_solvers(self):
        """What cadical writes, with and without --no-binary, and picosat; for all targets from 3 to 6."""
        for target in range(3, 7):
            formula = self.folder / f"{target}.cnf"
            self.ask("formula", C, str(target), "-o", formula)
            for name, command in (("binary", ["cadical", "-q", formula, "{}"]),
                                  ("text", ["cadical", "-q", "--no-binary", formula, "{}"]),
                                  ("picosat", ["picosat", formula, "-R", "{}"])):
                proof = self.folder / name
                words = [str(proof) if word == "{}" else str(word) for word in command]
                self.assertEqual(subprocess.run(words, stdout=subprocess.DEVNULL, check=False).returncode, 20)
                self.assertEqual(self.ask("check", formula, proof).out, PASSES, (target, name))

    def test_empty(self):
        """An empty proof of a formula that unit propagation refutes alone."""
        formula = self.file("f.cnf", "p cnf 1 2\n1 0\n-1 0\n")
        answer = self.ask("check", formula, self.file("empty", ""))
        self.assertEqual(answer.out, PASSES)
        self.assertIn("has no clause: read as the empty clause alone", answer.err)

    def test_refused(self):
        """The cause of each refusal, with the file's line, the text's line, and the literals by name."""
        for text, numbers, wanted in REFUSED:
            path = self.file("steps", text)
            answer = self.judge(path, status=1)
            self.assertEqual(answer.out, f"refused {numbers}\n")
            self.assertEqual(answer.err.splitlines()[-1], wanted.format(path))

    def test_names_in_formula(self):
        """`check` tells literals by the names that `formula --names` wrote; without these by number."""
        path = self.file("steps", "-14 2 0\n-13 0\n0\n")
        self.assertIn("the clause \"not (and_b late at 2)\" doesn't follow",
                      self.ask("check", self.formula("--names"), path, status=1).err)
        self.assertIn("the clause \"-13\" doesn't follow", self.ask("check", self.formula(), path, status=1).err)

    def test_every_variable(self):
        """`formula --names` has a line for each variable, and a solver still reads it."""
        text = self.formula("--names").read_text()
        lines = [line for line in text.splitlines() if line.startswith("c variable ")]
        self.assertEqual(lines[0], "c variable 1: a is 1")
        self.assertEqual(lines[-1], "c variable 18: out_d late at 3")
        self.assertEqual(len(lines), 18)
        plain = self.formula().read_text()
        self.assertEqual("".join(line + "\n" for line in text.splitlines() if not line.startswith("c ")), plain)

    def test_not_read(self):
        """What is no refutation is named in one line."""
        formula = self.formula()
        for content, wanted in NOT_READ:
            answer = self.ask("check", formula, self.file("steps", content), status=2)
            self.assertIn(wanted, answer.err)
            self.assertEqual(answer.err.count("\n"), 1)

    def test_real_frat(self):
        """cryptominisat's own proof, where it is installed."""
        if shutil.which("cryptominisat5") is None:
            self.skipTest("cryptominisat is not installed")
        formula = self.formula()
        subprocess.run(["cryptominisat5", "--verb", "0", formula, self.folder / "frat"], stdout=subprocess.DEVNULL,
                       check=False)
        self.assertIn("is FRAT", self.ask("check", formula, self.folder / "frat", status=2).err)

    def test_formulas(self):
        """What is wrong with a formula."""
        steps = self.file("steps", "0\n")
        for text, status, wanted in (
                ("p cnf 1 1\n2 0\n", 1, "line 2: literal 2, and the header says 1 variable."),
                ("p cnf 1 1\n1\n", 1, "the last clause has no 0 at its end."),
                ("p cnf 100001 0\n", 1, "100,001 variables, and at most 100,000 are checked."),
                ("1 0\n", 2, "no line starts with p cnf"),
                ("p cnf x 1\n1 0\n", 2, "line 1: `p cnf x 1` is no header of a formula, as p cnf 8 15"),
                ("p cnf 1 1\n1 y 0\n", 2, "line 2: `1 y 0` is no row of numbers"),
                ("p cnf " + "9" * 5000 + " 1\n", 2, "is no header of a formula")):
            self.assertIn(wanted, self.ask("check", self.file("f", text), steps, status=status).err)


if __name__ == "__main__":
    unittest.main()
