"""Rise and fall apart: two delays a pin in a circuit's text and by --falls, in every question, in certificates; what is
refused and told; delays as brute force finds them.

Where the tree's library has no calls for it yet, the command asks a host over the plain C twin, which has them; and the
library's own host is seen to say so.
"""

import functools
import pathlib
import subprocess
import tempfile
import unittest

import document
import methods
import rise_fall
import rise_fall_cases
import tools
from asking import COURSE, ROOT, Asking
from buzzlumen import circuit, falls, netlist, search
from buzzlumen.library import Library
from document import write_netlist

A = COURSE / "circuit_a.txt"
APART_A = """input a b
n2 = BUF(a:3/7)
n3 = AND(n2:1/2, b:1/2)
n4 = OR(n3:1/4, b:1/4)
output n4
"""
FALLS_A = "7,2,2,4,4"
SHOWN_A = "Rising and falling: n2 from a 3/7, n3 from n2 1/2, n3 from b 1/2, n4 from n3 1/4, n4 from b 1/4.\n"
CIRCUITS = 24

# A text, and what is said of it behind the file's name.
NO_PIN = " is no pin; two delays are one for rising, a slash and one for falling, as b:3/5"
MISTAKES = (
    ("input a\nb = BUF(a:3/)\n", "`a:3/`" + NO_PIN),
    ("input a\nb = BUF(a:/5)\n", "`a:/5`" + NO_PIN),
    ("input a\nb = BUF(a:3/5/7)\n", "`a:3/5/7`" + NO_PIN),
    ("input a\nb = BUF(a:3/-5)\n", "`a:3/-5`" + NO_PIN),
    ("input a\nb = BUF(a/5)\n", "`a/5` is no pin; a pin is a name, a colon and a delay, as b:1"),
    ("input a\nb = BUF(a:1000/5)\n", "the rise delay `1000` of pin a is over 999"),
    ("input a\nb = BUF(a:5/1000)\n", "the fall delay `1000` of pin a is over 999"),
    ("input a\nb = BUF(a:5/" + "9" * 5000 + ")\n", "the fall delay `" + "9" * 60 + "...` of pin a is over 999"),
    ("input a\nb = BUF(c:3/5)\n", "c is no input and no gate of a line above"),
)

# Fall delays for circuit A as they are asked for, the status, what is answered, the last line of the words.
ASKED = (
    (FALLS_A, 0, "delay 6\n", None),
    ("7 2 2 4 4", 0, "delay 6\n", None),
    ("3,1,1,1,1", 0, "delay 2\n", None),
    ("0,0,0,0,0", 0, "delay 1\n", None),
    ("7,2,2,4", 1, "refused 19 5\n", "FALL: 4 fall delays for 5 pins."),
    ("7,2,2,4,4,4", 1, "refused 19 5\n", "FALL: 6 fall delays for 5 pins."),
    ("7,2,1000,4,4", 1, "refused 19 2\n", "FALL: pin 2 has the fall delay 1000, over 999."),
    ("7,2,2,4,4294967295", 1, "refused 19 4\n", "FALL: pin 4 has the fall delay 4294967295, over 999."),
    ("n2=7", 2, "", "buzzlumen: fall delays are a number for each pin, in the pins' order, as 5,1,1, not `n2=7`"),
    ("", 2, "", "buzzlumen: fall delays are a number for each pin, in the pins' order, as 5,1,1, not ``"),
    ("7,2,2,4,4294967296", 2, "", "buzzlumen: fall delays are a number for each pin, in the pins' order, as 5,1,1, not "
     "`7,2,2,4,4294967296`"),
)

# A change of the certificate of circuit A with these falls, the status, and what is said behind its name.
CHANGES = (
    ("falls 7 2 2 4 4\n", "falls 7 2 2 4 5\n", 1,
     ": is for other fall delays: n4 falls 5 after b there, and 4 here"),
    ("falls 7 2 2 4 4\n", "", 1, ": is for other fall delays: n2 falls 3 after a there, and 7 here"),
    ("falls 7 2 2 4 4\n", "falls 7 2 2 4\n", 1, ": has 4 fall delays, and the circuit has 5 pins"),
    ("falls 7 2 2 4 4\n", "falls\n", 2, ", line 3: falls has a delay for each pin, in the pins' order, as 5 1 1"),
    ("falls 7 2 2 4 4\n", "falls a=3\n", 2, ", line 3: falls has a delay for each pin, in the pins' order, as 5 1 1"),
    ("falls 7 2 2 4 4\n", "falls 7 2 2 4 -4\n", 2,
     ", line 3: falls has a delay for each pin, in the pins' order, as 5 1 1"),
    ("falls 7 2 2 4 4\n", "falls 7 2 2 4 4\nfalls 7 2 2 4 4\n", 2,
     ", line 4: falls stands here for the second time"),
    ("falls 7 2 2 4 4\ndelay 6\n", "delay 6\nfalls 7 2 2 4 4\n", 0, ""),
    ("delay 6\n", "delay 5\n", 1, "WITNESS: the vector settles at 6, and the claim is 5."),
    ("falls 7", "rises 7", 2, ", line 3: `rises` is no line of a certificate of version 1; known are netlist arrivals "
     "falls delay vector refutation"),
)


@functools.lru_cache(None)
def library_takes_falls():
    """Whether the tree's own library has the calls."""
    with Library() as library:
        return library.takes_falls()


@functools.lru_cache(None)
def host_over_twin():
    """The command's host over the plain C twin, in a folder that lasts as long as the tests."""
    folder = tempfile.TemporaryDirectory(prefix="twin-")
    program = pathlib.Path(folder.name) / "host"
    sources = [ROOT / "command/host.c", ROOT / "command/shorten.c", ROOT / "bench/twin.c"]
    subprocess.run([*tools.compiler(), "-O2", "-DRISE_FALL", "-DPREFIX=buzzlumen_", "-include",
                    ROOT / "tests/rise_fall.h", "-I", ROOT / "include", "-o", program, *sources], check=True)
    return folder, program


def some_circuit(seed):
    """A small circuit, its arrivals and its fall delays."""
    dice = methods.Dice(seed, 19)
    drawn = rise_fall_cases.with_small_delays(dice, methods.random_netlist(dice, 5, 14, 40))
    return drawn, rise_fall_cases.small_arrivals(dice, drawn), rise_fall_cases.small_falls(dice, drawn)


def text_of(drawn, arrivals, its_falls):
    """The text of a circuit with two delays a pin."""
    own = netlist.with_falls(netlist.read_netlist(write_netlist(drawn)), its_falls)
    return circuit.write_text(own, arrivals, circuit.plain_names(own))


class Apart(Asking):
    """A test that asks a host with the calls."""

    def ask(self, *words, status=0, **options):
        """Ask the tree's own host, or the one over the twin where the library has no calls yet."""
        if not library_takes_falls():
            options = {"env": self.environment(BUZZLUMEN_HOST=host_over_twin()[1]), **options}
        return super().ask(*words, status=status, **options)

    def setUp(self):
        super().setUp()
        self.apart = self.file("apart.txt", APART_A)


class Before(Asking):
    """The library's own host, as long as it has no calls for two delays a pin."""

    def setUp(self):
        super().setUp()
        if library_takes_falls():
            self.skipTest("the library takes fall delays")

    def test_told(self):
        """Two delays in a text, a certificate's line and the option are told, with the line."""
        path = self.file("apart.txt", APART_A)
        self.assertEqual(self.ask("delay", path, status=2).err, f"buzzlumen: {path}, line 2: `a:3/7`: a delay for "
                         "rising and one for falling are not read yet; write one\n")
        self.assertEqual(self.ask("delay", A, "--falls", FALLS_A, status=2).err,
                         "buzzlumen: the library here has no calls for fall delays\n")
        made = self.folder / "made"
        self.ask("delay", A, "-o", made)
        made.write_text(made.read_text().replace("delay 2", "falls 3 1 1 1 1\ndelay 2"))
        self.assertIn("`falls` is no line of a certificate of version 1; known are netlist arrivals delay vector "
                      "refutation", self.ask("judge", A, made, status=2).err)


class Texts(Apart):
    """Two delays in the text of a circuit."""

    def test_mistakes(self):
        """Every slip is told with its line."""
        for text, wanted in MISTAKES:
            path = self.file("slip.txt", text)
            self.assertEqual(self.ask("delay", path, status=2).err, f"buzzlumen: {path}, line 2: {wanted}\n")

    def test_read_and_written(self):
        """What is written is read back the same; blanks around the slash count for nothing; equal delays are one."""
        self.assertEqual(self.ask("netlist", self.apart, "--text").out, APART_A)
        loose = self.file("loose.txt", APART_A.replace("3/7", " 3 / 07 "))
        self.assertEqual(self.ask("netlist", loose, "--text").out, APART_A)
        same = self.file("same.txt", A.read_text().replace("a:3", "a:3/3"))
        self.assertEqual(self.ask("netlist", same, "--text").out, self.ask("netlist", A, "--text").out)
        self.assertEqual(self.ask("formula", same, "3").out, self.ask("formula", A, "3").out)
        self.assertEqual(self.ask("delay", same).err, self.ask("delay", A).err)
        for seed in range(100):
            drawn, arrivals, its_falls = some_circuit(seed)
            again = circuit.read_text(text_of(drawn, arrivals, its_falls))
            self.assertEqual(falls.all_falls(again.netlist), its_falls)
            self.assertEqual(netlist.write_netlist(again.netlist), write_netlist(drawn))

    def test_bytes_hold_none(self):
        """A netlist file holds no fall delays: that is said, and what is said there brings them back."""
        made = self.folder / "a.netlist"
        self.assertEqual(self.ask("netlist", self.apart, "-o", made).err,
                         f"A netlist file holds no fall delays; beside this one give --falls {FALLS_A}.\n")
        self.assertEqual(self.ask("delay", made).out, "delay 2\n")
        self.assertEqual(self.ask("delay", made, "--falls", FALLS_A).out, "delay 6\n")
        self.assertIn("n2 = BUF(n0:3/7)\n", self.ask("netlist", made, "--falls", FALLS_A).out)

    def test_from_yosys(self):
        """A table of delays may have two for a cell or a pin."""
        block = ('{"modules": {"m": {"ports": {"a": {"direction": "input", "bits": [2]}, "y": {"direction": "output", '
                 '"bits": [3]}}, "cells": {"c": {"type": "$_NOT_", "connections": {"A": [2], "Y": [3]}}}, "netnames": '
                 '{}}}}')
        path = self.file("block.json", block)
        made = self.ask("from-yosys", path, "--delays", self.file("d.txt", "$_NOT_ 3/5\n")).out
        self.assertIn("NOT(a:3/5)", made)
        self.assertEqual(self.ask("delay", self.file("made.txt", made)).out, "delay 5\n")
        self.ask("from-yosys", path, "--delays", self.file("e.txt", "$_NOT_ 3/1000\n"), status=2)
        self.ask("from-yosys", path, "--delays", self.file("e.txt", "$_NOT_ 3/\n"), status=2)
        self.assertEqual(self.ask("from-yosys", path, "--delays", self.folder / "d.txt", "--bytes", "-o",
                                  self.folder / "m.netlist").err,
                         "A netlist file holds no fall delays; beside this one give --falls 5.\n")


class Asked(Apart):
    """Fall delays beside a circuit."""

    def test_forms(self):
        """A list, and each slip; the library refuses a wrong number of them and one too large."""
        for word, status, out, last in ASKED:
            answer = self.ask("delay", A, f"--falls={word}", status=status)
            self.assertEqual(answer.out, out, word)
            if last is not None:
                self.assertEqual(answer.err.splitlines()[-1], last)

    def test_over_the_text(self):
        """A list sets all pins, also those of a text with two delays; the arrivals stay."""
        late = self.file("late.txt", APART_A.replace("input a b", "input a b:25"))
        self.assertEqual(self.ask("netlist", late, "--text", "--falls", "3,1,1,1,1").out,
                         A.read_text().split("\n", 1)[1].replace("input a b", "input a b:25"))
        first = self.ask("netlist", late, "--text", "--falls", "3,1,1,1,9").out.splitlines()[0]
        self.assertEqual(first, "input a b:25")

    def test_explained(self):
        """Refusal 19 in words."""
        self.assertEqual(self.ask("explain-refusal", "refused 19 5").out, "FALL: not one fall delay for each pin, or "
                         "one over 999. Place 5 is the number of pins, or the delay's position.\n")


class Shown(Apart):
    """Two delays in what is answered."""

    def test_times(self):
        """The words show both delays of the pins that have two; the first few of many."""
        answer = self.ask("times", self.apart, "0,0")
        self.assertEqual(answer.out, "settled 6\na 0 0\nb 0 0\nn2 0 7\nn3 0 2\nn4 0 6\n")
        self.assertEqual(answer.err, SHOWN_A + "With a=0 b=0: n4 settles to 0 at 6. The circuit settles at 6.\n")
        self.assertEqual(self.ask("times", self.apart).err, SHOWN_A + "The largest time is 6. The longest path adds up "
                         "to 13, of two delays the larger.\n")
        many = "input a\n" + "".join(f"g{place} = BUF(a:1/2)\n" for place in range(10)) + "output g9\n"
        self.assertIn("g7 from a 1/2, and 2 more.\n", self.ask("times", self.file("many.txt", many), "0").err)

    def test_formula(self):
        """The formula is the rules'; the comments say what each variable means."""
        for seed in range(CIRCUITS):
            drawn, arrivals, its_falls = some_circuit(seed)
            path = self.file("some.txt", text_of(drawn, arrivals, its_falls))
            if own_is_single(drawn, its_falls):
                continue
            target = 1 + seed % (rise_fall_cases.top_of(drawn, arrivals, its_falls) + 1)
            pairs, numbers = methods.formula_apart(drawn, arrivals, its_falls, target)
            text = self.ask("formula", path, str(target)).out
            self.assertEqual([int(word) for word in text.split()[4:]], sum(numbers, []))
            self.assertEqual(text.split()[2], str(document.node_count(drawn) + len(pairs)))
        named = self.ask("formula", self.apart, "6", "--names").out
        self.assertTrue(named.startswith("c " + SHOWN_A + "c variable 1: a is 1\n"))
        self.assertIn("c variable 17: n4 late at 6 with value 1\n", named)
        self.assertNotIn("variable 18", named)

    def test_times_as_the_rules_say(self):
        """Values and times under some vectors."""
        for seed in range(CIRCUITS):
            drawn, arrivals, its_falls = some_circuit(seed)
            vector = methods.random_vector(methods.Dice(seed), drawn.inputs)
            values, times = rise_fall.settle(drawn, arrivals, its_falls, vector)
            path = self.file("some.txt", text_of(drawn, arrivals, its_falls))
            lines = self.ask("times", path, ",".join(map(str, vector))).out.splitlines()
            wanted = [f"n{node} {value} {time}" for node, (value, time) in enumerate(zip(values, times))]
            self.assertEqual(lines[1:], wanted)


def own_is_single(drawn, its_falls):
    """Whether a circuit's fall delays are its own."""
    return its_falls == methods.own_falls(drawn)


class Delays(Apart):
    """The search."""

    def test_as_brute_force(self):
        """By cadical, by picosat and without a solver; each certificate is accepted, and by the rules too."""
        variables = {"env": self.environment(PATH=self.without_solver())}
        if not library_takes_falls():
            variables["env"]["BUZZLUMEN_HOST"] = str(host_over_twin()[1])
        for seed in range(CIRCUITS):
            drawn, arrivals, its_falls = some_circuit(seed)
            delay, _ = methods.true_delay_apart(drawn, arrivals, its_falls)
            path, made = self.file(f"{seed}.txt", text_of(drawn, arrivals, its_falls)), self.folder / f"{seed}.made"
            for words, options in ((("--solver", "cadical"), {}), (("--solver", "picosat"), {}), ((), variables)):
                answer = self.ask("delay", path, *words, "-o", made, "-f", **options)
                self.assertEqual(answer.out, f"delay {delay}\n")
                self.assertEqual(self.ask("judge", path, made).out, "accepted\n")
                self.assertTrue(accepted_by_the_rules(drawn, arrivals, its_falls, made.read_text()), seed)

    def test_pairs_and_times(self):
        """What the search counts and hopes for: pairs as the rules have them, every time that a vector reaches."""
        for seed in range(60):
            drawn, arrivals, its_falls = some_circuit(seed)
            if own_is_single(drawn, its_falls):
                continue
            own = netlist.with_falls(netlist.read_netlist(write_netlist(drawn)), its_falls)
            tops = netlist.tops_of(own, arrivals)
            self.assertEqual(tops, rise_fall.tops_of(drawn, arrivals, its_falls))
            for target in (1, max(tops) // 2, max(tops)):
                pairs = rise_fall.pairs_of(drawn, arrivals, its_falls, target, document.MOST_PAIRS)
                self.assertEqual(search.count_pairs(own, tops, target), len(pairs))
            possible = search.possible_times(own, arrivals)
            for vector in methods.all_vectors(drawn.inputs):
                _, times = rise_fall.settle(drawn, arrivals, its_falls, vector)
                self.assertIn(document.circuit_time(drawn, times), possible)


def accepted_by_the_rules(drawn, arrivals, its_falls, text):
    """Whether the rules accept a certificate's text; the single form where the falls are the circuit's own."""
    head, steps = text.split("refutation ", 1)
    lines = dict(line.split(" ", 1) for line in head.splitlines())
    vector = bytes(int(word.split("=")[1]) for word in lines["vector"].split())
    refutation = [int(word) for word in steps.split("\n", 1)[1].split()]
    given = int(lines["delay"]), vector, refutation, 600, 600, 200000, 900000, 70000
    if own_is_single(drawn, its_falls):
        return document.judge(write_netlist(drawn), arrivals, *given)[0] == document.Accepted()
    listed = [int(word) for word in lines["falls"].split()]
    answer = rise_fall.judge_rise_fall(write_netlist(drawn), arrivals, its_falls, *given)[0]
    return listed == its_falls and answer == document.Accepted()


class Certificates(Apart):
    """A certificate says for which fall delays it is."""

    def test_written_and_judged(self):
        """The line stands behind the arrivals' and has every pin; other fall delays are refused, slips told."""
        made = self.folder / "made"
        self.ask("delay", self.apart, "-o", made)
        self.assertEqual(made.read_text().splitlines()[2:5], ["falls 7 2 2 4 4", "delay 6", "vector a=0 b=0"])
        self.assertEqual(self.ask("judge", self.apart, made).err, SHOWN_A + "The true delay is 6: the largest settling "
                         "time over all vectors.\n")
        for before, behind, status, words in CHANGES:
            changed = self.file("changed", made.read_text().replace(before, behind, 1))
            self.assertNotEqual(changed.read_text(), made.read_text())
            answer = self.ask("judge", self.apart, changed, status=status)
            self.assertIn(words, answer.err)

    def test_beside_a_netlist_file(self):
        """A netlist file is judged with --falls, and without them the certificate is for others."""
        made, data = self.folder / "made", self.folder / "a.netlist"
        self.ask("delay", self.apart, "-o", made)
        self.ask("netlist", self.apart, "-o", data)
        self.assertEqual(self.ask("judge", data, made, "--falls", FALLS_A).out, "accepted\n")
        self.assertEqual(self.ask("judge", data, made, status=1).err, f"{made}: is for other fall delays: n2 falls 7 "
                         "after n0 there, and 3 here; a netlist file holds no fall delays, --falls sets them\n")
        self.assertIn("is for other fall delays", self.ask("judge", A, made, status=1).err)

    def test_by_hand(self):
        """A delay, a vector and a refutation; a wrong step is told by what its literals mean."""
        steps = self.file("steps.txt", "0\n")
        self.assertEqual(self.ask("judge", self.apart, "--delay", "6", "--vector", "00", "--refutation", steps,
                                  status=1).out, "refused 14 0\n")
        wrong = self.file("wrong.txt", "12 0\n0\n")
        self.assertIn('the clause "n2 late at 4 with value 1" doesn\'t follow', self.ask(
            "judge", self.apart, "--delay", "6", "--vector", "00", "--refutation", wrong, status=1).err)


if __name__ == "__main__":
    unittest.main()
