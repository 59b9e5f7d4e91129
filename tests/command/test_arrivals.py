"""Inputs that arrive late: in a circuit's text and by --arrivals, in every question, in certificates; what is refused
and told; delays with late inputs as brute force finds them.
"""

import unittest

import document
import large_circuits
import methods
from asking import COURSE, Asking
from buzzlumen import arrivals, circuit, netlist
from document import BUF, Gate, Netlist, Pin, write_netlist

A, B = COURSE / "circuit_a.txt", COURSE / "circuit_b.txt"
CIRCUITS = 60
LATE_A = A.read_text().replace("input a b", "input a b:25")

# Arrivals for circuit A as they are asked for, the status, what is answered, the last line of the words.
ASKED = (
    ("b=25", 0, "delay 27\n", None),
    ("0,25", 0, "delay 27\n", None),
    ("b=3", 0, "delay 5\n", None),
    ("b=25,a=0", 0, "delay 27\n", None),
    ("a=9999 b=9999", 0, "delay 10001\n", None),
    ("00,0025", 0, "delay 27\n", None),
    ("25", 1, "refused 16 2\n", "ARRIVAL: 1 arrival for 2 inputs."),
    ("0,25,0", 1, "refused 16 2\n", "ARRIVAL: 3 arrivals for 2 inputs."),
    ("0,10000", 1, "refused 16 1\n", "ARRIVAL: input b arrives at 10000, the latest is 9999."),
    ("10000,4294967295", 1, "refused 16 0\n", "ARRIVAL: input a arrives at 10000, the latest is 9999."),
    ("b=10000", 1, "refused 16 1\n", "ARRIVAL: input b arrives at 10000, the latest is 9999."),
    ("c=25", 2, "", "buzzlumen: `c` is no input; the inputs are a b"),
    ("n2=25", 2, "", "buzzlumen: `n2` is no input; the inputs are a b"),
    ("b=25,b=25", 2, "", "buzzlumen: b has its arrival twice"),
    ("b=", 2, "", "buzzlumen: `b=` is no input and its arrival, as b=25"),
    ("b=25,0", 2, "", "buzzlumen: `0` is no input and its arrival, as b=25"),
    ("b=4294967296", 2, "", "buzzlumen: `b=4294967296` is no input and its arrival, as b=25"),
    ("b=" + "9" * 5000, 2, "", "buzzlumen: `b=" + "9" * 58 + "...` is no input and its arrival, as b=25"),
    ("b:25", 2, "", "buzzlumen: arrivals are a number for each input, as 0,25, or some by name, as b=25,c=3, not "
     "`b:25`"),
    ("", 2, "", "buzzlumen: arrivals are a number for each input, as 0,25, or some by name, as b=25,c=3, not ``"),
)

# A change of circuit A's certificate with b at 25, the status, and what is said behind its name.
CHANGES = (
    ("arrivals b=25\n", "arrivals b=24\n", 1, ": is for other arrivals: b arrives at 24 there, and at 25 here"),
    ("arrivals b=25\n", "", 1, ": is for other arrivals: b arrives at 0 there, and at 25 here"),
    ("arrivals b=25\n", "arrivals a=3 b=25\n", 1, ": is for other arrivals: a arrives at 3 there, and at 0 here"),
    ("arrivals b=25\n", "arrivals b=10000\n", 1, ": is for other arrivals: b arrives at 10000 there, and at 25 here"),
    ("delay 27\n", "delay 26\n", 1, "WITNESS: the vector settles at 27, and the claim is 26."),
    ("arrivals b=25\n", "arrivals b=25 a=0\n", 0, ""),
    ("arrivals b=25\ndelay 27\n", "delay 27\narrivals b=25\n", 0, ""),
    ("arrivals b=25\n", "arrivals b=25\narrivals b=25\n", 2, ", line 4: arrivals stands here for the second time"),
    ("arrivals b=25\n", "arrivals\n", 2, ", line 3: arrivals names inputs and when they arrive, as b=25"),
    ("arrivals b=25\n", "arrivals b=x\n", 2, ", line 3: arrivals names inputs and when they arrive, as b=25"),
    ("arrivals b=25\n", "arrivals b=-1\n", 2, ", line 3: arrivals names inputs and when they arrive, as b=25"),
    ("arrivals b=25\n", "arrivals 0 25\n", 2, ", line 3: arrivals names inputs and when they arrive, as b=25"),
    ("arrivals b=25\n", "arrivals b=" + "9" * 5000 + "\n", 2,
     ", line 3: arrivals names inputs and when they arrive, as b=25"),
    ("arrivals b=25\n", "arrivals b=25 b=25\n", 2, ", line 3: an input has an arrival twice"),
    ("arrivals b=25\n", "arrivals b=25 c=3\n", 2, ", line 3: `c` has an arrival, and the vector does not name it"),
)


class Texts(Asking):
    """Arrivals in the text of a circuit."""

    def test_read_and_written(self):
        """`input a b:25` is read, and written back the same way; zeros are not written."""
        path = self.file("a.txt", LATE_A)
        self.assertEqual(self.ask("netlist", path, "--text").out.splitlines()[0], "input a b:25")
        for line in ("input a:0 b:25", "input a\ninput b:25", "input a b:0025 # late"):
            text = self.ask("netlist", self.file("same", A.read_text().replace("input a b", line)), "--text").out
            self.assertEqual(text, self.ask("netlist", path, "--text").out)

    def test_bytes_hold_none(self):
        """A netlist file holds no arrivals: that is said, and what is said there brings them back."""
        path, made = self.file("a.txt", LATE_A), self.folder / "a.netlist"
        answer = self.ask("netlist", path, "-o", made)
        self.assertEqual(answer.err, "A netlist file holds no arrivals; beside this one give --arrivals n1=25.\n")
        self.ask("netlist", A, "-o", self.folder / "same")
        self.assertEqual(made.read_bytes(), (self.folder / "same").read_bytes())
        self.assertEqual(self.ask("delay", made).out, "delay 2\n")
        self.assertEqual(self.ask("delay", made, "--arrivals", "n1=25").out, "delay 27\n")
        self.assertTrue(self.ask("netlist", made, "--arrivals", "n1=25").out.startswith("input n0 n1:25\n"))
        self.assertEqual(self.ask("netlist", A, "-o", made, "-f").err, "")

    def test_too_late(self):
        """An arrival over 9,999 is the library's refusal, told with the input's name and line, by every question."""
        path = self.file("late.txt", "# so\ninput a\ninput b:9999 c:10000\noutput a\n")
        wanted = f"{path}, line 3: ARRIVAL: input c arrives at 10000, the latest is 9999.\n"
        certificate = self.file("made", "buzzlumen certificate 1\n")
        for words in (("delay", path), ("times", path), ("times", path, "000"), ("formula", path, "3"),
                      ("judge", path, certificate), ("netlist", path), ("netlist", path, "--text"),
                      ("delay", path, "--arrivals", "b=3")):
            answer = self.ask(*words, status=1)
            self.assertEqual((answer.out, answer.err), ("refused 16 2\n", wanted))
        fine = self.file("fine.txt", "input a\ninput b:9999 c:9999\noutput a\n")
        self.assertEqual(self.ask("delay", fine).out, "delay 0\n")


class Asked(Asking):
    """Arrivals beside a circuit."""

    def test_forms(self):
        """By name, as a list, and each slip; the library refuses a wrong number of them and one too large."""
        for word, status, out, last in ASKED:
            answer = self.ask("delay", A, f"--arrivals={word}", status=status)
            self.assertEqual(answer.out, out, word)
            if last is not None:
                self.assertEqual(answer.err.splitlines()[-1], last)
        self.ask("delay", A, "--arrivals", status=2)
        self.ask("delay", A, "--arrivals", "-3", status=2)

    def test_between_words(self):
        """The option may stand anywhere behind the question."""
        made = self.folder / "made"
        self.assertEqual(self.ask("delay", "--arrivals", "b=25", A, "-o", made).out, "delay 27\n")
        self.assertEqual(self.ask("times", A, "--arrivals", "b=25", "1,0").out.split()[:2], ["settled", "27"])
        self.assertEqual(self.ask("judge", A, "--arrivals", "b=25", made).out, "accepted\n")

    def test_over_the_text(self):
        """Names leave the others as the text has them; a list sets all."""
        path = self.file("a.txt", A.read_text().replace("input a b", "input a:7 b:25"))
        for word, first in (("b=3", "input a:7 b:3"), ("a=0", "input a b:25"), ("b=0", "input a:7 b"),
                            ("0,0", "input a b"), ("0,3", "input a b:3")):
            self.assertEqual(self.ask("netlist", path, "--text", "--arrivals", word).out.splitlines()[0], first)

    def test_refused_as_the_rules_say(self):
        """What is refused, and where, by the rules: of many arrivals, right and wrong."""
        data = write_netlist(methods.random_netlist(methods.Dice(3), 4, 6))
        inputs = document.read_netlist(data).inputs
        path = self.file("some.netlist", data)
        for seed in range(25):
            dice = methods.Dice(seed, 21)
            asked = methods.bad_arrivals(dice, inputs) if seed % 3 else methods.random_arrivals(dice, inputs)
            if not asked:
                continue
            verdict = document.evaluate(data, asked, [0] * inputs, 512, 512)[0]
            refused = isinstance(verdict, document.Refused)
            answer = self.ask("times", path, "0" * inputs, "--arrivals", ",".join(map(str, asked)), status=int(refused))
            wanted = f"refused {verdict.number} {verdict.place}" if refused else f"settled {verdict.time}"
            self.assertEqual(answer.out.splitlines()[0], wanted)

    def test_several_circuits(self):
        """Of several circuits each gets them; one that lacks the input is told, and the others are answered."""
        answer = self.ask("delay", A, B, "--arrivals", "b=3", status=2)
        self.assertEqual(answer.out, f"{A}: delay 5\n")
        self.assertIn(f"{B}: buzzlumen: `b` is no input; the inputs are valid", answer.err)


class Shown(Asking):
    """Arrivals in what is answered."""

    def setUp(self):
        super().setUp()
        self.late = self.file("late.txt", LATE_A)

    def test_times(self):
        """An input's time is its arrival; the words say what arrives late."""
        answer = self.ask("times", self.late, "1,0")
        self.assertEqual(answer.out, "settled 27\na 1 0\nb 0 25\nn2 1 3\nn3 0 26\nn4 0 27\n")
        self.assertEqual(answer.err, "Arriving late: b at 25.\nWith a=1 b=0: n4 settles to 0 at 27. The circuit "
                         "settles at 27.\n")
        answer = self.ask("times", A, "--arrivals", "3,3")
        self.assertEqual(answer.out.splitlines()[0], "a=0 b=0 settles at 5: n2 at 6, n3 at 4, n4 at 5")
        self.assertEqual(answer.err, "Arriving late: a at 3, b at 3.\nThe largest time is 5. The longest path adds up "
                         "to 8, arrivals counted.\n")

    def test_delay(self):
        """The search says what arrives late and counts the longest path from there; without late inputs nothing."""
        self.assertEqual(self.ask("delay", self.late).err.splitlines()[:2],
                         ["Arriving late: b at 25.", "The longest path adds up to 27, arrivals counted."])
        self.assertEqual(self.ask("delay", self.late, "--arrivals", "0,0").err, self.ask("delay", A).err)

    def test_formula(self):
        """The formula is the rules' for these arrivals; the words, or the comments, say which they are."""
        drawn = Netlist(2, [Gate(BUF, [Pin(0, 3)])], [0, 2])
        path = self.file("some.netlist", write_netlist(drawn))
        for late in ([0, 0], [25, 0], [2, 7]):
            for target in (1, 2, 3, 5, 25, 26, 28, 29):
                pairs, numbers = methods.formula(drawn, late, target)
                text = self.ask("formula", path, str(target), "--arrivals", f"{late[0]},{late[1]}").out
                self.assertEqual([int(word) for word in text.split()[4:]], sum(numbers, []))
                self.assertEqual(text.split()[2], str(3 + len(pairs)))
        self.assertTrue(self.ask("formula", self.late, "27").err.startswith("Arriving late: b at 25.\nVariables 1 to "))
        named = self.ask("formula", self.late, "27", "--names").out
        self.assertTrue(named.startswith("c Arriving late: b at 25.\nc variable 1: a is 1\n"))
        self.assertNotIn("late:", self.ask("formula", A, "3", "--names").out)

    def test_explained(self):
        """Refusal 16 in words."""
        self.assertEqual(self.ask("explain-refusal", "refused 16 1").out, "ARRIVAL: not one arrival for each input, or "
                         "an arrival over 9,999. Place 1 is the number of inputs, or the arrival's position.\n")

    def test_help(self):
        """Every question about a circuit has the option, and its help says what it does with a text's own arrivals."""
        for name in ("times", "formula", "judge", "delay", "netlist"):
            words = " ".join(self.ask(name, "--help").out.split())
            self.assertIn("--arrivals TIMES when inputs arrive: b=25,c=3 sets these and leaves the others as the text "
                          "has them, 0,25,3 sets all; in a netlist file all arrive at 0", words)


class Found(Asking):
    """Delays with late inputs."""

    def test_brute_force(self):
        """The delay is the largest settling time over all vectors, whoever finds it, and is certified."""
        wanted, paths, moved = [], [], 0
        for seed in range(CIRCUITS):
            drawn = methods.random_netlist(methods.Dice(seed, 13), 5, 12)
            late = methods.random_arrivals(methods.Dice(seed, 14), drawn.inputs)
            own = netlist.read_netlist(write_netlist(drawn))
            paths.append(self.file(f"{seed}.txt", circuit.write_text(own, late, circuit.plain_names(own))))
            delay = methods.true_delay(drawn, late)[0]
            wanted.append(f"{paths[-1]}: delay {delay}\n")
            moved += delay != methods.true_delay(drawn)[0]
        self.assertGreater(moved, CIRCUITS // 3)
        without, made = self.environment(PATH=self.without_solver()), self.folder / "made"
        made.mkdir()
        for words, options in ((("-o", made), {}), (("--solver", "picosat"), {}), ((), {"env": without})):
            self.assertEqual(self.ask("delay", *paths, *words, **options).out, "".join(wanted))
        for path in paths[::6]:
            self.assertEqual(self.ask("judge", path, made / f"{path.stem}.certificate").out, "accepted\n")

    def test_first_vector(self):
        """Of few inputs the vector is the first in order that reaches the delay."""
        for seed in range(6):
            drawn = methods.random_netlist(methods.Dice(seed, 7), 5, 12)
            late = methods.random_arrivals(methods.Dice(seed, 15), drawn.inputs)
            words = " ".join(f"n{node}={value}" for node, value in enumerate(methods.true_delay(drawn, late)[1]))
            path = self.file("some.netlist", write_netlist(drawn))
            self.assertIn(f": {words} settles at", self.ask("delay", path, "--arrivals", ",".join(map(str, late))).err)

    def test_fewer_ones(self):
        """Of many inputs the vector has a 1 only where the delay needs it."""
        names = [f"i{place}" for place in range(14)]
        path = self.file("wide.txt", f"input {' '.join(names)}:25\ng = AND(i0:1, i13:1)\nh = OR(g:1, i5:1)\noutput h\n")
        wanted = " ".join(f"{name}={int(name == 'i0')}" for name in names)
        answer = self.ask("delay", path)
        self.assertEqual(answer.out, "delay 27\n")
        self.assertIn(f"Found by cadical: {wanted} settles at 27", answer.err)

    def test_blocks(self):
        """A block of 64 inputs and an adder, some inputs late: found, and accepted by the library."""
        for name, made in (("block", large_circuits.random_block(1)), ("adder", large_circuits.bypass_adder(12, 2))):
            late = [7 * (place % 3) for place in range(made.inputs)]
            path, certificate = self.file(name, write_netlist(made)), self.folder / f"{name}.certificate"
            word = ",".join(map(str, late))
            answer = self.ask("delay", path, "--arrivals", word, "-o", certificate)
            self.assertEqual(self.ask("judge", path, certificate, "--arrivals", word).out, "accepted\n")
            tops = document.tops_of(made, late)
            self.assertIn(f"adds up to {max(tops[node] for node in made.outputs)}, arrivals counted", answer.err)

    def test_too_many_pairs(self):
        """Where the formula for the delay + 1 has too many pairs, the pairs are counted with the arrivals."""
        made = large_circuits.ladders(70, 3, 1500)
        path = self.file("ladder", write_netlist(made))
        late = [0] * (made.inputs - 1) + [40]
        for words in (("formula", path, "1501"), ("delay", path)):
            answer = self.ask(*words, "--arrivals", ",".join(map(str, late)), status=1)
            self.assertEqual(answer.out, "refused 10 0\n")
            count = len(document.pairs_of(made, late, 1501, 10 ** 9))
            self.assertIn(f"PAIRS: the formula for T=1501 has {count:,} pairs", answer.err)

    def test_one_output_late(self):
        """An output that is an input, later than all others; and an input that no output rests on."""
        path = self.file("c.txt", "input a b:500 c:9999\nd = BUF(a:3)\noutput d b\n")
        answer = self.ask("delay", path)
        self.assertEqual(answer.out, "delay 500\n")
        self.assertIn("The longest path adds up to 500, arrivals counted.", answer.err)


class Certificates(Asking):
    """Certificates with arrivals."""

    def setUp(self):
        super().setUp()
        self.late, self.made = self.file("late.txt", LATE_A), self.folder / "made.certificate"
        self.ask("delay", self.late, "-o", self.made)

    def test_written(self):
        """The line of arrivals is there where there are any, and names the late inputs."""
        lines = self.made.read_text().splitlines()
        self.assertEqual(lines[2:6], ["arrivals b=25", "delay 27", "vector a=1 b=0", "refutation 1"])
        for word in ("b=0", "0,0"):
            self.ask("delay", self.late, "--arrivals", word, "-o", self.made, "-f")
            self.assertNotIn("arrivals", self.made.read_text())
            self.assertEqual(self.ask("judge", A, self.made).out, "accepted\n")

    def test_changed(self):
        """Arrivals that are not the circuit's are refused, the circuit's own are not; slips are told by their line."""
        text = self.made.read_text()
        for old, new, status, wanted in CHANGES:
            self.assertIn(old, text)
            path = self.file("changed", text.replace(old, new))
            answer = self.ask("judge", self.late, path, status=status)
            self.assertIn(wanted, answer.err)
            if status == 1 and not wanted.startswith("W"):
                self.assertEqual((answer.out, answer.err), ("refused\n", f"{path}{wanted}\n"))

    def test_before_arrivals(self):
        """A certificate without the line is for inputs in time, as it was before there was one."""
        plain = self.folder / "plain.certificate"
        self.ask("delay", A, "-o", plain)
        self.assertEqual([line.split()[0] for line in plain.read_text().splitlines()],
                         ["buzzlumen", "netlist", "delay", "vector", "refutation", "0"])
        self.assertEqual(self.ask("judge", A, plain).out, "accepted\n")
        self.assertIn("is for other arrivals", self.ask("judge", self.late, plain, status=1).err)
        self.assertEqual(self.ask("judge", self.late, plain, "--arrivals", "b=0").out, "accepted\n")

    def test_netlist_file(self):
        """Beside a netlist file the arrivals are given; its certificate holds for the text, and the other way round."""
        data, plain = self.folder / "a.netlist", self.folder / "plain.certificate"
        self.ask("netlist", self.late, "-o", data)
        answer = self.ask("judge", data, self.made, status=1)
        self.assertEqual(answer.err, f"{self.made}: is for other arrivals: n1 arrives at 25 there, and at 0 here; a "
                         "netlist file holds no arrivals, --arrivals sets them\n")
        self.assertEqual(self.ask("judge", data, self.made, "--arrivals", "0,25").out, "accepted\n")
        self.ask("delay", data, "--arrivals", "n1=25", "-o", plain)
        self.assertIn("arrivals n1=25\n", plain.read_text())
        answer = self.ask("judge", self.late, plain)
        self.assertEqual((answer.out, answer.err.splitlines()[0]), ("accepted\n", "Arriving late: b at 25."))

    def test_three_parts(self):
        """Without a certificate the circuit's arrivals count, or those that are asked for."""
        empty = COURSE / "empty_clause.txt"
        words = ("--delay", "27", "--vector", "1,0", "--refutation", empty)
        self.assertEqual(self.ask("judge", self.late, *words).out, "accepted\n")
        self.assertEqual(self.ask("judge", A, *words, "--arrivals", "b=25").out, "accepted\n")
        answer = self.ask("judge", A, *words, status=1)
        self.assertEqual(answer.err, "WITNESS: the vector settles at 2, and the claim is 27.\n")

    def test_order_of_names(self):
        """Arrivals and vector are by name: the order on their lines is free."""
        path = self.file("two.txt", "input a:7 b:3 c\nd = XOR(a:1, b:2)\ne = XOR(d:1, c:1)\noutput e\n")
        made = self.folder / "two.certificate"
        self.ask("delay", path, "-o", made)
        text = made.read_text()
        vector = text.splitlines()[4]
        turned = text.replace("arrivals a=7 b=3", "arrivals b=3 a=7").replace(
            vector, "vector " + " ".join(reversed(vector.split()[1:])))
        self.assertNotEqual(text, turned)
        self.assertEqual(self.ask("judge", path, self.file("turned", turned)).out, "accepted\n")
        swapped = text.replace("arrivals a=7 b=3", "arrivals a=3 b=7")
        self.assertIn("a arrives at 3 there", self.ask("judge", path, self.file("swapped", swapped), status=1).err)


class Words(unittest.TestCase):
    """Arrivals as they are shown."""

    def test_late_inputs(self):
        """Those after 0 alone, in the inputs' order."""
        self.assertEqual(arrivals.late_inputs(["a", "b", "c", "d"], [0, 25, 3]), ["b=25", "c=3"])


if __name__ == "__main__":
    unittest.main()
