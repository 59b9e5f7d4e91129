"""Circuits: the text format and its mistakes, netlist files, vectors, and files known by their content."""

import unittest

import document
import methods
from asking import COURSE, Asking
from buzzlumen import circuit, netlist, refusals
from document import write_netlist

CIRCUIT_A = bytes.fromhex("""
01 01 00 00 03 02 01 00 05 02 03 00
00 00 03 00 02 00 01 00 01 00 01 00 03 00 01 00 01 00 01 00
04 00  22 00 00 00 02 00 03 00 05 00 01 00 01 00""")

# A text, and what is said of it behind the file's name.
MISTAKES = (
    ("input a\nb = BUF(a)\n", "line 2: `a` is no pin; a pin is a name, a colon and a delay, as b:1"),
    ("input a\nb = BUF(a:1000)\n", "line 2: the delay `1000` of pin a is over 999"),
    ("input a\nb = BUF(a:x)\n", "line 2: `a:x` is no pin; a pin is a name, a colon and a delay, as b:1"),
    ("input a b:\n",
     "line 1: `b:`: an arrival is a number from 0 to 9999 right behind the colon, as b:25"),
    ("input a\ninput b:-3\n",
     "line 2: `b:-3`: an arrival is a number from 0 to 9999 right behind the colon, as b:25"),
    ("input a b: 25\n", "line 1: `b:`: an arrival is a number from 0 to 9999 right behind the colon, as b:25"),
    ("input a:soon b\n",
     "line 1: `a:soon`: an arrival is a number from 0 to 9999 right behind the colon, as b:25"),
    ("input a:2.5 b\n", "line 1: `a:2.5`: an arrival is a number from 0 to 9999 right behind the colon, as b:25"),
    ("input a:3,b:25\n", "line 1: `a:3,b:25`: a name holds no colon, one arrival stands behind it, as b:25, and "
     "blanks part the inputs"),
    ("input a b:c:25\n", "line 1: `b:c:25`: a name holds no colon, one arrival stands behind it, as b:25, and blanks "
     "part the inputs"),
    ("input a b=25\n", "line 1: `b=25`: in a circuit's text an arrival stands behind a colon, as b:25"),
    ("input a :25\n", "line 1: `:25` is no name: blanks and ( ) , : = # are kept for the format"),
    ("input a b=c\n", "line 1: `b=c` is no name: blanks and ( ) , : = # are kept for the format"),
    ("input a:3 a:5\n", "line 1: a is named twice"),
    ("input a:" + "9" * 5000 + "\n", "line 1: `a:" + "9" * 58 + "...`: an arrival is a number from 0 to 9999 right "
     "behind the colon, as b:25"),
    ("input a b:25\nc = BUF(b:25:3)\n", "line 2: `b:25:3` is no pin; a pin is a name, a colon and a delay, as b:1"),
    ("input a b:25\noutput b:25\n", "line 2: b:25 is no input and no gate of a line above"),
    ("input a\nb = BUF(b:1)\n", "line 2: b is no input and no gate of a line above"),
    ("input a\n\nb = AND(a:1)\n", "line 3: AND takes 2 to 8 pins and has 1"),
    ("input a\nb = XOR(a:1, a:1, a:1)\n", "line 2: XOR takes 2 pins and has 3"),
    ("input a\nb = NOP(a:1)\n", "line 2: `NOP` is no kind of gate; the kinds are BUF NOT AND NAND OR NOR XOR XNOR MUX"),
    ("input a a\n", "line 1: a is named twice"),
    ("input a,b\n", "line 1: `a,b` is no name: blanks and ( ) , : = # are kept for the format"),
    ("input a\x1b[2J\n", "line 1: `a\\x1b[2J` is no name: blanks and ( ) , : = # are kept for the format"),
    ("input a\nb = BUF(a:1)\ninput c\n", "line 3: inputs come before the first gate"),
    ("input a\noutput a\noutput a\n", "line 3: a is an output already"),
    ("input a\noutput b\n", "line 2: b is no input and no gate of a line above"),
    ("input a\n", "line 1: the circuit has no output"),
    ("# nothing\n", "line 1: the circuit has no input"),
    ("input a\nhello\n", "line 2: `hello` is no statement; write input NAME, NAME = KIND(NAME:DELAY, ...) or "
     "output NAME"),
    ("input " + " ".join(f"i{number}" for number in range(65)), "line 1: more than 64 inputs"),
    ("input a\nb = BUF(a:" + "9" * 5000 + ")\n", "line 2: the delay `" + "9" * 60 + "...` of pin a is over 999"),
)

# A vector for circuit A as it is written, the status, and the words.
VECTORS = (
    (["0,1"], 0, "With a=0 b=1: n4 settles to 1 at 1. The circuit settles at 1.\n"),
    (["01"], 0, "With a=0 b=1: n4 settles to 1 at 1. The circuit settles at 1.\n"),
    (["a=0", "b=1"], 0, "With a=0 b=1: n4 settles to 1 at 1. The circuit settles at 1.\n"),
    (["b=1,a=0"], 0, "With a=0 b=1: n4 settles to 1 at 1. The circuit settles at 1.\n"),
    (["0"], 1, "VECTOR: 1 value for 2 inputs.\n"),
    (["0,0,0"], 1, "VECTOR: 3 values for 2 inputs.\n"),
    (["0,7"], 1, "VECTOR: b has the value 7, and a value is 0 or 1.\n"),
    (["a=0"], 2, "buzzlumen: no value for b\n"),
    (["a=0", "a=1"], 2, "buzzlumen: a has its value twice\n"),
    (["a=0", "c=1"], 2, "buzzlumen: `c` is no input; the inputs are a b\n"),
    (["a=0", "b=x"], 2, "buzzlumen: `b=x` is no input and its value, as a=0\n"),
    (["x"], 2, "buzzlumen: a vector is one value for each input, as 0,1 or 01 or a=0 b=1, not `x`\n"),
    (["9" * 5000 + ",1"], 2, "buzzlumen: a vector is one value for each input, as 0,1 or 01 or a=0 b=1, not `"
     + "9" * 60 + "...`\n"),
)

# Bytes of circuit A with some changed, and the cause that is told.
DAMAGES = (
    (lambda data: data[:9], "SHORT: a netlist file has at least 14 bytes, and this has 9."),
    (lambda data: data[:-2] + b"\2\0", "VERSION: the file's last two bytes say version 2, and 1 is known."),
    (lambda data: data[:-10] + b"\0\0" + data[-8:], "COUNT: 0 inputs, and 1 to 64 may be."),
    (lambda data: data[:-14] + b"\x21" + data[-13:],
     "BACK: the trailer points 33 bytes back, and its counts ask for 34."),
    (lambda data: data[20:], "BACK: the trailer points 34 bytes back, and only 14 stand before it."),
    (lambda data: b"\x0c" + data[1:], "GATE: gate 0 (node 2) has kind 12, and 1 to 9 are known."),
    (lambda data: b"\3" + data[1:], "GATE: gate 0 (node 2) is of kind AND with 1 pin, and 2 to 8 may be."),
    (lambda data: data[:6] + b"\2" + data[7:],
     "GATE: gate 1 (node 3) says that its first pin is 2, and 1 stand before it."),
    (lambda data: data[:9] + b"\3" + data[10:], "GATE: the gates have 6 pins together, and the trailer says 5."),
    (lambda data: data[:12] + b"\2" + data[13:],
     "PIN: pin 0 belongs to node 2 and is driven by node 2, which is not below it."),
    (lambda data: data[:14] + b"\xe8\3" + data[16:], "PIN: pin 0, of node 2, has delay 1000, over 999."),
    (lambda data: data[:32] + b"\5" + data[33:], "OUTPUT: output 0 is node 5, and the last node is 4."),
)


class Circuits(Asking):
    """The text format and netlist files."""

    def test_text_and_bytes(self):
        """Circuit A's bytes; every circuit's text draws the same circuit, its arrivals included."""
        made = self.folder / "a.netlist"
        self.ask("netlist", COURSE / "circuit_a.txt", "-o", made)
        self.assertEqual(made.read_bytes(), CIRCUIT_A)
        for seed in range(100):
            drawn = netlist.read_netlist(write_netlist(methods.random_netlist(methods.Dice(seed))))
            names, arrivals = circuit.plain_names(drawn), methods.random_arrivals(methods.Dice(seed, 4), drawn.inputs)
            again = circuit.read_text(circuit.write_text(drawn, arrivals, names))
            self.assertEqual(again, (drawn, arrivals, [1] * drawn.inputs, names))
            self.assertEqual(write_netlist(methods.random_netlist(methods.Dice(seed))), netlist.write_netlist(drawn))

    def test_back_to_text(self):
        """A netlist file becomes text and the same netlist file again."""
        data = self.file("a.bin", CIRCUIT_A)
        text = self.ask("netlist", data).out
        self.assertEqual(text, "input n0 n1\nn2 = BUF(n0:3)\nn3 = AND(n2:1, n1:1)\nn4 = OR(n3:1, n1:1)\noutput n4\n")
        self.assertEqual(self.ask("netlist", "-", "--text", input=CIRCUIT_A).out, text)
        self.ask("netlist", self.file("again", text), "--bytes", "-o", self.folder / "again.bin")
        self.assertEqual((self.folder / "again.bin").read_bytes(), CIRCUIT_A)

    def test_mistakes(self):
        """Each mistake in a text is told by its line."""
        for text, wanted in MISTAKES:
            path = self.file("c.txt", text)
            self.assertEqual(self.ask("delay", path, status=2).err, f"buzzlumen: {path}, {wanted}\n")

    def test_damaged_netlists(self):
        """The cause of each refusal of a netlist file is told."""
        for damage, wanted in DAMAGES:
            path = self.file("a.netlist", damage(CIRCUIT_A))
            answer = self.ask("times", path, "01", status=1)
            self.assertEqual(answer.err, f"{path}: {wanted}\n")
            refused = document.evaluate(damage(CIRCUIT_A), [0, 0], [0, 1], 512, 512)[0]
            self.assertEqual(answer.out, f"refused {refused.number} {refused.place}\n")

    def test_table(self):
        """The table of refusals has the rules' names at the rules' numbers."""
        for number, (name, _, _) in refusals.TABLE.items():
            self.assertEqual(number, getattr(document, name))

    def test_vectors(self):
        """A vector in each of its three forms; results by name; the cause where it is refused."""
        for words, status, wanted in VECTORS:
            answer = self.ask("times", COURSE / "circuit_a.txt", *words, status=status)
            self.assertEqual(answer.err, wanted)
            if status == 0:
                self.assertEqual(answer.out, "settled 1\na 0 0\nb 1 0\nn2 0 3\nn3 0 4\nn4 1 1\n")

    def test_known_by_content(self):
        """A circuit under any name, with a byte order mark, with other line ends; a folder; a file of 100 MB."""
        text = (COURSE / "circuit_a.txt").read_bytes()
        forms = {"A.TXT": text, "a.net": text, "a": CIRCUIT_A, "mark": b"\xef\xbb\xbf" + text, "a.txt": CIRCUIT_A,
                 "crlf": text.replace(b"\n", b"\r\n"), "cr": text.replace(b"\n", b"\r"), "a.json": text,
                 "note": b"a note " * 1000 + CIRCUIT_A}
        for name, content in forms.items():
            self.assertEqual(self.ask("delay", self.file(name, content)).out, "delay 2\n", name)
        for name, content, wanted in (
                ("utf16", text.decode().encode("utf-16"), "is text in UTF-16; save it as UTF-8"),
                ("latin", b"input \xfc\n", "line 1: is no text in UTF-8, from byte 7 on"),
                ("empty", b"", "is empty"), ("j", b"{}", "is JSON, not a circuit; convert it by: buzzlumen from-yosys"),
                ("f", b"c a\np cnf 0 0\n", "is a formula (DIMACS), not a circuit"),
                ("c", b"buzzlumen certificate 1\n", "is a certificate, not a circuit")):
            self.assertIn(wanted, self.ask("delay", self.file(name, content), status=2).err)
        self.assertIn("is a folder, not a file", self.ask("delay", self.folder, status=2).err)
        large = self.folder / "large"
        with open(large, "wb") as file:
            file.truncate(100 * 2 ** 20)
        self.assertIn("is larger than 64 MiB, the most that is read here", self.ask("delay", large, status=2).err)
        self.assertIn("is larger than 1 MiB", self.ask("delay", self.file("long", "# " + "x" * 2 ** 20), status=2).err)


if __name__ == "__main__":
    unittest.main()
