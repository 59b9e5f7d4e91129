"""A certificate is one file: written by `delay -o`, read by `judge`, refused for another circuit."""

import unittest

import methods
from asking import COURSE, Asking
from document import write_netlist

A, B = COURSE / "circuit_a.txt", COURSE / "circuit_b.txt"


class Certificates(Asking):
    """Certificates, written and read."""

    def certificate(self, circuit):
        """A circuit's certificate."""
        path = self.folder / "made.certificate"
        self.ask("delay", circuit, "-o", path, "-f")
        return path

    def test_circuit_a(self):
        """Circuit A's certificate, line by line; it holds for the text and for the netlist file."""
        made = self.certificate(A)
        first, digest, *rest = made.read_text().splitlines()
        self.assertEqual(first, "buzzlumen certificate 1")
        self.assertRegex(digest, r"^netlist sha256 [0-9a-f]{64}$")
        self.assertEqual(rest, ["delay 2", "vector a=0 b=0", "refutation 1", "0"])
        netlist = self.folder / "a.netlist"
        self.ask("netlist", A, "-o", netlist)
        with_note = self.file("note", b"a note" + netlist.read_bytes())
        for circuit in (A, netlist, with_note):
            self.assertEqual(self.ask("judge", circuit, made).out, "accepted\n")
        plain = self.certificate(netlist)
        self.assertIn("vector n0=0 n1=0\n", plain.read_text())
        self.assertEqual(self.ask("judge", A, plain).out, "accepted\n")

    def test_another_circuit(self):
        """A certificate for another circuit is refused by its digest, also where only one delay differs."""
        made = self.certificate(A)
        answer = self.ask("judge", B, made, status=1)
        self.assertEqual(answer.out, "refused\n")
        self.assertIn("is for another circuit", answer.err)
        other = self.file("other", A.read_text().replace("n3:1", "n3:2"))
        self.ask("judge", other, made, status=1)

    def test_changed(self):
        """A changed delay, vector or refutation is refused with its cause."""
        text = self.certificate(COURSE / "circuit_c.txt").read_text()
        circuit, steps = COURSE / "circuit_c.txt", text.partition("refutation ")[2].splitlines()
        for old, new, wanted in (
                ("delay 2", "delay 5", "WITNESS: the vector settles at 2, and the claim is 5."),
                ("b=0", "b=1", "WITNESS: the vector settles at"),
                ("\n" + "\n".join(steps[1:]) + "\n", "\n" + "0\n" * (len(steps) - 1), "LAST: ")):
            changed = self.file("changed", text.replace(old, new))
            answer = self.ask("judge", circuit, changed, status=0 if old == "b=0" else 1)
            if answer.status:
                self.assertIn(wanted, answer.err)
        shorter = text.replace(f"refutation {steps[0]}\n{steps[1]}\n", f"refutation {int(steps[0]) - 1}\n")
        answer = self.ask("judge", circuit, self.file("gap", shorter), status=1)
        self.assertIn("doesn't follow", answer.err)

    def test_order_of_inputs(self):
        """The vector is by name: its order on the line is free; a name that the circuit lacks is refused."""
        text = self.certificate(COURSE / "circuit_c.txt").read_text()
        turned = text.replace("vector a=0 b=0 c=0 d=0", "vector d=0 c=0 b=0 a=0")
        self.assertNotEqual(text, turned)
        self.ask("judge", COURSE / "circuit_c.txt", self.file("turned", turned))
        named = self.file("named", text.replace("d=0", "e=0"))
        self.assertIn("its vector does not name the circuit's inputs, as e shows",
                      self.ask("judge", COURSE / "circuit_c.txt", named, status=1).err)

    def test_grammar(self):
        """Lines that are unknown, doubled, missing or wrong are told by name; so is a certificate that is cut off."""
        text = self.certificate(A).read_text()
        for old, new, wanted in (
                ("certificate 1", "certificate 2", "line 1: `buzzlumen certificate 2`: only `buzzlumen certificate 1` "
                 "is known"),
                ("delay 2\n", "delay 2\nearly a=3\n", "line 4: `early` is no line of a certificate of version 1; known "
                 "are netlist arrivals "),
                ("delay 2\n", "delay 2\ndelay 2\n", "line 4: delay stands here for the second time"),
                ("delay 2\n", "", "the certificate has no line delay"),
                ("delay 2", "delay two", "line 3: a delay is a number"),
                ("delay 2", "delay " + "2" * 5000, "line 3: a delay is a number"),
                ("sha256 ", "sha1 ", "line 2: a digest is sha256 and 64 hexadecimal digits"),
                ("a=0", "a=2", "line 4: a vector names each input and its value, 0 or 1"),
                ("a=0", "b=0", "line 4: an input has a value twice"),
                ("refutation 1", "refutation 2", "the certificate says 2 steps and has 1"),
                ("refutation 1", "refutation 0", "refutation is followed by its number of steps"),
                ("\n0\n", "\n", "the certificate says 1 step and has 0"),
                ("\n0\n", "\n1 0 0\n", "is no step: one clause and a 0 behind it"),
                ("\n0\n", "\nx 0\n", "`x 0` is no row of numbers")):
            self.assertIn(old, text)
            answer = self.ask("judge", A, self.file("changed", text.replace(old, new)), status=2)
            self.assertIn(wanted, answer.err)
        for cut in range(1, len(text) - 1, 7):
            self.ask("judge", A, self.file("cut", text[:cut]), status=2)
        self.ask("judge", A, self.file("commented", text.replace("\n", " # so\n")))

    def test_words(self):
        """A certificate or its three parts, and nothing between."""
        made = self.certificate(A)
        self.ask("judge", A, status=2)
        self.ask("judge", A, "--delay", "2", status=2)
        self.ask("judge", A, made, "--delay", "2", status=2)
        self.ask("judge", A, A, status=2)

    def test_random_circuits(self):
        """Certificates of many circuits hold for their own circuit and for no other."""
        made = self.folder / "made"
        made.mkdir()
        paths = [self.file(f"{seed}.netlist", write_netlist(methods.random_netlist(methods.Dice(seed), 5, 10)))
                 for seed in range(12)]
        self.ask("delay", *paths, "-o", made)
        for place, path in enumerate(paths):
            own, other = made / f"{path.stem}.certificate", made / f"{paths[place - 1].stem}.certificate"
            self.assertEqual(self.ask("judge", path, own).out, "accepted\n")
            if path.read_bytes() != paths[place - 1].read_bytes():
                self.ask("judge", path, other, status=1)


if __name__ == "__main__":
    unittest.main()
