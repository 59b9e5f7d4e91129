"""Outputs: nothing is overwritten unasked, a file is whole or not there, several circuits are several answers."""

import resource
import unittest

from asking import COURSE, Asking

A, B, C = (COURSE / f"circuit_{letter}.txt" for letter in "abc")


class Outputs(Asking):
    """What the command writes."""

    def copies(self):
        """Copies of two circuits."""
        return self.file("circuit_a.txt", A.read_bytes()), self.file("circuit_b.txt", B.read_bytes())

    def test_two_circuits(self):
        """Two circuits are two answers, and both files stay as they are."""
        one, two = self.copies()
        answer = self.ask("delay", one, two)
        self.assertEqual(answer.out, f"{one}: delay 2\n{two}: delay 5\n")
        self.assertEqual((one.read_bytes(), two.read_bytes()), (A.read_bytes(), B.read_bytes()))

    def test_worst_status(self):
        """Of several circuits the status is the worst, and the others are answered."""
        bad, refused = self.file("bad", "hello\n"), self.file("short", b"\0\1")
        self.assertEqual(self.ask("delay", A, refused, status=1).out, f"{A}: delay 2\n{refused}: refused 1 2\n")
        answer = self.ask("delay", bad, refused, B, status=2)
        self.assertEqual(answer.out, f"{refused}: refused 1 2\n{B}: delay 5\n")
        self.assertIn("is no statement", answer.err)

    def test_standing_files(self):
        """A file that stands is written over by --force alone, whichever command writes."""
        block = COURSE / "gateway/duplicate.json"
        for words in (("delay", A), ("formula", A, "3"), ("netlist", A), ("from-yosys", block)):
            kept = self.file("kept", "mine\n")
            answer = self.ask(*words, "-o", kept, status=2)
            self.assertEqual(answer.err, f"buzzlumen: {kept}: stands already; --force writes over it\n")
            self.assertEqual(kept.read_text(), "mine\n")
            self.ask(*words, "-o", kept, "--force")
            self.assertNotEqual(kept.read_bytes(), b"mine\n")

    def test_input_as_output(self):
        """A circuit named as the output of itself stays."""
        one, _ = self.copies()
        self.ask("netlist", one, "-o", one, status=2)
        self.ask("delay", one, "-o", one, status=2)
        self.assertEqual(one.read_bytes(), A.read_bytes())

    def test_folder_of_certificates(self):
        """Of several circuits -o is a folder, and each certificate has its circuit's name."""
        one, two = self.copies()
        made = self.folder / "certificates"
        self.ask("delay", one, two, "-o", made, status=2)
        made.mkdir()
        self.ask("delay", one, two, "-o", made)
        for circuit in (one, two):
            self.assertEqual(self.ask("judge", circuit, made / f"{circuit.stem}.certificate").out, "accepted\n")
        self.ask("delay", one, two, "-o", made, status=2)
        self.ask("delay", one, one, "-o", made, "-f", status=2)

    def test_whole_or_not_at_all(self):
        """Where the disk takes no more, nothing is left, and what stood there stands."""
        kept = self.file("kept", "mine\n")

        def no_room():
            resource.setrlimit(resource.RLIMIT_FSIZE, (16, 16))

        for words in (("netlist", A, "-o", kept, "-f"), ("netlist", A, "-o", self.folder / "new")):
            answer = self.ask(*words, status=3, preexec_fn=no_room)
            self.assertIn("File too large; nothing was written", answer.err)
        self.assertEqual(kept.read_text(), "mine\n")
        self.assertEqual([path.name for path in self.folder.iterdir()], ["kept"])

    def test_places(self):
        """An output in no folder, in a file, or that is a folder."""
        self.ask("netlist", A, "-o", self.folder / "no" / "file", status=2)
        self.ask("netlist", A, "-o", self.file("file", "") / "below", status=2)
        self.assertIn("is a folder", self.ask("netlist", A, "-o", self.folder, status=2).err)
        self.ask("netlist", A, "-o", "/dev/full", status=3)
        self.ask("netlist", A, "-o", "/dev/null")

    def test_full_standard_output(self):
        """A full disk behind standard output is something of the machine."""
        for words in ((), ("--help",), ("--version",), ("times", A, "01"), ("times", A, "0"), ("formula", A, "3"),
                      ("delay", A), ("netlist", A), ("man",), ("completion",), ("explain-refusal", "15")):
            with open("/dev/full", "wb") as full:
                answer = self.ask(*words, status=3, stdout=full)
            self.assertIn("No space left on device", answer.err)


if __name__ == "__main__":
    unittest.main()
