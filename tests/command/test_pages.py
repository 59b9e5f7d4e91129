"""The words of the command: its list, help, man page, completion, refusals in words; and that all lines are narrow."""

import os
import re
import shutil
import subprocess
import unittest

from asking import COURSE, ROOT, Asking
from buzzlumen import refusals

COMMANDS = ("times", "formula", "check", "judge", "delay", "explain-refusal", "netlist", "from-yosys", "completion",
            "man")
WIDEST = 120


class Pages(Asking):
    """What is read before anything is asked."""

    def test_list(self):
        """The command alone shows the list and ends with 0."""
        answer = self.ask()
        for name in COMMANDS:
            self.assertIn(f"\n    {name}", answer.out)
        self.assertEqual(self.ask("--help").out, answer.out)
        self.assertRegex(self.ask("--version").out, r"^buzzlumen \d+\.\d+\n$")

    def test_help(self):
        """Every subcommand has its help, with an example."""
        for name in COMMANDS:
            self.assertIn("\nexample:\n  ", self.ask(name, "--help").out)

    def test_usage(self):
        """A slip in the words ends with 2."""
        for words in (("nothing",), ("times",), ("formula", "x"), ("--nothing",), ("delay", "--nothing"),
                      ("netlist", "x", "--text", "--bytes"), ("delay", "x", "-o"), ("judge",)):
            self.assertIn("usage: buzzlumen", self.ask(*words, status=2).err)

    def test_man_page(self):
        """The man page is without a warning and names every subcommand and option."""
        page = self.file("buzzlumen.1", self.ask("man").out)
        for command in (["man", "--warnings", "-l", page], ["mandoc", "-Tlint", "-W", "warning", page]):
            if shutil.which(command[0]) is None:
                continue
            ended = subprocess.run(command, stdout=subprocess.PIPE, stderr=subprocess.PIPE, text=True, check=False,
                                   env=self.environment(LC_ALL="C.UTF-8", MANWIDTH="100"))
            self.assertEqual((ended.returncode, ended.stderr), (0, ""), command)
            if command[0] == "mandoc":
                self.assertEqual(ended.stdout, "")
        text = subprocess.run(["mandoc", "-Tascii", page], stdout=subprocess.PIPE, text=True, check=True).stdout
        text = re.sub(".\b", "", text)
        for name in COMMANDS:
            for option in re.findall(r"^  (-[\w-]+)", self.ask(name, "--help").out, flags=re.M):
                self.assertTrue(option == "-h" or option in text, option)
            self.assertIn(f"\n   {name}\n", text)

    def test_completion(self):
        """bash reads the completion, and it gives subcommands, options, solvers and files."""
        script = self.file("completion", self.ask("completion").out)
        for line, wanted in (("buzzlumen ti", ["times"]), ("buzzlumen delay --so", ["--solver"]),
                             ("buzzlumen delay --solver c", ["cadical"]),
                             (f"buzzlumen times {COURSE}/circuit_a", [f"{COURSE}/circuit_a.txt"]),
                             ("buzzlumen judge --", ["--delay", "--vector", "--refutation", "--arrivals", "--falls",
                                                      "--help"])):
            words = line.split(" ")
            program = (f"source {script}; COMP_WORDS=({' '.join(words)}); COMP_CWORD={len(words) - 1}; _buzzlumen; "
                       "printf '%s\\n' \"${COMPREPLY[@]}\"")
            ended = subprocess.run(["bash", "-c", program], stdout=subprocess.PIPE, stderr=subprocess.PIPE, text=True,
                                   check=True)
            self.assertEqual((ended.stdout.split(), ended.stderr), (wanted, ""))

    def test_explain_refusal(self):
        """Each refusal in words, by its line, its numbers or its name."""
        for number, (name, when, _) in refusals.TABLE.items():
            for words in ((f"refused {number} 3",), ("refused", str(number), "3"), (str(number), "3"), (str(number),),
                          (name,), (name.lower(),)):
                self.assertTrue(self.ask("explain-refusal", *words).out.startswith(f"{name}: {when}."))
        for words in (("refused 0 1",), ("refused 99 1",), ("hello",), ("1", "2", "3"), ("-1", "2"), ("",)):
            self.ask("explain-refusal", *words, status=2)

    def test_no_tests_inside(self):
        """The package rests on the standard library alone, and its lines and the tests' are narrow."""
        for path in sorted([*ROOT.glob("command/**/*.[pch]*"), *ROOT.glob("tests/command/*.py"), ROOT / "buzzlumen"]):
            if "__pycache__" in path.parts or path.is_dir():
                continue
            text = path.read_text()
            self.assertLessEqual(max(len(line) for line in text.splitlines() or [""]), WIDEST, path)
            if path.is_relative_to(ROOT / "command"):
                self.assertIsNone(re.search(r"^\s*(from|import) (document|methods|tools|solvers|tests)\b", text,
                                            flags=re.M), path)
        self.assertTrue(os.access(ROOT / "buzzlumen", os.X_OK))


if __name__ == "__main__":
    unittest.main()
