"""The start of the command: plain words are read as argparse reads them, and little of Python's library is loaded."""

import contextlib
import io
import re
import subprocess
import sys
import unittest

import methods
from asking import COURSE, ROOT, Asking
from buzzlumen.manual import subcommands
from buzzlumen.plain import read_plain
from buzzlumen.tree import parser
from document import write_netlist

# Words out of which lines are drawn: right ones, wrong ones, and ways of writing that only argparse reads.
COMMANDS = ("times", "formula", "check", "judge", "delay", "explain-refusal", "netlist", "from-yosys", "man", "", "--")
WORDS = ("a.txt", "b.txt", "3", "0,1", "a=0", "-o", "--output", "-f", "--force", "--names", "--delay", "--vector",
         "--refutation", "--solver", "--seconds", "--figures", "--text", "--bytes", "--delays", "--top", "cadical", "-",
         "--arrivals", "b=25", "--arrivals=0,25", "--falls", "5,1,1",
         "--", "-1", "-x", "", "--out", "--output=made", "-omade", "-fo", "two words", "-two words", "-h", "--version")
LINES, MOST_WORDS = 6000, 7

PLAIN = ("delay a.txt", "delay a.txt b.txt --figures", "delay a.txt --solver cadical --seconds 5 -o made -f",
         "times a.txt", "times a.txt 0,1", "formula a.txt 3 --names", "check a.cnf b.txt", "judge a.txt made",
         "delay a.txt --arrivals b=25", "times a.txt 0,1 --arrivals 0,25", "judge a.txt made --arrivals b=25",
         "delay a.txt --falls 5,1,1", "judge a.txt --falls 5,1,1 made",
         "times a.txt --arrivals 0,25 0,1", "judge a.txt --arrivals b=25 made", "delay a.txt -o made b.txt",
         "explain-refusal refused 15 1", "from-yosys a.json --delays d.txt", "man")

# Parts of Python's library that take a millisecond or more to load, each with what it loads.
SLOW = {"argparse", "ast", "contextlib", "dataclasses", "enum", "functools", "gettext", "hashlib", "inspect", "json",
        "locale", "pathlib", "re", "selectors", "shutil", "signal", "subprocess", "tempfile", "threading", "typing"}


def by_argparse(words):
    """What argparse reads out of some words; where it finds a slip, what it reads where options may stand between the
    words; None where that is a slip too, or help."""
    with contextlib.redirect_stdout(io.StringIO()), contextlib.redirect_stderr(io.StringIO()):
        try:
            return vars(parser().parse_args(words))
        except SystemExit:
            pass
        try:
            below = {name: each for name, each, _ in subcommands(parser())}
            return {"command": words[0], **vars(below[words[0]].parse_intermixed_args(words[1:]))}
        except (SystemExit, KeyError):
            return None


class Words(unittest.TestCase):
    """The command's words."""

    def test_as_argparse_reads(self):
        """What is read without argparse is what argparse reads."""
        dice, plain = methods.Dice(1, 31), 0
        for _ in range(LINES):
            words = [dice.choice(COMMANDS)] + [dice.choice(WORDS) for _ in range(dice.randrange(MOST_WORDS))]
            asked = read_plain(words)
            if asked is not None:
                self.assertEqual(vars(asked), by_argparse(words), words)
                plain += 1
        self.assertGreater(plain, LINES // 50)

    def test_plain(self):
        """What is asked every day is read without argparse; help is not, nor is a slip."""
        for line in PLAIN:
            self.assertIsNotNone(read_plain(line.split()), line)
        for line in ("", "-h", "delay", "delay -h", "delay a.txt --solver", "formula a.txt -f", "nothing"):
            self.assertIsNone(read_plain(line.split()), line)


class Loading(Asking):
    """What Python loads."""

    def test_delay_loads_little(self):
        """Neither a text nor a netlist file needs a slow part of Python's library to have its delay found, late inputs
        or none."""
        large = self.file("large.netlist", write_netlist(methods.random_netlist(methods.Dice(1, 3), 12, 60)))
        for path, late in ((COURSE / "circuit_c.txt", []), (large, []), (COURSE / "circuit_c.txt", ["b=25"]),
                           (large, ["n0=25"])):
            words = [sys.executable, "-IS", "-X", "importtime", ROOT / "buzzlumen", "delay", path, "--figures",
                     *["--arrivals"] * len(late), *late]
            ended = subprocess.run(words, capture_output=True, text=True, check=True, timeout=60)
            loaded = set(re.findall(r"^import time:.*\| +(\S+)$", ended.stderr, flags=re.M))
            self.assertIn("buzzlumen.search", loaded)
            self.assertEqual(loaded & SLOW, set())


if __name__ == "__main__":
    unittest.main()
