"""The tree of subcommands as argparse has it: reads the command's words, and prints help and slips."""

import argparse

from . import __version__
from .arguments import COMMANDS

STATUS = """exit status:
  0  an answer            2  a slip in what was asked: a word, a file that does not read, an output that stands already
  1  a refusal            3  something of the machine: no solver, no library, no room on the disk
  Of several circuits, the largest. An interrupt ends with 130."""

DESCRIPTION = """The true delay of a circuit, with a certificate that anyone can check, by a library that is proved.
Answers go to standard output, the same in plain words to standard error."""


class Wide(argparse.RawDescriptionHelpFormatter):
    """Help as it is written, as wide on every terminal."""

    def __init__(self, prog):
        super().__init__(prog, max_help_position=28, width=110)


def parser():
    """The tree of subcommands."""
    whole = argparse.ArgumentParser(prog="buzzlumen", description=DESCRIPTION, epilog=STATUS, formatter_class=Wide,
                                    allow_abbrev=False)
    whole.add_argument("--version", action="version", version=f"buzzlumen {__version__}")
    below = whole.add_subparsers(dest="command", metavar="COMMAND", title="commands")

    def add(name, says, example):
        sentence = says[0].upper() + says[1:] + ("" if says.endswith("?") else ".")
        return below.add_parser(name, help=says, description=sentence, epilog=f"example:\n  {example}",
                                formatter_class=Wide, allow_abbrev=False)

    for command in COMMANDS:
        command(add)
    return whole
