"""Replays the commands of Markdown pages in a fresh copy of the tree and compares what they print, letter by letter.

A page marks what is replayed by its fences:

    ```console          each line that starts with `$ ` is a command, run by bash in the copy's root; the lines after
                        it, up to the next command, are all it prints, standard output and standard error together
    ```c first.c        a fence with a second word is a file: it is written to the copy under that name

A command line that ends in a backslash goes on in the next. Every other fence is only for reading. Each page gets a
copy of its own: the whole tree, without what the kit keeps in out/ folders, and with what has been built in target/
linked into it. Where the machine is not x86-64,
`gcc` at a command's start is the cross compiler and a program in target/ is run under qemu, as README.md says.
Assumes bash.
"""

import difflib
import os
import pathlib
import re
import shlex
import shutil
import subprocess
import tempfile
from collections import namedtuple

import tools

ROOT = pathlib.Path(__file__).resolve().parents[1]
NOT_COPIED = (".git", "target", "out", "__pycache__")
LONGEST_SECONDS = 600

FENCE = re.compile(r"```(\S*)\s*(\S*)\s*$")

# A command with its page's line number, counted from 1, and the lines that it prints; a file to write.
Command = namedtuple("Command", "line text prints")
Written = namedtuple("Written", "name lines")

# What a page's command printed where it differs from the page.
Difference = namedtuple("Difference", "command printed")


# The page of the course that asks for rise and fall apart.
RISE_AND_FALL = ROOT / "docs/course/rise_and_fall.md"


def pages_of_course(archive):
    """The pages of the course whose questions an archive answers: the one on rise and fall only where it has these
    calls."""
    pages = sorted((ROOT / "docs/course").rglob("*.md"))
    return [page for page in pages if page != RISE_AND_FALL or tools.has_rise_fall(archive)]


def fences(lines):
    """Each fence: the line number of its first inner line, its two words, its inner lines."""
    inside = None
    for number, line in enumerate(lines, 1):
        fence = FENCE.match(line)
        if inside is None and fence:
            inside = (number + 1, fence[1], fence[2], [])
        elif inside is not None and line.rstrip() == "```":
            yield inside
            inside = None
        elif inside is not None:
            inside[3].append(line)
    if inside is not None:
        raise ValueError(f"line {inside[0] - 1}: the fence has no end")


def commands_in(first, lines):
    """The commands of a console fence."""
    commands, going_on = [], False
    for number, line in enumerate(lines, first):
        if going_on:
            last = commands.pop()
            commands.append(last._replace(text=last.text[:-1] + line))
        elif line.startswith("$ "):
            commands.append(Command(number, line[2:], []))
        elif commands:
            commands[-1].prints.append(line)
        else:
            raise ValueError(f"line {number}: a console fence starts with a command")
        going_on = not commands[-1].prints and commands[-1].text.endswith("\\")
    return commands


def steps_of(text):
    """What is replayed of a page, in order."""
    steps = []
    for first, word, name, lines in fences(text.splitlines()):
        if word == "console":
            steps += commands_in(first, lines)
        elif name:
            steps.append(Written(name, lines))
    return steps


def fresh_copy(folder):
    """The tree without its history, and links to what has been built."""
    copy = pathlib.Path(folder) / "copy"
    shutil.copytree(ROOT, copy, ignore=shutil.ignore_patterns(*NOT_COPIED))
    (copy / "target").mkdir()
    if (ROOT / "target").is_dir():
        for built in (ROOT / "target").iterdir():
            (copy / "target" / built.name).symlink_to(built)
    return copy


def for_this_machine(command):
    """A page's command, as it is to be written on this machine."""
    first, space, rest = command.partition(" ")
    if tools.is_native():
        return command
    if first == "gcc":
        return shlex.join(tools.compiler()) + space + rest
    if first.startswith("target/"):
        return shlex.join(tools.runner()) + " " + command
    return command


def printed_by(command, folder):
    """All that a command prints."""
    settings = dict(os.environ, LC_ALL="C.UTF-8", PYTHONDONTWRITEBYTECODE="1")
    ended = subprocess.run(["bash", "-c", command], cwd=folder, env=settings, stdin=subprocess.DEVNULL, check=False,
                           stdout=subprocess.PIPE, stderr=subprocess.STDOUT, timeout=LONGEST_SECONDS)
    return ended.stdout.decode(errors="replace")


def replay(text):
    """Replay a page; gives the number of its commands and the differences."""
    count, differences = 0, []
    with tempfile.TemporaryDirectory() as folder:
        copy = fresh_copy(folder)
        for step in steps_of(text):
            if isinstance(step, Written):
                (copy / step.name).write_text("".join(line + "\n" for line in step.lines))
                continue
            count += 1
            printed = printed_by(for_this_machine(step.text), copy)
            if printed != "".join(line + "\n" for line in step.prints):
                differences.append(Difference(step, printed))
    return count, differences


def shown(page, difference):
    """A difference as a person reads it: - is the page, + is what was printed."""
    command, printed = difference
    lines = list(difflib.unified_diff(command.prints, printed.splitlines(), n=1, lineterm=""))[2:]
    ending = [] if not printed or printed.endswith("\n") else ["(the last line has no end)"]
    return "\n".join([f"{page}:{command.line}: $ {command.text}"] + lines + ending)


def with_outputs(text, differences):
    """The page with what its commands print now in place of what it said."""
    lines = text.splitlines()
    for command, printed in reversed(differences):
        start = command.line
        while lines[start - 1].endswith("\\"):
            start += 1
        lines[start:start + len(command.prints)] = printed.splitlines()
    return "".join(line + "\n" for line in lines)
