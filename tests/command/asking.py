"""Asks the command as a person does, in a folder of its own, and holds what every answer must be.

Whatever is asked, the status is one of the four, and no line is a traceback. Assumes the archive in target/ and cadical
and picosat on the PATH; tests/parts/command sees to that.
"""

import os
import pathlib
import shutil
import subprocess
import sys
import tempfile
import unittest
from collections import namedtuple

ROOT = pathlib.Path(__file__).resolve().parents[2]
COURSE = ROOT / "docs/course"
COMMAND = [sys.executable, "-IS", str(ROOT / "buzzlumen")]
LONGEST_SECONDS = 120

for folder in (ROOT / "tests", ROOT / "command"):
    sys.path.insert(0, str(folder))

# An answer: the exit status, what went to standard output and what to standard error.
Answer = namedtuple("Answer", "status out err")


def run(words, **options):
    """Ask; the answer as it came."""
    settings = {"stdin": subprocess.DEVNULL, "stdout": subprocess.PIPE, "stderr": subprocess.PIPE, "check": False,
                "timeout": LONGEST_SECONDS}
    settings.update(options)
    if "input" in settings:
        del settings["stdin"]
    ended = subprocess.run(COMMAND + [os.fsdecode(word) for word in words], **settings)
    return Answer(ended.returncode, ended.stdout, ended.stderr.decode(errors="replace") if ended.stderr else "")


class Asking(unittest.TestCase):
    """A test that asks the command in a folder of its own."""

    def setUp(self):
        self.folder = pathlib.Path(tempfile.mkdtemp(prefix="asking-"))
        self.addCleanup(shutil.rmtree, self.folder, ignore_errors=True)

    def file(self, name, content):
        """A file in the folder."""
        path = self.folder / name
        path.write_bytes(content if isinstance(content, bytes) else content.encode())
        return path

    def solver(self, script, name="cadical"):
        """A folder for the PATH in which a shell script stands for a solver."""
        folder = self.folder / f"path_{len(os.listdir(self.folder))}"
        folder.mkdir()
        program = folder / name
        program.write_text("#!/bin/sh\n" + script)
        program.chmod(0o755)
        return folder

    def without_solver(self):
        """A folder for the PATH that has qemu at most."""
        folder = self.folder / "path"
        folder.mkdir(exist_ok=True)
        for place in ("/usr/bin/qemu-x86_64", "/bin/qemu-x86_64"):
            if pathlib.Path(place).exists() and not (folder / "qemu-x86_64").exists():
                (folder / "qemu-x86_64").symlink_to(place)
        return folder

    def environment(self, **variables):
        """The environment with some variables changed."""
        return {**os.environ, **{name: str(value) for name, value in variables.items()}}

    def ask(self, *words, status=0, **options):
        """Ask; the answer has this status, and no line is a traceback."""
        answer = run(words, **options)
        self.assertNotIn("Traceback", answer.err, words)
        self.assertNotIn("a fault of the command's own", answer.err, words)
        self.assertEqual(answer.status, status, (words, (answer.out or b"")[:300], answer.err[:600]))
        return Answer(answer.status, (answer.out or b"").decode(errors="replace"), answer.err)
