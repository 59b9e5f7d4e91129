"""No traceback: closed pipes, interrupts, solvers that fail, numbers without end, a machine that lacks something."""

import os
import pathlib
import re
import shutil
import signal
import subprocess
import time
import unittest
from unittest import mock

import large_circuits
import tools
from asking import COMMAND, COURSE, ROOT, Asking
from buzzlumen.machine import Process
from document import write_netlist

A = COURSE / "circuit_a.txt"
LONG = "9" * 5000

# A script that stands for cadical, and what is said of it. Its last two words are the formula and the refutation.
SOLVERS = (
    ("exit 1", "cadical ended with status 1 and no answer; it said: nothing"),
    ("echo out of memory; exit 2", "cadical ended with status 2 and no answer; it said: `out of memory`"),
    ("exit 0", "cadical ended with status 0 and no answer"),
    ("kill -9 $$", "cadical ended with status -9 and no answer"),
    ("exit 10", "cadical gave a model for T=3 that does not settle there"),
    ("echo s SATISFIABLE; echo v 1 -2 3 0; exit 10", "cadical gave a model for T=3 that does not settle there"),
    ("echo v " + LONG + " 0; exit 10", "cadical gave a model for T=3 that does not settle there"),
    ("for last; do :; done; echo nonsense > $last; exit 20", "cadical wrote no refutation that can be read"),
    ("for last; do :; done; echo 1 0 > $last; exit 20", "what was found by cadical is refused: STEP"),
    ("for last; do :; done; echo " + LONG + " 0 > $last; exit 20", "what was found by cadical is refused: REFUTATION"),
)

# Sources of archives that do not belong to the header: functions that do nothing, that break off, that have the
# parameters of a time before there were arrivals. DECLARED becomes the header's other functions.
NOTHING = "#include <stdlib.h>\nDECLARED"
BREAKS_OFF = "#include <stdlib.h>\n#define BODY abort();\nDECLARED"
WITHOUT_ARRIVALS = """#include <stdint.h>
#include <string.h>
typedef struct { uint32_t number, time; uint64_t place; } evaluated;
evaluated buzzlumen_evaluate(const uint8_t *netlist, size_t netlist_length, const uint8_t *vector, size_t vector_length,
                             uint8_t *values, size_t values_length, uint32_t *times, size_t times_length)
{
    memset(values, 0, values_length);
    memset(times, 0, times_length * sizeof *times);
    return (evaluated){0, 6, 0};
}
DECLARED"""
NO_JUDGE = NOTHING.replace("DECLARED", "#define buzzlumen_judge static judge\nDECLARED")


class Trouble(Asking):
    """What goes wrong outside the command."""

    def test_solvers_that_fail(self):
        """A solver that fails, lies or writes nothing is something of the machine, and is named."""
        path = COURSE / "circuit_c.txt"
        for script, wanted in SOLVERS:
            variables = self.environment(PATH=f"{self.solver(script)}:{os.environ['PATH']}", TMPDIR=self.folder)
            before = sorted(self.folder.iterdir())
            self.assertIn(wanted, self.ask("delay", path, status=3, env=variables).err, script)
            self.assertEqual(sorted(self.folder.iterdir()), before)

    def test_solver_that_writes_no_refutation(self):
        """A solver's bare word is refused where unit propagation alone does not see it, and enough where it does."""
        variables = self.environment(PATH=f"{self.solver('exit 20')}:{os.environ['PATH']}")
        self.assertIn("is refused: STEP", self.ask("delay", COURSE / "circuit_c.txt", status=3, env=variables).err)
        self.assertEqual(self.ask("delay", A, env=variables).out, "delay 2\n")

    def test_no_answer_in_time(self):
        """A limit on the solver's time."""
        variables = self.environment(PATH=f"{self.solver('exec sleep 60')}:{os.environ['PATH']}")
        answer = self.ask("delay", A, "--seconds", "1", status=3, env=variables)
        self.assertIn("cadical found no answer within 1 second", answer.err)
        for word in ("0", "x", LONG):
            self.ask("delay", A, "--seconds", word, status=2)

    def test_kernel_without_handles(self):
        """Where the kernel gives no handle for a program, its end and its status are seen all the same."""
        with mock.patch("os.pidfd_open", side_effect=OSError, create=True):
            for status in (0, 7, -9):
                script = f"exit {status}" if status >= 0 else "kill -9 $$"
                process = Process(["sh", "-c", "sleep 0.05; " + script], [])
                while not process.ended_within(1):
                    self.assertIsNone(process.status)
                self.assertEqual((process.wait(), process.kill()), (status, status))

    def test_interrupt(self):
        """An interrupt, or a request to end, leaves a line and no file behind, and ends the solver."""
        for number in (signal.SIGINT, signal.SIGTERM):
            folder = self.solver(f"echo $$ > {self.folder}/pid; exec sleep 60")
            kept = self.folder / f"kept_{number}"
            kept.mkdir()
            variables = self.environment(PATH=f"{folder}:{os.environ['PATH']}", TMPDIR=kept)
            # A shell without job control starts its background programs deaf to interrupts: not this one.
            process = subprocess.Popen(COMMAND + ["delay", str(A), "-o", str(self.folder / "made")], env=variables,
                                       stdout=subprocess.PIPE, stderr=subprocess.PIPE, start_new_session=True,
                                       preexec_fn=lambda: signal.signal(signal.SIGINT, signal.SIG_DFL))
            while not (self.folder / "pid").exists() or not (self.folder / "pid").read_text():
                time.sleep(0.02)
            process.send_signal(number)
            _, words = process.communicate(timeout=20)
            self.assertEqual((process.returncode, words.decode().splitlines()[-1]), (130, "buzzlumen: interrupted"))
            self.assertNotIn("Traceback", words.decode())
            self.assertEqual(list(kept.iterdir()), [])
            self.assertFalse((self.folder / "made").exists())
            self.assertFalse(pathlib.Path(f"/proc/{(self.folder / 'pid').read_text().strip()}").exists())
            (self.folder / "pid").unlink()

    def test_closed_pipe(self):
        """A reader that closes its pipe early ends nothing in a traceback, and the status is the answer's."""
        path = self.file("large", write_netlist(large_circuits.random_block(1)))
        for words, status in ((("formula", path, "30"), 0), (("formula", path, "30", "--names"), 0), (("man",), 0),
                              (("times", path, "0" * 64), 0), (("times", path, "0"), 1), ((), 0)):
            process = subprocess.Popen(COMMAND + [str(word) for word in words], stdout=subprocess.PIPE,
                                       stderr=subprocess.PIPE)
            process.stdout.close()
            said = process.stderr.read().decode()
            process.stderr.close()
            self.assertEqual(process.wait(timeout=20), status, (words, said))
            self.assertNotIn("Traceback", said)
            self.assertNotIn("Exception", said)

    def test_closed_streams(self):
        """Standard input, output or error that is closed from the start."""
        for closed, words, status in (((1,), ("times", A, "01"), 0), ((2,), ("times", A, "0"), 1),
                                      ((0,), ("delay", "-"), 2), ((0, 1, 2), ("delay", A), 0),
                                      ((1, 2), ("nothing",), 2)):
            self.ask(*words, status=status, preexec_fn=lambda closed=closed: [os.close(each) for each in closed])

    def test_numbers_without_end(self):
        """A number of 5,000 digits, wherever a number is read."""
        for words in (("formula", A, LONG), ("judge", A, "--delay", LONG, "--vector", "00", "--refutation", A),
                      ("explain-refusal", "refused", LONG, "1"), ("times", A, "a=" + LONG, "b=0")):
            self.ask(*words, status=2)
        self.ask("times", A, LONG, status=1)
        block = '{"modules": {"m": {"ports": {"a": {"direction": "input", "bits": [' + LONG + "]}}}}}"
        self.ask("from-yosys", self.file("block", block), status=2)

    def test_no_library(self):
        """A tree whose library is not built says how to build it; so does a host that is not there or is none."""
        tree = self.folder / "tree"
        shutil.copytree(ROOT / "command", tree / "command")
        shutil.copytree(ROOT / "include", tree / "include")
        shutil.copy(ROOT / "buzzlumen", tree / "buzzlumen")
        ended = subprocess.run([COMMAND[0], "-IS", tree / "buzzlumen", "times", A, "01"], capture_output=True,
                               text=True, check=False)
        self.assertEqual((ended.returncode, ended.stderr), (3, "buzzlumen: the library is not built yet: there is no "
                         "target/staticlib/libbuzzlumen.a. Build it by: tools/build\n"))
        self.assertIn("which is no file", self.ask("times", A, "01", status=3,
                                                   env=self.environment(BUZZLUMEN_HOST="/no/host")).err)
        for content in ("#!/bin/sh\nexit 4\n", "#!/bin/sh\nexit 0\n", "nothing"):
            host = self.file("host", content)
            host.chmod(0o755)
            self.ask("times", A, "01", status=3, env=self.environment(BUZZLUMEN_HOST=host))

    def test_older_archive(self):
        """An archive of another state of the tree is told, and how to build it anew: one that lacks a function of the
        header, one whose functions have other parameters, one that breaks off, one that answers otherwise."""
        shutil.copytree(ROOT / "command", self.folder / "command", ignore=shutil.ignore_patterns("__pycache__"))
        shutil.copytree(ROOT / "include", self.folder / "include")
        shutil.copy(ROOT / "buzzlumen", self.folder / "buzzlumen")
        (self.folder / "target/staticlib").mkdir(parents=True)
        archive = "the library's archive target/staticlib/libbuzzlumen.a"
        other = f"{archive} does not answer as include/buzzlumen.h says: it is of another state of the tree"
        lacks = (f"{archive} has no buzzlumen_judge, which include/buzzlumen.h declares: it is of an older state of "
                 "the tree")
        for source, wanted in ((NO_JUDGE, lacks), (NOTHING, other), (BREAKS_OFF, other), (WITHOUT_ARRIVALS, other)):
            self.archive_of(source)
            ended = subprocess.run([COMMAND[0], "-IS", self.folder / "buzzlumen", "times", A, "01"],
                                   capture_output=True, text=True, check=False)
            self.assertEqual((ended.returncode, ended.stderr),
                             (3, f"buzzlumen: {wanted}. Build it anew by: tools/build\n"))
            self.assertFalse((self.folder / "target/command/host").exists())

    def archive_of(self, source):
        """An archive of a C source, in the folder's tree; DECLARED there becomes the functions of the header that it
        does not have itself."""
        header = (ROOT / "include/buzzlumen.h").read_text()
        names = re.findall(r"^buzzlumen_\w+ (buzzlumen_\w+)\(", header, flags=re.M)
        bodies = [f"void {name}(void) {{ BODY }}" for name in names if f" {name}(" not in source]
        source = source.replace("DECLARED", "\n".join(["#ifndef BODY", "#define BODY", "#endif", *bodies, ""]))
        compiler = tools.compiler()
        archive = self.folder / "target/staticlib/libbuzzlumen.a"
        archive.unlink(missing_ok=True)
        made = self.folder / "made.o"
        subprocess.run([compiler[0], "-O1", "-w", "-c", "-o", made, self.file("made.c", source)], check=True)
        subprocess.run([compiler[0].replace("gcc", "ar"), "rcs", archive, made], check=True)

    def test_broken_off(self):
        """A host in the tree that breaks off by a signal: the archive may be of another state."""
        tree = self.folder / "tree"
        shutil.copytree(ROOT / "command", tree / "command", ignore=shutil.ignore_patterns("__pycache__"))
        shutil.copytree(ROOT / "include", tree / "include")
        shutil.copy(ROOT / "buzzlumen", tree / "buzzlumen")
        (tree / "target/staticlib").mkdir(parents=True)
        shutil.copy(ROOT / "target/staticlib/libbuzzlumen.a", tree / "target/staticlib")
        host = tree / "target/command/host"
        host.parent.mkdir()
        host.write_text("#!/bin/sh\nkill -SEGV $$\n")
        host.chmod(0o755)
        ended = subprocess.run([COMMAND[0], "-IS", tree / "buzzlumen", "times", A, "01"], capture_output=True,
                               text=True, check=False)
        self.assertEqual((ended.returncode, ended.stderr), (3, "buzzlumen: the host program broke off: status -11; is "
                         "target/staticlib/libbuzzlumen.a of this state of the tree? Build it anew by: tools/build\n"))

    def test_installed(self):
        """Installed, the command finds its parts and its host in one folder, without the tree."""
        place = self.folder / "lib"
        shutil.copytree(ROOT / "command/buzzlumen", place / "buzzlumen",
                        ignore=shutil.ignore_patterns("__pycache__"))
        shutil.copy(ROOT / "target/command/host", place / "host")
        shutil.copy(ROOT / "buzzlumen", self.folder / "buzzlumen")
        ended = subprocess.run([COMMAND[0], "-IS", self.folder / "buzzlumen", "delay", A], capture_output=True,
                               text=True, check=False, cwd=self.folder,
                               env=self.environment(BUZZLUMEN_LIBRARY=place))
        self.assertEqual((ended.returncode, ended.stdout), (0, "delay 2\n"), ended.stderr)

    def test_no_temporary_folder(self):
        """Where no folder can be made for the solver's files that is said."""
        self.assertIn("no folder can be made in /no/folder",
                      self.ask("delay", A, status=3, env=self.environment(TMPDIR="/no/folder")).err)

    def test_names(self):
        """Names that no terminal shows, and a locale without letters."""
        path = self.file("ä\n\x1b", "input ä\noutput ä\n")
        for variables in ({"LC_ALL": "C", "PYTHONIOENCODING": "ascii"}, {"LC_ALL": "C.UTF-8"}):
            answer = self.ask("delay", path, path, env=self.environment(**variables))
            self.assertNotIn("\x1b", answer.out + answer.err)

    def test_progress(self):
        """On a terminal a long search shows that it goes on; elsewhere it does not."""
        variables = self.environment(PATH=f"{self.solver('sleep 0.7; exit 1')}:{os.environ['PATH']}")
        self.assertNotIn("at work", self.ask("delay", A, status=3, env=variables).err)
        main, terminal = os.openpty()
        process = subprocess.Popen(COMMAND + ["delay", str(A)], env=variables, stdout=subprocess.DEVNULL,
                                   stderr=terminal)
        process.wait(timeout=20)
        os.close(terminal)
        shown = os.read(main, 65536).decode()
        os.close(main)
        self.assertIn("cadical at work for", shown)


if __name__ == "__main__":
    unittest.main()
