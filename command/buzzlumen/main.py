"""The command from its words to its exit status. Whatever happens, a person reads a line and never a traceback."""

import os
import sys

from .machine import signal
from .plain import read_plain
from .trouble import OfTheMachine, Slip, Trouble
from .words import printable

INTERRUPTED = 130


class Progress:
    """A line on the terminal that says what is going on, where standard error is one."""

    def __init__(self):
        self.wide = 0

    def show(self, words):
        """Show a line in place of the last one."""
        if is_terminal(sys.stderr):
            sys.stderr.write("\r" + words[:100].ljust(self.wide))
            sys.stderr.flush()
            self.wide = min(100, len(words))

    def clear(self):
        """Take the line away."""
        if self.wide:
            sys.stderr.write("\r" + " " * self.wide + "\r")
            sys.stderr.flush()
            self.wide = 0


def is_terminal(stream):
    """Whether a stream is a terminal."""
    try:
        return stream.isatty()
    except (AttributeError, ValueError):
        return False


class Say:
    """Answers to standard output, words to standard error; a heading where there are several circuits."""

    def __init__(self, name="", progress=None):
        self.name, self.heading, self.progress = name, name and name + ": ", progress or Progress()

    def under(self, name):
        """The same for one of several circuits."""
        return Say(name, self.progress)

    def answer(self, line):
        """A line of the answer."""
        self.progress.clear()
        put(sys.stdout, self.heading + line + "\n")

    def words(self, line):
        """A line in plain words, after all that was answered before."""
        self.progress.clear()
        flush(sys.stdout)
        put(sys.stderr, self.heading + line + "\n")
        flush(sys.stderr)

    def trouble(self, trouble):
        """A refusal, a slip or something of the machine; gives its status."""
        if trouble.status == 1:
            self.answer(str(trouble) if hasattr(trouble, "number") else "refused")
        words = getattr(trouble, "words", str(trouble))
        # Words that name the circuit's file themselves need no heading.
        said = Say("", self.progress) if words.startswith(self.name) else self
        said.words(words if trouble.status == 1 else f"buzzlumen: {words}")
        return trouble.status

    def write(self, data, path, force):
        """What a command makes, to a file or to standard output."""
        from .files import write_file
        if path is not None:
            write_file(path, data, force)
            return
        flush(sys.stdout)
        try:
            sys.stdout.buffer.write(data)
            sys.stdout.buffer.flush()
        except BrokenPipeError:
            nobody_reads(sys.stdout)
        except OSError as error:
            raise OfTheMachine(f"standard output: {error.strerror}") from None

    def write_netlist(self, data, path, force):
        """A netlist file, which a terminal cannot show."""
        if path is None and is_terminal(sys.stdout):
            raise Slip("a netlist file is no text for a terminal; name a file by -o")
        self.write(data, path, force)


def put(stream, text):
    """Write to a stream; where nobody reads it any more, that is all."""
    try:
        stream.write(text)
    except BrokenPipeError:
        nobody_reads(stream)
    except OSError as error:
        fail(stream, error)


def flush(stream):
    """Hand on what was written."""
    try:
        stream.flush()
    except BrokenPipeError:
        nobody_reads(stream)
    except OSError as error:
        fail(stream, error)


def nobody_reads(stream):
    """From here on nothing reaches a stream whose reader has gone."""
    nowhere = os.open(os.devnull, os.O_WRONLY)
    os.dup2(nowhere, stream.fileno())
    os.close(nowhere)


def fail(stream, error):
    """A stream that cannot be written, a full disk for one."""
    nobody_reads(stream)
    if stream is sys.stdout:
        raise OfTheMachine(f"standard output: {error.strerror}") from None


def run(words, say):
    """Ask what the words ask; the status."""
    asked = read_plain(words)
    if asked is None:
        from .tree import parser
        tree = parser()
        if not words:
            say.write(tree.format_help().encode(), None, False)
            return 0
        asked = tree.parse_args(words)
        if asked.command is None:
            tree.error("a command is needed")
    from .commands import COMMANDS
    from .library import Library
    with Library() as library:
        return COMMANDS[asked.command](asked, library, say)


def on_terminate(_number, _frame):
    """A request to end is taken as an interrupt, so that nothing is left behind."""
    raise KeyboardInterrupt


def main(words=None):
    """The command; gives its exit status."""
    say = Say()
    for name in ("stdout", "stderr"):
        if getattr(sys, name) is None:
            setattr(sys, name, open(os.devnull, "w", encoding="utf-8"))
        getattr(sys, name).reconfigure(errors="backslashreplace")
    try:
        signal.signal(signal.SIGTERM, on_terminate)
        return finished(lambda: run(sys.argv[1:] if words is None else words, say), say)
    except KeyboardInterrupt:
        signal.signal(signal.SIGINT, signal.SIG_IGN)
        say.words("buzzlumen: interrupted")
        return INTERRUPTED


def finished(work, say):
    """The status of some work, every trouble told and all that was said handed on."""
    try:
        status = work()
        flush(sys.stdout)
        return status
    except Trouble as trouble:
        return told(trouble, say)
    except SystemExit as end:
        return handed_on(end.code, say)
    except MemoryError:
        return told(OfTheMachine("memory is short"), say)
    except RecursionError:
        return told(Slip("what was asked is nested too deeply"), say)
    except Exception as error:  # A fault of the command itself is told in one line too.
        return told(OfTheMachine(own_fault(error)), say)


def own_fault(error):
    """A fault of the command itself, with its place."""
    frame = error.__traceback__
    while frame.tb_next is not None:
        frame = frame.tb_next
    place = f"{os.path.basename(frame.tb_frame.f_code.co_filename)}:{frame.tb_lineno}"
    return f"a fault of the command's own, at {place}: {type(error).__name__} {printable(str(error))[:200]}"


def handed_on(status, say):
    """The status of argparse, once its words are out."""
    try:
        flush(sys.stdout)
    except Trouble as trouble:
        return told(trouble, say)
    return status if isinstance(status, int) else 2


def told(trouble, say):
    """A trouble told; where even that cannot be written, its status all the same."""
    try:
        status = say.trouble(trouble)
        flush(sys.stdout)
        return status
    except OfTheMachine as worse:
        say.trouble(worse)
        return worse.status
