"""What the command asks of the machine: programs on the PATH and their runs, a folder of its own for a while.

Small stand-ins for parts of the standard library (subprocess, tempfile, contextlib) whose loading takes longer than
most answers.
"""

import os
import select
import time

try:
    # The calls of signal themselves, without the classes for their names, whose making takes longer than the rest.
    import _signal as signal
except ImportError:
    import signal

from .trouble import OfTheMachine

LOOK_SECONDS = 0.002


def on_path(name):
    """Whether a program is on the PATH."""
    folders = os.environ.get("PATH", os.defpath).split(os.pathsep)
    return any(os.path.isfile(os.path.join(folder, name)) and os.access(os.path.join(folder, name), os.X_OK)
               for folder in folders if folder)


def remove(path):
    """Take a file away, where it is there."""
    try:
        os.unlink(path)
    except OSError:
        pass


class Process:
    """A program that runs beside this one. Its standard streams are opened as os.posix_spawn's file actions say."""

    def __init__(self, command, streams, own_session=False):
        self.status = None
        # Python ignores these two signals, and other programs don't expect that.
        self.number = os.posix_spawnp(command[0], command, os.environ, file_actions=streams, setsid=own_session,
                                      setsigdef=(signal.SIGPIPE, signal.SIGXFSZ))

    def ended_within(self, seconds):
        """Whether it has ended, after so many seconds of waiting at most."""
        try:
            handle = os.pidfd_open(self.number)
        except (AttributeError, OSError):
            # A kernel without such handles: look now and then.
            time.sleep(LOOK_SECONDS)
            return self.has_ended(os.WNOHANG)
        try:
            return bool(select.select([handle], [], [], seconds)[0])
        finally:
            os.close(handle)

    def has_ended(self, how=0):
        """Whether it has ended; its status is known then, a signal's number below 0."""
        if self.status is None:
            number, status = os.waitpid(self.number, how)
            self.status = os.waitstatus_to_exitcode(status) if number else None
        return self.status is not None

    def wait(self):
        """Its status, once it has ended."""
        self.has_ended()
        return self.status

    def kill(self):
        """End it, where it still runs; its status."""
        if self.status is None:
            os.kill(self.number, signal.SIGKILL)
        return self.wait()


class FolderForAWhile:
    """A new folder that only this user reads, gone with all in it at the end."""

    def __init__(self, inside=None):
        self.inside = inside or os.environ.get("TMPDIR") or "/tmp"
        self.path = os.path.join(self.inside, "buzzlumen-" + os.urandom(8).hex())

    def __enter__(self):
        try:
            os.mkdir(self.path, 0o700)
        except OSError as error:
            raise OfTheMachine(f"no folder can be made in {self.inside}: {error.strerror}") from None
        return self.path

    def __exit__(self, *_):
        try:
            for name in os.listdir(self.path):
                os.unlink(os.path.join(self.path, name))
            os.rmdir(self.path)
        except OSError:
            pass


class Uninterrupted:
    """A moment that no interrupt breaks into; one that came meanwhile is raised at its end."""

    def __enter__(self):
        self.came = []
        self.before = {number: signal.signal(number, lambda *_: self.came.append(True))
                       for number in (signal.SIGINT, signal.SIGTERM)}

    def __exit__(self, kind, *_):
        for number, handler in self.before.items():
            signal.signal(number, handler)
        if self.came and kind is None:
            raise KeyboardInterrupt
