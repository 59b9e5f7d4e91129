"""Files: read within limits and known by their content, written whole or not at all and never over another unasked."""

import os
import stat
import sys

from .machine import remove
from .netlist import looks_like_netlist
from .trouble import OfTheMachine, Slip
from .words import printable

MEBIBYTE = 2 ** 20
MOST_TEXT, MOST_NETLIST, MOST_SOLVER_TEXT = MEBIBYTE, 64 * MEBIBYTE, 256 * MEBIBYTE
STANDARD_INPUT = "-"
BYTE_ORDER_MARK = b"\xef\xbb\xbf"
OTHER_MARKS = (b"\xff\xfe", b"\xfe\xff")

CIRCUIT, NETLIST, CERTIFICATE, FORMULA, YOSYS, BINARY_PROOF, BINARY_FRAT = (
    "the text of a circuit", "a netlist file", "a certificate", "a formula (DIMACS)", "JSON", "a binary refutation",
    "a binary FRAT proof")


def name_of(path):
    """A file's name as messages have it."""
    return "standard input" if path == STANDARD_INPUT else printable(str(path))


def cause(error):
    """What an operating system's error says."""
    return error.strerror or str(error)


# Reading


def read_bytes(path, most=MOST_SOLVER_TEXT):
    """A file's bytes; a Slip where it is none, cannot be read, or is larger than anything that could be asked for."""
    try:
        if path == STANDARD_INPUT and sys.stdin is None:
            raise Slip("standard input: is closed")
        if path == STANDARD_INPUT:
            data = sys.stdin.buffer.read(most + 1)
        else:
            with open(path, "rb") as file:
                if stat.S_ISREG(os.fstat(file.fileno()).st_mode) and os.fstat(file.fileno()).st_size > most:
                    raise Slip(too_large(path, most))
                data = file.read(most + 1)
    except IsADirectoryError:
        raise Slip(f"{name_of(path)}: is a folder, not a file") from None
    except OSError as error:
        raise Slip(f"{name_of(path)}: {cause(error)}") from None
    except ValueError:
        raise Slip(f"{name_of(path)}: is no name of a file") from None
    except MemoryError:
        raise OfTheMachine(f"{name_of(path)}: memory is short") from None
    if len(data) > most:
        raise Slip(too_large(path, most))
    return data


def too_large(path, most):
    """What is said of a file that is too large."""
    return f"{name_of(path)}: is larger than {most // MEBIBYTE} MiB, the most that is read here"


def text_of(path, data):
    """The text in a file's bytes."""
    if data.startswith(OTHER_MARKS):
        raise Slip(f"{name_of(path)}: is text in UTF-16; save it as UTF-8")
    try:
        return data.removeprefix(BYTE_ORDER_MARK).decode()
    except UnicodeDecodeError as error:
        line = data.count(b"\n", 0, error.start) + 1
        raise Slip(f"{name_of(path)}, line {line}: is no text in UTF-8, from byte {error.start + 1} on") from None


def kind_of(data):
    """What a file holds, by its content."""
    text = data.removeprefix(BYTE_ORDER_MARK)
    start = text[:4096].lstrip()
    if start.startswith(b"buzzlumen certificate"):
        return CERTIFICATE
    if looks_like_netlist(data):
        return NETLIST
    if data.startswith(OTHER_MARKS):
        return CIRCUIT
    if b"\0" in text[:4096]:
        return {b"a": BINARY_PROOF, b"d": BINARY_PROOF, b"o": BINARY_FRAT}.get(text[:1], NETLIST)
    if start.startswith(b"{"):
        return YOSYS
    if has_header(text):
        return FORMULA
    return CIRCUIT


def has_header(text):
    """Whether the first line that is no comment of DIMACS is its header."""
    for line in text[:MEBIBYTE].splitlines():
        words = line.split(None, 2)
        if words and words[0] != b"c":
            return words[:2] == [b"p", b"cnf"]
    return False


# Writing


def check_free(path, force):
    """A Slip where something stands already at the place of an output and may not be replaced."""
    if path is None:
        return
    if os.path.isdir(path):
        raise Slip(f"{name_of(path)}: is a folder; name a file in it")
    if os.path.lexists(path) and not force and is_plain(path):
        raise Slip(f"{name_of(path)}: stands already; --force writes over it")


def is_plain(path):
    """Whether a place holds an ordinary file or a link, and not a device or a pipe, which are written into."""
    try:
        return os.path.islink(path) or stat.S_ISREG(os.stat(path).st_mode)
    except OSError:
        return True


def write_file(path, data, force=False):
    """Write a file whole or not at all: beside its place first, then put there in one step."""
    check_free(path, force)
    try:
        if os.path.lexists(path) and not is_plain(path):
            with open(path, "wb", buffering=0) as device:
                device.write(data)
        else:
            write_beside(os.path.realpath(path), data, force)
    except FileExistsError:
        raise Slip(f"{name_of(path)}: stands already; --force writes over it") from None
    except (FileNotFoundError, NotADirectoryError, PermissionError) as error:
        raise Slip(f"{name_of(path)}: {cause(error)}") from None
    except OSError as error:
        raise OfTheMachine(f"{name_of(path)}: {cause(error)}; nothing was written") from None


def write_beside(path, data, force):
    """The file under a name of its own in the same folder, with the rights of the one it replaces, then renamed."""
    made = os.path.join(os.path.dirname(path), ".buzzlumen-" + os.urandom(8).hex())
    try:
        with open(made, "xb") as file:
            file.write(data)
            file.flush()
            if os.path.exists(path):
                os.fchmod(file.fileno(), stat.S_IMODE(os.stat(path).st_mode))
        put_in_place(made, path, force)
    except BaseException:
        remove(made)
        raise


def put_in_place(made, path, force):
    """Give a written file its name, in one step; FileExistsError where the name was taken meanwhile."""
    if not force:
        try:
            os.link(made, path)
            os.unlink(made)
            return
        except OSError:
            # A file system without links: look, then rename.
            if os.path.lexists(path):
                raise FileExistsError from None
    os.replace(made, path)
