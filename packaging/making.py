"""Makes what the tree holds in no file: stripped programs, the shared library, man pages, completion, pkg-config.

All goes to a folder made/, from what stands in target/ and from the templates of this folder. The version is the
command's own (`buzzlumen --version`, in command/buzzlumen/__init__.py) and stands nowhere else. Every file is the same
on every run: dates are those of SOURCE_DATE_EPOCH. Assumes an x86-64 machine with gcc and binutils.
"""

import email.utils
import functools
import gzip
import pathlib
import re
import subprocess
import time

from proving import ARCHIVE, PROGRAMS

ROOT = pathlib.Path(__file__).resolve().parents[1]
HERE = ROOT / "packaging"
HOST = ROOT / "target/command/host"
DEBIAN_START = "#!/usr/bin/python3 -IS"

# What code that can be loaded at any address asks of the linker: calls and places relative to the code itself.
MOVABLE = {"R_X86_64_PLT32", "R_X86_64_PC32", "R_X86_64_GOTPCREL", "R_X86_64_GOTPCRELX", "R_X86_64_REX_GOTPCRELX"}


class CannotMake(Exception):
    """Something is missing or does not go; its words are for a person."""


def output_of(*command):
    """What a command prints; trouble where it fails."""
    try:
        ended = subprocess.run(command, cwd=ROOT, capture_output=True, text=True, check=False)
    except FileNotFoundError:
        raise CannotMake(f"{command[0]} is not here; it is needed to make the package") from None
    if ended.returncode:
        raise CannotMake(f"{' '.join(map(str, command))}: {(ended.stderr or ended.stdout).strip()}")
    return ended.stdout


@functools.cache
def version():
    """The version, as the command tells it."""
    told = output_of("./buzzlumen", "--version").split()
    if len(told) != 2 or not re.fullmatch(r"\d+(\.\d+)*", told[1]):
        raise CannotMake(f"./buzzlumen --version says {' '.join(told)}, which is no version")
    return told[1]


def major():
    """The version's first number, which the shared library's name ends in."""
    return version().partition(".")[0]


def template(name, **values):
    """A template of this folder with its @WORDS@ filled in."""
    text = (HERE / name).read_text(encoding="utf-8")
    for word, value in values.items():
        text = text.replace(f"@{word}@", str(value))
    left = re.search("@[A-Z]+@", text)
    if left:
        raise CannotMake(f"packaging/{name}: nothing to put for {left[0]}")
    return text


# Programs and libraries


def stripped(source, target):
    """A program or shared library without the names that only a debugger reads."""
    if not source.is_file():
        raise CannotMake(f"{source.relative_to(ROOT)} is not built")
    output_of("strip", "--strip-unneeded", "--remove-section=.comment", "-o", target, source)


def host(made):
    """The command's host, as the tree's command uses it."""
    output_of("./buzzlumen", "times", "docs/course/circuit_a.txt", "0,0")
    stripped(HOST, made / "host")


def shared_library(made):
    """The shared library: the archive's own code, with no other beside it."""
    if not ARCHIVE.is_file():
        raise CannotMake(f"{ARCHIVE.relative_to(ROOT)} is not built")
    fixed = set(re.findall(r"R_X86_64_\w+", output_of("readelf", "-rW", ARCHIVE))) - MOVABLE
    if fixed:
        raise CannotMake(f"the archive's code is tied to an address, no shared library can be made: {', '.join(fixed)}")
    linked = made / "linked.so"
    output_of("gcc", "-shared", "-nostartfiles", "-o", linked, f"-Wl,-soname,libbuzzlumen.so.{major()}",
              "-Wl,--whole-archive", ARCHIVE, "-Wl,--no-whole-archive", "-Wl,-z,text,-z,relro,-z,now,-z,noexecstack")
    stripped(linked, made / "libbuzzlumen.so")
    linked.unlink()


def least_libc(made):
    """The oldest C library that has all that the programs ask for."""
    asked = output_of("readelf", "-VW", made / "host", made / "libbuzzlumen.so", *(made / name for name in PROGRAMS))
    return ".".join(map(str, max(tuple(map(int, found.split("."))) for found in re.findall(r"GLIBC_([\d.]+)", asked))))


# Pages and texts


def zipped(target, text):
    """A text, compressed, with no date and no name in it."""
    target.write_bytes(gzip.compress(text.encode(), 9, mtime=0))


def library_page(values):
    """The man page of the library's functions, their forms taken from the header."""
    header = (ROOT / "include/buzzlumen.h").read_text(encoding="utf-8")
    functions = re.findall(r"^(buzzlumen_\w+) (buzzlumen_\w+)\(([^;]*)\);", header, flags=re.M)
    if not functions:
        raise CannotMake("include/buzzlumen.h has no function")
    forms = [f"{result} {name}(\n    " + re.sub(r"\n\s+", "\n    ", words) + ");" for result, name, words in functions]
    names = ", ".join(name for _, name, _ in functions)
    return template("man/buzzlumen.3.in", NAMES=names, PROTOTYPES="\n.PP\n".join(forms), **values)


def pages(made, epoch):
    """The man pages, compressed."""
    values = {"VERSION": version(), "DATE": time.strftime("%Y-%m-%d", time.gmtime(epoch))}
    zipped(made / "buzzlumen.1.gz", output_of("./buzzlumen", "man"))
    zipped(made / "show_times.1.gz", template("man/show_times.1.in", **values))
    zipped(made / "buzzlumen.3.gz", library_page(values))


def texts(made, epoch):
    """Completion, pkg-config files, licence and the list of changes."""
    (made / "completion").write_text(output_of("./buzzlumen", "completion"), encoding="utf-8")
    for name, prefix, folder in (("deb.pc", "/usr", "${prefix}/lib/x86_64-linux-gnu"),
                                 ("tar.pc", "${pcfiledir}/../..", "${prefix}/lib")):
        text = template("buzzlumen.pc.in", PREFIX=prefix, LIBDIR=folder, VERSION=version())
        (made / name).write_text(text, encoding="utf-8")
    licence = (ROOT / "LICENSE").read_text(encoding="utf-8")
    holder, _, rest = licence.partition("Copyright (c) ")[2].partition("\n")
    indented = "".join(f" {line or '.'}\n" for line in rest.strip().splitlines()).rstrip("\n")
    (made / "copyright").write_text(template("copyright.in", HOLDER=holder, LICENCE=indented), encoding="utf-8")
    maintainer = re.search("^Maintainer: (.*)", (HERE / "control.in").read_text(encoding="utf-8"), flags=re.M)[1]
    zipped(made / "changelog.gz", f"buzzlumen ({version()}) unstable; urgency=medium\n\n  * Version {version()}.\n\n"
           f" -- {maintainer}  {email.utils.formatdate(epoch)}\n")


def start(made):
    """The command's start, by Debian's own Python."""
    lines = (ROOT / "buzzlumen").read_text(encoding="utf-8").splitlines()
    if not lines[0].startswith("#!"):
        raise CannotMake("the file buzzlumen does not start by naming Python")
    (made / "buzzlumen").write_text("\n".join([DEBIAN_START, *lines[1:]]) + "\n", encoding="utf-8")


def make(made, epoch):
    """Make everything in the folder `made`."""
    for name in PROGRAMS:
        stripped(ROOT / "target/bin" / name, made / name)
    host(made)
    shared_library(made)
    start(made)
    pages(made, epoch)
    texts(made, epoch)
