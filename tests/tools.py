"""Finds the commands that the tests run, installs what is missing by apt-get, and builds the C host.

The library and the programs in target/bin are x86-64 code. On an x86-64 machine the host is built by gcc, and all are
run as they are. On an aarch64 machine the host is built by the cross compiler, and all are run under qemu; the programs
in target/bin load a C library, and there it is Debian's for the cross compiler. Assumes Debian, and the right to
install, where something is missing.
"""

import fcntl
import os
import platform
import shutil
import subprocess
import sys

ROOT = os.path.dirname(os.path.dirname(os.path.abspath(__file__)))

# Where Debian has the C library of x86-64 for other machines, and the loader in it.
CROSS_LIBRARY = "/usr/x86_64-linux-gnu/lib"
LOADER = CROSS_LIBRARY + "/ld-linux-x86-64.so.2"

PACKAGES = {
    "gcc": "gcc libc6-dev",
    "readelf": "binutils",
    "cadical": "cadical",
    "picosat": "picosat",
    "valgrind": "valgrind",
    "mandoc": "mandoc",
    "x86_64-linux-gnu-gcc": "gcc-x86-64-linux-gnu libc6-dev-amd64-cross",
    "qemu-x86_64": "qemu-user",
    LOADER: "libc6-amd64-cross",
}


def install(commands):
    """Install the packages of those commands that are missing."""
    missing = [command for command in commands if shutil.which(command) is None]
    if missing:
        packages = [package for command in missing for package in PACKAGES[command].split()]
        print("installing: " + " ".join(packages), file=sys.stderr)
        become = [] if os.geteuid() == 0 else ["sudo"]
        for arguments in (["update", "-q"], ["install", "-q", "-y", "--no-install-recommends", *packages]):
            subprocess.run(become + ["apt-get", *arguments], stdout=sys.stderr, check=False)


def need(*commands):
    """Make sure that commands are there; install their packages where they are not, one part of the test at a time."""
    if any(shutil.which(command) is None for command in commands):
        with open(os.path.abspath(__file__), encoding="utf-8") as lock:
            fcntl.flock(lock, fcntl.LOCK_EX)
            install(commands)
    for command in commands:
        if shutil.which(command) is None:
            sys.exit("missing and not to be installed: " + command)


def is_native():
    """Whether this machine runs x86-64 code itself."""
    return platform.machine() in ("x86_64", "amd64", "AMD64")


def compiler():
    """The C compiler that makes x86-64 code, with the options it needs here."""
    if is_native():
        need("gcc")
        return ["gcc"]
    need("x86_64-linux-gnu-gcc")
    return ["x86_64-linux-gnu-gcc", "-static"]


def runner():
    """What stands before the name of a program that compiler() made to run it here."""
    if is_native():
        return []
    need("qemu-x86_64")
    return ["qemu-x86_64"]


def loader():
    """What stands before the name of a program in target/bin to run it here."""
    if is_native():
        return []
    need(LOADER)
    return [*runner(), LOADER, "--library-path", CROSS_LIBRARY]


def symbols_of(archive):
    """The functions that an archive lists as its own, in the table at its front."""
    with open(archive, "rb") as file:
        data = file.read()
    if data[:10] != b"!<arch>\n/ ":
        return set()
    table = data[68:68 + int(data[56:66])]
    names = table[4 + 4 * int.from_bytes(table[:4], "big"):]
    return {name.decode() for name in names.split(b"\0") if name}


def has_rise_fall(archive):
    """Whether an archive has the calls for rise and fall apart; the twin, which is asked for by None, has them."""
    return archive is None or "buzzlumen_judge_rise_fall" in symbols_of(archive)


def build_host(directory, archive):
    """Build the C host with the library's archive, or with the twin where there is none; gives the program's path."""
    program = os.path.join(directory, "host")
    sources = [os.path.join(ROOT, "tests", "host.c")] + ["-DRISE_FALL"] * has_rise_fall(archive)
    if archive is None:
        sources += ["-DPREFIX=buzzlumen_", os.path.join(ROOT, "bench", "twin.c")]
    else:
        sources.append(archive)
    options = ["-O2", "-g", "-Wall", "-I", os.path.join(ROOT, "include"), "-o", program]
    subprocess.run(compiler() + options + sources, check=True)
    return program
