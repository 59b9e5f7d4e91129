"""Proves and builds by the kit's command `rt` what stands in target/: the library's archive for C, the programs, and the
host of the command `buzzlumen`; says with a count what it is doing. tools/build is its command.

The kit builds a crate in the crate's own folder: `rt lib` proves a library and writes it, of a static library as an
archive; `rt run` proves a program, links it and runs it, here with no input. Both begin with what earlier runs kept, so
that what is proved already is not proved again. What was made is copied to target/ and stands there beside two digests,
of what it was made from and of itself; where both are as they were, nothing is asked of the kit.
"""

import hashlib
import os
import pathlib
import shutil
import subprocess
import sys
import time
from collections import namedtuple

ROOT = pathlib.Path(__file__).resolve().parents[1]
# The crate of the exported functions, whose archive C callers know by the library's name.
LIBRARY = "buzzlumen_c"
ARCHIVE = ROOT / "target/staticlib/libbuzzlumen.a"
PROGRAMS = ("show_times", "show_formula", "check_refutation", "judge_delay")
PARTS = ("src", "specs", "proofs")
# The command builds its host at the first question.
FIRST_QUESTION = ["./buzzlumen", "times", "docs/course/circuit_a.txt", "0,0"]
# The code is for any x86-64 processor; without this the kit makes code for those of the level x86-64-v2.
ANY = ("--cpu", "x86-64")
# What `rt run` says once a program is proved and linked, and before it runs.
BUILT = "rt: running out/"
NOT_PROVED, SLIP, OF_THE_MACHINE, INTERRUPTED = 1, 2, 3, 130

# What is made of a crate: the kit's words for it, what they leave in the crate's folder, and where that is copied to.
Made = namedtuple("Made", "crate words left place")


def has_kit():
    """Whether the kit's command is on the PATH."""
    return shutil.which("rt") is not None


def made_of(crate):
    """What is made of a crate: of the library its archive, of others a program."""
    if crate == LIBRARY:
        return Made(crate, ["rt", "lib", *ANY], f"out/lib{crate}.a", ARCHIVE)
    return Made(crate, ["rt", "run", *ANY], f"out/{crate}", ROOT / "target/bin" / crate)


# Which crates, in which order


def chain():
    """Each crate of crates.txt and the crates of the tree that it rests on."""
    lines = [line.partition("#")[0] for line in (ROOT / "crates.txt").read_text(encoding="utf-8").splitlines()]
    rests_on = {name.split()[0]: words.split() for name, colon, words in (line.partition(":") for line in lines) if colon}
    return {name: [other for other in others if other in rests_on] for name, others in rests_on.items()}


def needed(rests_on, names):
    """The named crates and all that they rest on."""
    found, new = set(), list(names)
    while new:
        name = new.pop()
        if name not in found:
            found.add(name)
            new += rests_on[name]
    return found


def in_order(rests_on, crates):
    """The crates, each behind those that it rests on."""
    done = []
    while len(done) < len(crates):
        ready = [name for name in rests_on if name in crates and name not in done and set(rests_on[name]) <= set(done)]
        if not ready:
            raise ValueError("crates.txt: crates rest on each other in a circle")
        done += ready
    return done


# What was made, and from what


def digest(path):
    """A file's digest, as letters."""
    return hashlib.sha256(path.read_bytes()).hexdigest()


def digest_of_parts(crates):
    """A digest of the kit, of crates.txt and of all that is proved of some crates."""
    total = hashlib.sha256(subprocess.run(["rt", "version"], stdout=subprocess.PIPE, check=True).stdout)
    total.update((ROOT / "crates.txt").read_bytes())
    for crate in sorted(crates):
        for part in PARTS:
            for path in sorted((ROOT / "crates" / crate / part).rglob("*")):
                if path.is_file():
                    total.update(f"{path.relative_to(ROOT)}\0{digest(path)}\n".encode())
    return total.hexdigest()


def record_of(made):
    """Where it is written down what something was made from."""
    return made.place.with_name(made.place.name + ".made_from")


def record(made, rests_on):
    """What is written down beside what was made: the digest of its crates, and its own."""
    return f"{digest_of_parts(needed(rests_on, [made.crate]))} {digest(made.place)}\n"


def is_made(made, rests_on):
    """Whether it stands as it was made, and its crates are as they were."""
    beside = record_of(made)
    return made.place.is_file() and beside.is_file() and beside.read_text(encoding="utf-8") == record(made, rests_on)


def put(made, rests_on):
    """Copy what the kit made to its place, in one step, and write down what it was made from."""
    record_of(made).unlink(missing_ok=True)
    made.place.parent.mkdir(parents=True, exist_ok=True)
    half = made.place.with_name(made.place.name + ".half")
    shutil.copyfile(ROOT / "crates" / made.crate / made.left, half)
    half.chmod(0o644 if made.crate == LIBRARY else 0o755)
    os.replace(half, made.place)
    record_of(made).write_text(record(made, rests_on), encoding="utf-8")


# One step after the other


class Steps:
    """Steps with a count. On a terminal the seconds of the running one are shown."""

    def __init__(self, total):
        self.number, self.total = 0, total

    def run(self, words, command, folder=ROOT):
        """Run a command as the next step; gives its exit status and what it printed."""
        self.number += 1
        head, began = f"[{self.number}/{self.total}] {words} ...", time.monotonic()
        print(head, end="", flush=True)
        with subprocess.Popen(command, cwd=folder, stdin=subprocess.DEVNULL, stdout=subprocess.PIPE,
                              stderr=subprocess.STDOUT, text=True, errors="replace") as process:
            while True:
                try:
                    printed, _ = process.communicate(timeout=1)
                    break
                except subprocess.TimeoutExpired:
                    self.show(f"\r{head} {time.monotonic() - began:.0f} s")
        # A program that was only to be built says what it likes of no input.
        status = 0 if command[:2] == ["rt", "run"] and BUILT in printed else process.returncode
        self.show("\r" + head)
        print(" FAILED" if status else f" {time.monotonic() - began:.0f} s", flush=True)
        return status, printed

    def show(self, text):
        """A line in place of the last one, where somebody looks."""
        if sys.stdout.isatty():
            print(text, end="", flush=True)


def failed(printed):
    """What a person needs of what rt printed."""
    lines = printed.splitlines()
    told = [line for line in lines if "not proved" in line or ": error" in line or line.startswith("rt: ")]
    print("\n".join(told[-20:] or lines[-5:]), file=sys.stderr)
    return NOT_PROVED


def prove(steps, crates):
    """Prove libraries, one after the other; gives the exit status."""
    for crate in crates:
        status, printed = steps.run(f"proving {crate}", ["rt", "lib"], ROOT / "crates" / crate)
        if status:
            return failed(printed)
    return 0


def make(steps, made, rests_on):
    """Prove one more crate, and copy what the kit makes of it; gives the exit status."""
    what = "writing its archive" if made.crate == LIBRARY else "linking it"
    status, printed = steps.run(f"proving {made.crate}, {what}", made.words, ROOT / "crates" / made.crate)
    if status or not (ROOT / "crates" / made.crate / made.left).is_file():
        return failed(printed)
    put(made, rests_on)
    return 0


def build_host(steps):
    """Build the program through which the command calls the library; gives the exit status."""
    status, printed = steps.run("building the command's host over it", FIRST_QUESTION)
    if status:
        print(printed, end="", file=sys.stderr)
    return OF_THE_MACHINE if status else 0


def build(crates=()):
    """Prove and build the library, these programs and the command's host; gives the exit status."""
    rests_on = chain()
    asked = [made_of(crate) for crate in (LIBRARY, *crates)]
    missing = [made for made in asked if not is_made(made, rests_on)]
    below = needed(rests_on, [made.crate for made in missing]) - {made.crate for made in missing}
    steps = Steps(len(below) + len(missing) + 1)
    for made in asked:
        if made not in missing:
            print(f"{made.place.relative_to(ROOT)} is proved and built before")
    status = prove(steps, in_order(rests_on, below))
    for made in missing:
        status = status or make(steps, made, rests_on)
    return status or build_host(steps)


def main(programs):
    """The script; gives its exit status."""
    if not has_kit():
        print("build: the Rattle kit's command rt is not on the PATH", file=sys.stderr)
        return OF_THE_MACHINE
    unknown = [name for name in programs if not (ROOT / "crates" / name / "src/main.rt").is_file()]
    if unknown:
        print(f"build: no crate is a program of the name {', '.join(unknown)}", file=sys.stderr)
        return SLIP
    try:
        return build(programs)
    except KeyboardInterrupt:
        print("\ninterrupted", file=sys.stderr)
        return INTERRUPTED
