#!/usr/bin/env python3
"""What the library costs beside its twin in plain C, in instructions executed, which are the same in every run.

Builds one program of the library's archive (target/staticlib/libbuzzlumen.a), the twin and cost.c, and counts the
instructions of a call as the difference of a run with one call more: by valgrind on x86-64, by a small plugin of qemu's
on Arm. Prints a table of ratios and how the cost grows, in the library's instructions for each gate, pair or step. The
ratio of times stands beside it as a hint: it depends on the machine and on what else runs there.
`--quick` leaves out 65,536 pairs and the refutation of some thousand steps, which take minutes. Where the archive has
the calls for rise and fall apart, their rows stand at the end; `--rise-fall` gives these alone, each with the most that
its ratio may be, and ends with 1 where one is above. A benchmark, not a test. Assumes Debian, and the right to install
what is missing.
"""

import os
import random
import re
import struct
import subprocess
import sys
import tempfile
import time

HERE = os.path.dirname(os.path.abspath(__file__))
ROOT = os.path.dirname(HERE)
sys.path.insert(0, os.path.join(ROOT, "tests"))

import document  # noqa: E402
import methods  # noqa: E402
import rise_fall  # noqa: E402
import solvers  # noqa: E402
import tools  # noqa: E402

SEED = 2026

# How many instructions' worth of calls are timed, and how often; the best counts.
TIMED = 300_000_000
TIMES = 5

# The most that a call for rise and fall apart may cost beside the twin's.
MOST_RATIO = {"evaluate_rise_fall": 1.2, "build_rise_fall": 1.3}


def build_program(folder, archive):
    """The program that calls both, from the archive, the twin and cost.c."""
    program = os.path.join(folder, "cost")
    subprocess.run(
        [*tools.compiler(), "-O2", "-Wall", "-I", os.path.join(ROOT, "include"), "-o", program,
         *["-DRISE_FALL"] * tools.has_rise_fall(archive),
         os.path.join(HERE, "cost.c"), os.path.join(HERE, "twin.c"), archive], check=True)
    return program


def counter(folder):
    """A function that gives the instructions that a command executes, and what it prints."""
    if tools.is_native():
        tools.need("valgrind")

        def count(command):
            run = subprocess.run(
                ["valgrind", "--tool=callgrind", "--callgrind-out-file=" + os.path.join(folder, "callgrind"), *command],
                capture_output=True, text=True, check=True)
            return int(re.search(r"Collected : (\d+)", run.stderr).group(1)), run.stdout
        return count
    tools.need("gcc")
    plugin = os.path.join(folder, "icount.so")
    subprocess.run(["gcc", "-O2", "-shared", "-fPIC", "-o", plugin, os.path.join(HERE, "icount.c")], check=True)

    def count_by_plugin(command):
        run = subprocess.run([*tools.runner(), "-plugin", plugin, *command],
                             capture_output=True, text=True, check=True)
        return int(re.search(r"(\d+)\s*$", run.stderr).group(1)), run.stdout
    return count_by_plugin


def cost(count, program, which, function, arguments, calls):
    """Instructions of one call: what so many calls more add, shared among them."""
    once, _ = count([program, which, function, "1", *arguments])
    more, answer = count([program, which, function, str(1 + calls), *arguments])
    return (more - once) // calls, answer


def seconds(program, which, function, arguments, calls):
    """Seconds of one call: what so many calls more add, shared among them, by the shortest runs."""
    def shortest(count):
        command = [*tools.runner(), program, which, function, str(count), *arguments]
        taken = []
        for _ in range(TIMES):
            began = time.perf_counter()
            subprocess.run(command, stdout=subprocess.DEVNULL, check=True)
            taken.append(time.perf_counter() - began)
        return min(taken)
    return (shortest(1 + calls) - shortest(1)) / calls


def write(folder, name, data):
    """A file of the case, and its path."""
    path = os.path.join(folder, name)
    with open(path, "wb") as file:
        file.write(data)
    return path


def numbers(values):
    """Signed numbers as bytes."""
    return struct.pack(f"<{len(values)}i", *values)


def arrival_times(values):
    """Arrivals as bytes."""
    return struct.pack(f"<{len(values)}I", *values)


def evaluation_cases(folder, dice):
    """A small netlist and the largest, with inputs in time; and the largest with late ones."""
    netlists = ("a small netlist", methods.random_netlist(dice, 6, 40)), ("the largest", methods.largest_netlist(dice))
    for name, netlist in netlists:
        vector = bytes(methods.random_vector(dice, netlist.inputs))
        yield evaluation_case(folder, name, netlist, methods.in_time(netlist), vector)
    late = random.Random(netlist.inputs)  # dice of its own, so that the cases behind stay as they are
    arrivals = [late.randint(0, document.MOST_ARRIVAL) for _ in range(netlist.inputs)]
    yield evaluation_case(folder, "late inputs", netlist, arrivals, vector)


def evaluation_case(folder, name, netlist, arrivals, vector):
    """A netlist with its arrivals under a vector."""
    pins = sum(len(gate.pins) for gate in netlist.gates)
    files = [write(folder, "netlist", document.write_netlist(netlist)),
             write(folder, "arrivals", arrival_times(arrivals)), write(folder, "vector", vector)]
    return (f"evaluate, {name}: {len(netlist.gates)} gates, {pins:,} pins", "evaluate", files, 20,
            (len(netlist.gates), "gate"))


def building_cases(folder, dice, quick, program):
    """Formulas of 1,000, 10,000 and 65,536 pairs; of the largest netlist, also with late inputs; and of a node that
    drives 1,500 pins.
    """
    for pairs in (1000, 10000) if quick else (1000, 10000, 65536):
        netlist = methods.ladders_for_pairs(dice, pairs)
        yield building_case(folder, program, f"{pairs:,} pairs", netlist, methods.LADDER_TARGET)
    netlist = varied_netlist(dice)
    yield building_case(folder, program, "the largest netlist at 3/4 of its top", netlist, top(netlist) * 3 // 4)
    yield building_case(folder, program, "the same, each input at 1,000", netlist, top(netlist) * 3 // 4 + 1000, 1000)
    netlist = wide_driver(dice)
    for quarters in 1, 2, 3:
        yield building_case(folder, program, f"1,500 readers at {quarters}/4 of the top", netlist,
                            top(netlist) * quarters // 4)


def building_case(folder, program, name, netlist, target, arrival=0):
    """A formula of one delay a pin."""
    given = [write(folder, "netlist", document.write_netlist(netlist)),
             write(folder, "arrivals", arrival_times([arrival] * netlist.inputs)), str(target)]
    return formula_case(program, name, "build", given, 2)


def formula_case(program, name, function, given, width):
    """A formula in just the room that it needs, since zeroing more is the same for all; or refused for its pairs, each
    of so many numbers.
    """
    def answer(pairs, numbers):
        run = subprocess.run([*tools.runner(), program, "library", function, "1", *given, str(pairs), str(numbers)],
                             capture_output=True, text=True, check=True)
        return map(int, run.stdout.split())
    most = width * document.MOST_PAIRS
    number, pairs, _, numbers = answer(most, 90_000_000 // 16)
    if number == document.PAIRS:
        return f"build, {name}: refused", function, [*given, str(most), "0"], 1, (document.MOST_PAIRS, "pair")
    arguments = [*given, str(width * pairs), str(numbers)]
    return f"build, {name}: {pairs:,} pairs", function, arguments, 1, (pairs, "pair")


def rise_fall_cases(folder, quick, program):
    """Rise and fall apart: a small netlist and the largest under a vector; formulas of ladders, of two of the largest
    netlists with small delays, and of a node that drives 1,500 pins, of which every sixteenth falls faster. Dice of
    their own, so that the other cases stay as they are.
    """
    dice = methods.Dice(SEED, 10)
    for name, netlist in (("small", methods.random_netlist(dice, 6, 40)), ("largest", methods.largest_netlist(dice))):
        pins = sum(len(gate.pins) for gate in netlist.gates)
        given = apart_files(folder, netlist, [dice.randint(0, document.MOST_DELAY) for _ in range(pins)])
        vector = write(folder, "vector", bytes(methods.random_vector(dice, netlist.inputs)))
        yield (f"evaluate, rise and fall, {name}: {pins:,} pins", "evaluate_rise_fall", [*given, vector], 20,
               (len(netlist.gates), "gate"))
    for pairs in (1000, 10000) if quick else (1000, 10000, 65536):
        netlist = methods.ladders_for_pairs(dice, pairs // 2)
        yield apart_case(folder, program, "ladders", netlist, methods.own_falls(netlist), methods.LADDER_TARGET)
    for number, most, share in ((0, 29, 0.5),) if quick else ((0, 29, 0.5), (1, 3, 0.875)):
        netlist, falls = small_delays(methods.Dice(SEED, number), most)
        yield apart_case(folder, program, f"delays 0 to {most}", netlist, falls,
                         int(apart_top(netlist, falls) * share))
    netlist = wide_driver(dice)
    falls = [max(0, delay - (place % 16 == 0)) for place, delay in enumerate(methods.own_falls(netlist))]
    for quarters in 1, 3:
        yield apart_case(folder, program, f"1,500 readers at {quarters}/4", netlist, falls,
                         apart_top(netlist, falls) * quarters // 4)


def apart_case(folder, program, name, netlist, falls, target):
    """A formula where rise and fall are apart."""
    given = [*apart_files(folder, netlist, falls), str(target)]
    return formula_case(program, f"rise and fall, {name}", "build_rise_fall", given, 3)


def apart_files(folder, netlist, falls):
    """The files of a netlist, of arrivals at 0 and of fall delays."""
    return [write(folder, "netlist", document.write_netlist(netlist)),
            write(folder, "arrivals", arrival_times(methods.in_time(netlist))),
            write(folder, "falls", arrival_times(falls))]


def apart_top(netlist, falls):
    """The longest sum of the larger delays to an output."""
    tops = rise_fall.tops_of(netlist, methods.in_time(netlist), falls)
    return max(tops[node] for node in netlist.outputs)


def small_delays(dice, most):
    """One of the largest netlists with delays up to a small one, and such falls."""
    netlist = methods.largest_netlist(dice)
    gates = [document.Gate(gate.kind, [document.Pin(pin.driver, dice.randint(0, most)) for pin in gate.pins])
             for gate in netlist.gates]
    netlist = document.Netlist(netlist.inputs, gates, netlist.outputs)
    return netlist, [dice.randint(0, most) for _ in methods.own_falls(netlist)]


def top(netlist):
    """The longest sum of delays to a node."""
    tops = [0] * netlist.inputs
    for gate in netlist.gates:
        tops.append(max(tops[pin.driver] + pin.delay for pin in gate.pins))
    return max(tops)


def varied_netlist(dice):
    """The largest netlist with delays of any size."""
    netlist = methods.largest_netlist(dice)
    gates = [document.Gate(gate.kind, [document.Pin(pin.driver, dice.randint(0, document.MOST_DELAY))
                                       for pin in gate.pins]) for gate in netlist.gates]
    return document.Netlist(netlist.inputs, gates, netlist.outputs)


def wide_driver(dice):
    """A chain of gates, each with one pin on the one before and seven on one node below them all, which some 20 gates
    of the largest delay lead to."""
    gates = [document.Gate(document.BUF, [document.Pin(node, document.MOST_DELAY)]) for node in range(20)]
    driver = len(gates)
    for _ in range(215):
        pins = [document.Pin(len(gates), dice.randrange(100))]
        pins += [document.Pin(driver, dice.randint(0, document.MOST_DELAY)) for _ in range(7)]
        gates.append(document.Gate(dice.choice((document.AND, document.NAND, document.OR, document.NOR)), pins))
    return document.Netlist(1, gates, [len(gates)])


def checking_cases(folder, quick):
    """Refutations that a solver wrote of pigeonhole formulas, of some hundred to some thousand steps."""
    for clauses, variables in map(pigeons, (5, 6) if quick else (5, 6, 7)):
        _, steps = solvers.cadical(variables, clauses)
        flat = [literal for clause in clauses for literal in (*clause, 0)]
        proof = [literal for clause in steps for literal in (*clause, 0)]
        yield (f"check, {len(clauses):,} clauses, {len(steps):,} steps", "check",
               [str(variables), write(folder, "formula", numbers(flat)), write(folder, "refutation", numbers(proof))],
               1, (len(steps), "step"))


def pigeons(holes):
    """More pigeons than holes: each has one, no two share."""
    def sits(pigeon, hole):
        return pigeon * holes + hole + 1
    clauses = [[sits(p, h) for h in range(holes)] for p in range(holes + 1)]
    clauses += [[-sits(p, h), -sits(q, h)] for h in range(holes) for p in range(holes + 1) for q in range(p)]
    return clauses, (holes + 1) * holes


def zeroing_cases():
    """A refused call, which zeroes what was lent."""
    yield "zeroing, 2 x 1,000,000 numbers", "zero", ["1000000"], 4, (2000000, "number")


def compare(count, program, case):
    """One line of the table; gives whether the ratio is as it may be."""
    name, function, arguments, calls, (units, unit) = case
    ours, answer = cost(count, program, "library", function, arguments, calls)
    twins, other = cost(count, program, "twin", function, arguments, calls)
    if answer != other:
        sys.exit(f"{name}: the answers differ: {answer.strip()} and {other.strip()}")
    timed = max(1, TIMED // ours)
    hint = seconds(program, "library", function, arguments, timed)
    hint /= seconds(program, "twin", function, arguments, timed)
    most = MOST_RATIO.get(function)
    print(f"{name:<48} {ours:>14,} {twins:>14,} {ours / twins:>7.2f} {hint:>7.2f} {ours / units:>12,.0f} a {unit}"
          + (f", at most {most}" if most else ""), flush=True)
    return most is None or ours / twins <= most


def main():
    quick = "--quick" in sys.argv
    archive = os.environ.get("BUZZLUMEN_ARCHIVE", os.path.join(ROOT, "target", "staticlib", "libbuzzlumen.a"))
    if not os.path.exists(archive):
        subprocess.run([os.path.join(ROOT, "tools", "build"), "--library"], check=True, stdout=sys.stderr)
    tools.need("cadical")
    dice = methods.Dice(SEED)
    with tempfile.TemporaryDirectory() as folder:
        program = build_program(folder, archive)
        count = counter(folder)
        print(f"{'case':<48} {'library':>14} {'twin':>14} {'ratio':>7} {'time':>7} {'growth':>12}")
        if "--rise-fall" not in sys.argv:
            for case in zeroing_cases():
                compare(count, program, case)
            for case in evaluation_cases(folder, dice):
                compare(count, program, case)
            for case in building_cases(folder, dice, quick, program):
                compare(count, program, case)
            for case in checking_cases(folder, quick):
                compare(count, program, case)
        if tools.has_rise_fall(archive) or "--rise-fall" in sys.argv:
            if not tools.has_rise_fall(archive):
                print("the archive has no calls for rise and fall apart: here the twin stands in its place too")
            met = [compare(count, program, case) for case in rise_fall_cases(folder, quick, program)]
            if not all(met):
                sys.exit("bench: a ratio is above the most that it may be")


if __name__ == "__main__":
    main()
