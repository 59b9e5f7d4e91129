"""Compares the library with the rules: every answer and every byte of every lent slice, over seeded cases.

    python3 tests/compare.py --archive PATH     the library's archive, libbuzzlumen.a
    python3 tests/compare.py --twin             the C twin in its place, to try the tests themselves
    --seed NUMBER --cases NUMBER                which cases, and at least how many
    --workers NUMBER                            how many run at once; as many as there are cores if not given
    --valgrind                                  the host under valgrind, each slice in a block of just its length; only
                                                where the machine is x86-64
    --rise-fall                                 only the calls for rise and fall apart

Where the archive has the calls for rise and fall apart, those of tests/rise_fall_cases.py are made too, two for each
five of the others.

A C host (tests/host.c) makes the calls of tests/cases.py. What each must give is worked out by tests/document.py; a
share of the cases also by the other methods of tests/methods.py; two SAT solvers serve as peers. The last line says how
many cases were compared and how many differed; any difference ends the run with 1. A difference is printed with its
round, and `--round NUMBER` with the same seed runs that round alone.
"""

import argparse
import multiprocessing
import os
import sys
import tempfile
from collections import Counter

import cases
import document
import methods
import rise_fall_cases
import tools
from calls import APART, FUNCTIONS, Host, compare_call, plain
from document import Built, Passes, Refused, Settled, node_count

SHOWN_DIFFERENCES = 5


# Second opinions


def second_opinion(call, answer, slices):
    """What another method has against an answer, in words; nothing where it agrees or cannot say."""
    if plain(call.function) == "evaluate" and isinstance(answer, Settled):
        return second_settling(call, answer, slices)
    if plain(call.function) == "build" and isinstance(answer, Built) and answer.pairs < 5000:
        return second_formula(call, answer, slices)
    if call.function == "check" and (answer == Passes() or answer[0] == document.STEP):
        return second_verdict(call.arguments, answer)
    return []


def second_settling(call, answer, slices):
    """Settling by waveforms, or by recursion where rise and fall are apart."""
    netlist = document.read_netlist(call.arguments[0])
    if call.function.endswith(APART):
        values, times = methods.settled_apart(netlist, *call.arguments[1:4])
    else:
        values, times = methods.waveforms(netlist, *call.arguments[1:3])
    nodes = node_count(netlist)
    same = slices[0][:nodes] == values and slices[1][:nodes] == times
    return [] if same and max(times[node] for node in netlist.outputs) == answer.time else ["the second settling disagrees"]


def second_formula(call, answer, slices):
    """The formula by recursion."""
    netlist = document.read_netlist(call.arguments[0])
    if call.function.endswith(APART):
        pairs, clauses = methods.formula_apart(netlist, *call.arguments[1:4])
    else:
        pairs, clauses = methods.formula(netlist, *call.arguments[1:3])
    numbers = [number for clause in clauses for number in clause]
    table = [number for pair in pairs for number in pair]
    same = slices[0][:len(table)] == table and slices[1][:len(numbers)] == numbers
    counts = (len(clauses), len(numbers), len(pairs))
    return [] if same and counts == answer[1:] else ["the recursive builder disagrees"]


def second_verdict(arguments, answer):
    """The verdict by watched literals."""
    _, formula, refutation, _ = arguments
    gap = methods.first_gap(document.clauses_in(formula), document.clauses_in(refutation))
    verdict = Passes() if gap is None else Refused(document.STEP, gap)
    return [] if answer == verdict else ["watched literals disagree"]


def run_round(host, seed, number, tally):
    """Compare the calls of one round: what is wrong, in words."""
    dice = methods.Dice(seed, number)
    makers = rise_fall_cases if number >= rise_fall_cases.FIRST_ROUND else cases
    calls, complaints = makers.calls_of_round(dice, number)
    wrong = ["peer: " + complaint for complaint in complaints]
    for call in calls:
        answer, slices, words = compare_call(host, call)
        tally[call.function, answer.number if isinstance(answer, Refused) else 0] += 1
        if dice.randrange(4) == 0:
            words += second_opinion(call, answer, slices)
        wrong += ["%s: %s" % (call.function, each) for each in words]
    return ["round %d: %s" % (number, words) for words in wrong]


def run_share(command, seed, numbers):
    """Run some rounds in one process with a host of its own: the tally of answers, and what is wrong."""
    host = Host(command)
    tally, wrong = Counter(), []
    for number in numbers:
        wrong += run_round(host, seed, number, tally)
    code = host.close()
    return tally, wrong + (["the host ended with %d" % code] if code else [])


def show_tally(tally):
    """How often each function gave each number, 0 being acceptance."""
    for function in FUNCTIONS:
        counts = ["%d: %d" % (number, tally[function, number]) for number in range(24) if tally[function, number]]
        if counts:
            print("%s: by number %s" % (function, ", ".join(counts)))


def round_numbers(options):
    """Which rounds to run."""
    if options.round is not None:
        return [options.round]
    apart = []
    if tools.has_rise_fall(None if options.twin else options.archive):
        count = options.cases if options.rise_fall else options.cases * 2 // 5
        apart = [rise_fall_cases.FIRST_ROUND + round for round in range(rise_fall_cases.rounds_for(count))]
    return apart if options.rise_fall else list(range(cases.rounds_for(options.cases))) + apart


def host_command(options, directory):
    """Build the host and say how to run it."""
    program = tools.build_host(directory, None if options.twin else os.path.abspath(options.archive))
    if options.valgrind:
        if not tools.is_native():
            sys.exit("compare: valgrind can run the host on an x86-64 machine alone")
        tools.need("valgrind")
        return ["valgrind", "-q", "--error-exitcode=9", program, "tight"]
    return tools.runner() + [program]


def read_options():
    """The options of the command line."""
    parser = argparse.ArgumentParser(description="Compares the library with the rules.")
    which = parser.add_mutually_exclusive_group(required=True)
    which.add_argument("--archive", help="the library's archive")
    which.add_argument("--twin", action="store_true", help="the C twin in place of the library")
    parser.add_argument("--seed", type=int, default=1)
    parser.add_argument("--cases", type=int, default=20000)
    parser.add_argument("--workers", type=int, default=os.cpu_count())
    parser.add_argument("--round", type=int, help="one round alone")
    parser.add_argument("--valgrind", action="store_true")
    parser.add_argument("--rise-fall", action="store_true", help="only the calls for rise and fall apart")
    return parser.parse_args()


def main():
    """Run all rounds, spread over the workers."""
    options = read_options()
    tools.need("cadical", "picosat")
    with tempfile.TemporaryDirectory() as directory:
        command, numbers = host_command(options, directory), round_numbers(options)
        shares = [(command, options.seed, numbers[worker::options.workers]) for worker in range(options.workers)]
        with multiprocessing.Pool(options.workers) as pool:
            results = pool.starmap(run_share, shares)
    tally = sum((counts for counts, _ in results), Counter())
    wrong = [words for _, each in results for words in each]
    show_tally(tally)
    for words in wrong[:SHOWN_DIFFERENCES]:
        print(words)
    print("compare: %d cases, %d differences" % (sum(tally.values()), len(wrong)))
    sys.exit(1 if wrong else 0)


if __name__ == "__main__":
    main()
