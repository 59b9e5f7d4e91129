"""The questions: each subcommand as a function that prints its answer and gives its status.

Parts that only some questions need are loaded by these, so that every answer starts soon.
"""

import itertools
import os
import sys
import time

from . import files
from .arrivals import late_inputs, late_words
from .circuit import load, plain_names, write_text
from .falls import all_falls, fall_words
from .library import Refusal
from .netlist import longest_path, tops_of
from .refusals import (FORMULA, LAST, PAIRS, REFUTATION, STEP, TABLE, VECTOR, WITNESS, in_words, named, of_pairs,
                       of_vector, of_witness)
from .trouble import OfTheMachine, Slip, Trouble
from .vectors import read_vector, shown_vector
from .words import asked_number, count, number_in, shown

MOST_LISTED_INPUTS = 6
MOST_SECONDS = 10 ** 6


# Times


def times(asked, library, say):
    """Values and settling times."""
    circuit = load(asked.circuit, library, asked.arrivals, asked.falls)
    if not asked.vector:
        return all_times(circuit, library, say)
    vector = read_vector(asked.vector, circuit)
    settled = settle(circuit, vector, library)
    say.answer(f"settled {settled.time}")
    for name, value, moment in zip(circuit.names, settled.values, settled.times):
        say.answer(f"{name} {value} {moment}")
    outputs = ", ".join(f"{circuit.names[node]} settles to {settled.values[node]} at {settled.times[node]}"
                        for node in circuit.netlist.outputs)
    chosen = shown_vector(vector, circuit.names)
    say_given(circuit, say)
    say.words(f"With {chosen}: {outputs}. The circuit settles at {settled.time}.")
    return 0


def given_words(circuit):
    """Which inputs arrive late, where one does, and which pins have two delays."""
    return [*filter(None, [late_words(circuit), fall_words(circuit)])]


def say_given(circuit, say):
    """The same, said."""
    for words in given_words(circuit):
        say.words(words)


def path_words(circuit):
    """The longest path in words."""
    counted = ", arrivals counted" if any(circuit.arrivals) else ""
    counted += ", of two delays the larger" if circuit.falls is not None else ""
    return f"The longest path adds up to {longest_path(circuit.netlist, circuit.arrivals)}{counted}."


def settle(circuit, vector, library):
    """What the library says of a vector; a refusal with its cause."""
    try:
        return library.evaluate(circuit.data, circuit.arrivals, vector, circuit.falls)
    except Refusal as refusal:
        if refusal.number == VECTOR:
            refusal.words = of_vector(refusal.place, vector, circuit.names, circuit.netlist.inputs)
        raise


def all_times(circuit, library, say):
    """One line for each vector, and the largest time."""
    inputs = circuit.netlist.inputs
    if inputs > MOST_LISTED_INPUTS:
        raise Slip(f"{inputs} inputs have too many vectors to list; name one, as {'0' * inputs}")
    largest = 0
    for values in itertools.product((0, 1), repeat=inputs):
        settled = library.evaluate(circuit.data, circuit.arrivals, bytes(values), circuit.falls)
        nodes = ", ".join(f"{name} at {moment}" for name, moment
                          in zip(circuit.names[inputs:], settled.times[inputs:]))
        say.answer(f"{shown_vector(values, circuit.names)} settles at {settled.time}" + (f": {nodes}" if nodes else ""))
        largest = max(largest, settled.time)
    say_given(circuit, say)
    say.words(f"The largest time is {largest}. {path_words(circuit)}")
    return 0


# Formulas and refutations


def formula(asked, library, say):
    """The formula for a target."""
    from .formulas import Meanings, dimacs
    files.check_free(asked.output, asked.force)
    target = asked_number(asked.target, "a target")
    circuit = load(asked.circuit, library, asked.arrivals, asked.falls)
    built = build(circuit, target, library)
    meanings = Meanings(circuit.names, built.pairs, circuit.falls is not None)
    comments = [*given_words(circuit), *meanings.comments()] if asked.names else ()
    say.write(dimacs(built, comments).encode(), asked.output, asked.force)
    if not asked.names:
        say_given(circuit, say)
        say.words(meanings.in_short())
    return 0


def build(circuit, target, library):
    """A formula, or the refusal with its cause."""
    from .search import count_pairs
    try:
        return library.build(circuit.data, circuit.arrivals, target, circuit.falls)
    except Refusal as refusal:
        if refusal.number == PAIRS:
            tops = tops_of(circuit.netlist, circuit.arrivals)
            refusal.words = of_pairs(target, count_pairs(circuit.netlist, tops, target))
        raise


def check(asked, library, say):
    """Whether a refutation passes."""
    from .formulas import NoMeanings, read_formula
    from .refutations import of_refutation, read_refutation
    asked_formula = read_formula(asked.formula)
    refutation = read_refutation(asked.refutation)
    say_if_empty(refutation, say)
    try:
        library.check(asked_formula.variables, asked_formula.numbers, refutation.numbers)
    except Refusal as refusal:
        if refusal.number == FORMULA:
            refusal.words = of_formula(refusal.place, asked_formula)
        elif refusal.number in (REFUTATION, LAST, STEP):
            refusal.words = of_refutation(refusal.number, refusal.place, refutation, asked_formula.variables,
                                          NoMeanings(asked_formula.meanings))
        raise
    say.answer("passes")
    say.words("This formula has no solution. Nothing is said of where it came from.")
    return 0


def say_if_empty(refutation, say):
    """A refutation without a clause is read as the empty one; that is said."""
    if refutation.was_empty:
        say.words(f"{files.name_of(refutation.path)} has no clause: read as the empty clause alone.")


def of_formula(place, asked):
    """The cause of refusal 11."""
    name = files.name_of(asked.path)
    if asked.variables > 100000:
        return named(FORMULA, f"{name}: {asked.variables:,} variables, and at most 100,000 are checked")
    if place < len(asked.numbers):
        clause = sum(1 for number in asked.numbers[:place] if number == 0)
        line = f", line {asked.lines[clause]}" if clause < len(asked.lines) else ""
        return named(FORMULA, f"{name}{line}: literal {asked.numbers[place]}, and the header says "
                     f"{count(asked.variables, 'variable')}")
    return named(FORMULA, f"{name}: the last clause has no 0 at its end")


# Certificates


def judge(asked, library, say):
    """Whether a certificate is accepted."""
    parts = (asked.delay, asked.vector, asked.refutation)
    if (asked.certificate is None) == (parts == (None, None, None)):
        raise Slip("name a certificate, or else --delay, --vector and --refutation")
    if asked.certificate is None and None in parts:
        raise Slip("without a certificate --delay, --vector and --refutation are needed, all three")
    circuit = load(asked.circuit, library, asked.arrivals, asked.falls)
    if asked.certificate is not None:
        delay, vector, refutation = from_certificate(asked.certificate, circuit, library)
    else:
        from .refutations import read_refutation
        delay, vector = asked_number(asked.delay, "a delay"), read_vector(asked.vector, circuit)
        refutation = read_refutation(asked.refutation)
        say_if_empty(refutation, say)
    judged(circuit, delay, vector, refutation, library)
    say.answer("accepted")
    say_given(circuit, say)
    say.words(true_delay_words(delay))
    return 0


def from_certificate(path, circuit, library):
    """The parts of a certificate that is for a circuit."""
    from .certificates import check_arrivals, check_digest, check_falls, read_certificate, vector_for
    certificate = read_certificate(path, library.takes_falls)
    check_digest(certificate, circuit)
    check_arrivals(certificate, circuit)
    check_falls(certificate, circuit)
    return certificate.delay, vector_for(certificate, circuit), certificate.refutation


def true_delay_words(delay):
    """What an accepted certificate says."""
    return f"The true delay is {delay}: the largest settling time over all vectors."


def judged(circuit, delay, vector, refutation, library):
    """The library's verdict; a refusal with its cause."""
    try:
        library.judge(circuit.data, circuit.arrivals, delay, vector, refutation.numbers, circuit.falls)
    except Refusal as refusal:
        tell_judgement(refusal, circuit, delay, vector, refutation, library)
        raise


def tell_judgement(refusal, circuit, delay, vector, refutation, library):
    """Put the cause of a refused certificate into words."""
    from .formulas import Meanings
    from .refutations import of_refutation
    if refusal.number == VECTOR:
        refusal.words = of_vector(refusal.place, vector, circuit.names, circuit.netlist.inputs)
    elif refusal.number == WITNESS:
        refusal.words = of_witness(refusal.place, delay)
    elif refusal.number in (PAIRS, REFUTATION, LAST, STEP):
        built = build(circuit, delay + 1, library)
        refusal.words = of_refutation(refusal.number, refusal.place, refutation, built.variables,
                                      Meanings(circuit.names, built.pairs, circuit.falls is not None))


# The search


def delay(asked, library, say):
    """Find certificates and have them judged."""
    from .solvers import find_solver
    outputs = delay_outputs(asked)
    limit = None if asked.seconds is None else number_in(asked.seconds, MOST_SECONDS)
    if asked.seconds is not None and not limit:
        raise Slip(f"--seconds takes a number from 1 to {MOST_SECONDS}, not {shown(asked.seconds)}")
    solver, worst = find_solver(asked.solver), 0
    for path, output in zip(asked.circuits, outputs):
        several = say.under(files.name_of(path)) if len(asked.circuits) > 1 else say
        try:
            one_delay(path, output, asked, solver, limit, library, several)
        except Trouble as trouble:
            worst = max(worst, several.trouble(trouble))
    return worst


def delay_outputs(asked):
    """The file for each circuit's certificate, None where none is asked for; a Slip where one stands already."""
    if asked.output is None:
        return [None] * len(asked.circuits)
    outputs = [asked.output]
    if len(asked.circuits) > 1:
        if not os.path.isdir(asked.output):
            raise Slip(f"{files.name_of(asked.output)}: of several circuits -o names a folder, and this is none")
        stems = [os.path.splitext(os.path.basename(path))[0] for path in asked.circuits]
        outputs = [os.path.join(asked.output, stem + ".certificate") for stem in stems]
        if len(set(outputs)) < len(outputs):
            raise Slip("two certificates would get one name; ask for the circuits one by one")
    for output in outputs:
        files.check_free(output, asked.force)
    return outputs


def one_delay(path, output, asked, solver, limit, library, say):
    """Find one circuit's certificate and have it judged."""
    from .search import MOST_TRIED_INPUTS, by_solver, by_trying
    began = time.monotonic()
    circuit, ran = load(path, library, asked.arrivals, asked.falls), None
    say_given(circuit, say)
    say.words(path_words(circuit))
    if solver:
        found, ran = by_solver(circuit, library, solver, say.progress, limit)
    elif circuit.netlist.inputs > MOST_TRIED_INPUTS:
        raise OfTheMachine(f"no solver is installed, and {circuit.netlist.inputs} inputs are too many to try every "
                           "vector: install Debian's cadical or picosat")
    else:
        say.words("No solver is installed (Debian's cadical or picosat): every vector is tried instead.")
        found = by_trying(circuit, library)
    say.progress.show("judging")
    accept_found(circuit, found, library)
    say.progress.clear()
    say.words(f"Found by {found.by}: {shown_vector(found.vector, circuit.names)} settles at {found.delay}, and nothing "
              "settles later.")
    if output is not None:
        from .certificates import write_certificate
        text = write_certificate(circuit, found.delay, found.vector, found.refutation)
        files.write_file(output, text.encode(), asked.force)
    say.answer(f"delay {found.delay}")
    say.words(true_delay_words(found.delay))
    if asked.figures:
        say.words(figures(time.monotonic() - began, ran, found))


def accept_found(circuit, found, library):
    """The library's verdict on what was found. A refusal is the finder's fault, not the asker's."""
    try:
        library.judge(circuit.data, circuit.arrivals, found.delay, found.vector, found.refutation, circuit.falls)
    except Refusal as refusal:
        raise OfTheMachine(f"what was found by {found.by} is refused: {refusal.words}") from None


def figures(seconds, ran, found):
    """How long a search took, and how long its refutation is."""
    own = f"{ran.name} took {ran.seconds:.3f} s for {count(ran.calls, 'question')}, the" if ran else "The"
    kept = sum(1 for number in found.refutation if number == 0)
    return (f"{own} whole {seconds:.3f} s. The refutation had {count(found.steps, 'step')}; it needs, and keeps, "
            f"{kept:,}.")


# Conversions and explanations


def explain_refusal(asked, _library, say):
    """A refusal in words."""
    words = [word for word in " ".join(asked.words).split() if word != "refused"]
    if len(words) == 1:
        words = [str(number) for number, row in TABLE.items() if row[0] == words[0].upper()] or words
    numbers = [number_in(word, 2 ** 64 - 1) for word in words]
    if None in numbers or not 1 <= len(numbers) <= 2:
        raise Slip('write the line that was printed, as: buzzlumen explain-refusal "refused 15 1"')
    if numbers[0] not in TABLE:
        raise Slip(f"{numbers[0]} is no refusal; the table goes from 1 to {max(TABLE)}")
    if len(numbers) == 1:
        name, when, what = TABLE[numbers[0]]
        say.answer(f"{name}: {when}." + (f" Its place is {what}." if what else ""))
    else:
        say.answer(in_words(*numbers))
    return 0


def netlist(asked, library, say):
    """A circuit in the other form, or in the form that is asked for."""
    files.check_free(asked.output, asked.force)
    circuit = load(asked.circuit, library, asked.arrivals, asked.falls)
    if asked.bytes or not (asked.text or circuit.plain):
        say.write_netlist(circuit.data, asked.output, asked.force)
        if any(circuit.arrivals):
            late = ",".join(late_inputs(plain_names(circuit.netlist), circuit.arrivals))
            say.words(f"A netlist file holds no arrivals; beside this one give --arrivals {late}.")
        say_falls_left(circuit.netlist, circuit.falls, say)
    else:
        text = write_text(circuit.netlist, circuit.arrivals, circuit.names)
        say.write(text.encode(), asked.output, asked.force)
    return 0


def say_falls_left(drawn, falls, say):
    """That a netlist file leaves the fall delays out, where there are some."""
    if falls is not None:
        row = ",".join(map(str, all_falls(drawn)))
        say.words(f"A netlist file holds no fall delays; beside this one give --falls {row}.")


def from_yosys(asked, _library, say):
    """The circuit of a block."""
    from .netlist import falls_of, write_netlist
    from .yosys import convert
    files.check_free(asked.output, asked.force)
    drawn = convert(asked.block, asked.top, asked.delays)
    if asked.bytes:
        say.write_netlist(write_netlist(drawn.netlist), asked.output, asked.force)
        say_falls_left(drawn.netlist, falls_of(drawn.netlist), say)
    else:
        say.write(write_text(drawn.netlist, drawn.arrivals, drawn.names).encode(), asked.output, asked.force)
    return 0


def completion(_asked, _library, say):
    """The completion for bash."""
    from .manual import completion_text
    from .tree import parser
    say.write(completion_text(parser()).encode(), None, False)
    return 0


def man(_asked, _library, say):
    """The man page."""
    from .manual import man_text
    from .tree import parser
    say.write(man_text(parser()).encode(), None, False)
    return 0


COMMANDS = {"times": times, "formula": formula, "check": check, "judge": judge, "delay": delay,
            "explain-refusal": explain_refusal, "netlist": netlist, "from-yosys": from_yosys,
            "completion": completion, "man": man}
