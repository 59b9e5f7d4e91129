"""The calls that the comparison makes: seeded random ones of each function, those on which SAT solvers are peers, and
fixed ones at the edges of the rules (docs/RULES.md).

Every maker takes dice, so a seed gives the same calls on every machine. A call whose answer is known beforehand says
so; every other is judged by tests/document.py alone.
"""

import struct

import adder
import bundles
import document
import methods
import solvers
from calls import Call
from document import (AND, BUF, MUX, XOR, Accepted, Built, Gate, Netlist, Passes, Pin, Refused, Settled, node_count,
                      numbers_of, write_netlist)
from methods import in_time

LARGEST = 4294967295
# A refusal, whatever its number and place.
ANY_REFUSAL = Refused(None, None)
LEAST_SIGNED, MOST_SIGNED = -2147483648, 2147483647


# Rooms and targets


def room_near(dice, needed):
    """A room at or around the length needed."""
    return max(0, needed + dice.choice((0, 0, 0, 0, 1, 2, 7, -1, -1, -2, -needed)))


def room_enough(dice, needed):
    """A room that is not too small."""
    return needed + dice.choice((0, 0, 1, 2, 5))


def rooms(dice, *needed):
    """Rooms for the lengths needed: mostly large enough, else each at or around what is needed."""
    room = room_enough if dice.randrange(3) else room_near
    return tuple(room(dice, length) for length in needed)


def target_near(dice, netlist, arrivals):
    """A target: 0, 1, around the true delay, around the topological delay, around an arrival, any, or the largest."""
    tops = document.tops_of(netlist, arrivals)
    top = max(tops[node] for node in netlist.outputs)
    true = methods.true_delay(netlist, arrivals)[0] if netlist.inputs <= 4 else top // 2
    arrival = dice.choice(arrivals)
    return max(0, dice.choice((0, 1, true - 1, true, true + 1, top - 1, top, top + 1, arrival, arrival + 1,
                               dice.randrange(top + 2), dice.randrange(top + 2),
                               dice.choice((LARGEST, LARGEST - 1, 2 ** 31)))))


def formula_for(netlist, arrivals, target):
    """The number of pairs and the clauses of a formula, whatever its size."""
    pairs = document.pairs_of(netlist, arrivals, target, document.MOST_PAIRS)
    return len(pairs), document.clauses_for(netlist, arrivals, target, pairs)


def size_of_formula(data, arrivals, target):
    """The pairs and the numbers of a formula; none where there is no formula."""
    try:
        pairs, clauses = formula_for(document.read_circuit(data, arrivals), arrivals, target)
    except document.Refusal:
        return 0, 0
    return pairs, sum(len(clause) + 1 for clause in clauses)


# Cases of each function


def some_netlist(dice, most_inputs=6):
    """A circuit, mostly small."""
    return methods.random_netlist(dice, most_inputs, dice.choice((3, 6, 6, 12, 12, 24)))


def file_of(dice, netlist, faulty):
    """The file of a circuit, with a short note in front; damaged if so asked."""
    if faulty:
        return methods.damage(dice, netlist)
    return write_netlist(netlist, b"note"[:dice.choice((0, 0, 0, 1, 4))])


def arrivals_of(dice, netlist, faulty):
    """Arrivals, bad if so asked."""
    return (methods.bad_arrivals if faulty else methods.random_arrivals)(dice, netlist.inputs)


def vector_of(dice, netlist, faulty):
    """A vector, bad if so asked."""
    return (methods.bad_vector if faulty else methods.random_vector)(dice, netlist.inputs)


def evaluate_call(dice, netlist):
    """A call of evaluate, some with a damaged file, bad arrivals, a bad vector, two of these, or too small rooms."""
    nodes = node_count(netlist)
    fault = dice.randrange(12)
    data, arrivals = file_of(dice, netlist, fault < 3), arrivals_of(dice, netlist, fault in (2, 3, 4))
    vector = vector_of(dice, netlist, fault in (1, 4, 5))
    return Call("evaluate", (data, arrivals, vector, *rooms(dice, nodes, nodes)))


def build_call(dice, netlist):
    """A call of build, some with a damaged file, bad arrivals, both, or rooms that are too small."""
    fault = dice.randrange(12)
    arrivals = arrivals_of(dice, netlist, False)
    data, target = file_of(dice, netlist, fault < 2), target_near(dice, netlist, arrivals)
    pairs, numbers = size_of_formula(data, arrivals, target)
    if fault in (1, 2):
        arrivals = arrivals_of(dice, netlist, True)
    return Call("build", (data, arrivals, target, *rooms(dice, 2 * pairs, numbers)))


def random_clause(dice, variables, length):
    """A clause of so many literals, now and then one of them twice."""
    clause = [dice.choice((-1, 1)) * dice.randint(1, variables) for _ in range(length)]
    return clause + clause[:1] if dice.randrange(6) == 0 else clause


def random_clauses(dice, variables):
    """The clauses of a formula, mostly of two or three literals, now and then an empty one."""
    if variables == 0:
        return [[]] * dice.randrange(3)
    count = dice.randrange(variables * 5 + 2)
    clauses = [random_clause(dice, variables, dice.choice((1, 2, 2, 2, 3, 3, 3, 4))) for _ in range(count)]
    if dice.randrange(20) == 0:
        clauses.insert(dice.randrange(count + 1), [])
    return clauses


def tree_refutation(variables, choices=()):
    """The full tree over some variables: for each node, after both its branches, the opposites of its choices."""
    steps = []
    if variables:
        for value in (-1, 1):
            steps += tree_refutation(variables[1:], choices + (value * variables[0],))
    return steps + [[-choice for choice in choices]]


def shortened(dice, clauses, steps):
    """A refutation from which some steps that are not needed are gone."""
    for _ in range(dice.randrange(8)):
        place = dice.randrange(len(steps))
        fewer = steps[:place] + steps[place + 1:]
        if fewer and not fewer[-1] and methods.first_gap(clauses, fewer) is None:
            steps = fewer
    return steps


def damage_steps(dice, variables, steps):
    """A refutation with steps dropped, moved or changed, or with a literal or a clause too many; a clause that holds a
    literal and its opposite follows from anything, so it stands near the front.
    """
    steps = [list(step) for step in steps]
    place = dice.randrange(len(steps))
    style = dice.randrange(10)
    if style == 0:
        del steps[place]
    elif style > 6:
        steps = [step for step in steps if not step or dice.randrange(style - 5)]
    elif style == 1:
        steps.insert(dice.randrange(len(steps)), steps.pop(place))
    elif style == 2:
        steps.insert(place, [])
    elif style == 3:
        steps.pop()
    elif style == 4 and steps[place]:
        steps[place][dice.randrange(len(steps[place]))] *= -1
    elif style == 5 and steps[place]:
        steps[place].append(dice.choice((1, -1)) * steps[place][0])
    elif style == 6 and variables:
        clause = random_clause(dice, variables, dice.randint(1, 3))
        steps.insert(dice.randrange(min(2, len(steps))), [*clause, -clause[0]])
    elif variables:
        steps.insert(place, random_clause(dice, variables, dice.randint(1, 3)))
    return steps


def damage_numbers(dice, variables, numbers):
    """A list of numbers with a literal beyond the variables, without its last 0, or with numbers after it."""
    numbers = list(numbers)
    style = dice.randrange(4)
    if style == 0 and numbers:
        beyond = dice.choice((variables + 1, -variables - 1, LEAST_SIGNED, MOST_SIGNED, -MOST_SIGNED, variables))
        numbers[dice.randrange(len(numbers))] = beyond
    elif style == 1:
        numbers = numbers[:-1]
    elif style == 2 and variables:
        numbers.append(dice.choice((variables, -variables)))
    else:
        numbers = [] if dice.randrange(2) else numbers + [0]
    return numbers


def check_call(dice):
    """A call of check on a random formula, with a tree refutation (right if the formula has no solution) or damage."""
    variables = dice.choice((0, 1, 2, 3, 3, 4, 4, 5, 6))
    clauses = random_clauses(dice, variables)
    steps = tree_refutation(tuple(range(1, min(variables, dice.choice((0, 2, 4, 5))) + 1)))
    if methods.first_gap(clauses, steps) is None:
        steps = shortened(dice, clauses, steps)
    if dice.randrange(3) == 0:
        steps = damage_steps(dice, variables, steps)
    formula, refutation = numbers_of(clauses), numbers_of(steps)
    fault = dice.randrange(10)
    if fault in (0, 1):
        formula = damage_numbers(dice, variables, formula)
    if fault in (1, 2):
        refutation = damage_numbers(dice, variables, refutation)
    return Call("check", (stated_variables(dice, variables), formula, refutation, *rooms(dice, variables + 1)))


def stated_variables(dice, variables):
    """The number of variables that a call states: mostly the right one."""
    if dice.randrange(12):
        return variables
    return dice.choice((0, max(0, variables - 1), variables + 1, 100, 100001, LARGEST))


def refutation_for(netlist, arrivals, target):
    """A refutation of a formula that has no solution: the empty clause if that will do, else the tree over inputs."""
    _, clauses = formula_for(netlist, arrivals, target)
    if methods.first_gap(clauses, [[]]) is None:
        return [[]]
    return tree_refutation(tuple(range(1, netlist.inputs + 1)))


def judge_call(dice, netlist, arrivals):
    """A call of judge: a right certificate, or one with a wrong delay, vector, refutation, file, arrival or room."""
    delay, vector = methods.true_delay(netlist, arrivals)
    vector, steps = bytes(vector), refutation_for(netlist, arrivals, delay + 1)
    data, refutation = write_netlist(netlist), numbers_of(steps)
    nodes, (pairs, numbers) = node_count(netlist), size_of_formula(data, arrivals, delay + 1)
    fault = dice.randrange(15)
    if fault < 2:
        return accepted_certificate(dice, data, arrivals, delay, vector, refutation)
    if fault in (2, 3):
        vector = vector_of(dice, netlist, fault == 2)
    if fault in (3, 4):
        delay = max(0, delay + dice.choice((-1, 1, LARGEST - delay, 10)))
    if fault in (5, 6, 7):
        refutation = numbers_of(damage_steps(dice, nodes + pairs, steps))
    if fault in (7, 8):
        refutation = damage_numbers(dice, nodes + pairs, refutation)
    if fault == 9:
        data = methods.damage(dice, netlist)
    if fault == 10:
        refutation = [0]
    if fault in (11, 12):
        arrivals = arrivals_of(dice, netlist, fault == 12)
    if fault == 13:
        arrivals, vector = arrivals_of(dice, netlist, True), vector_of(dice, netlist, True)
    enough = rooms(dice, *needed_by_judge(nodes, pairs, numbers))
    return Call("judge", (data, arrivals, delay, vector, refutation, *enough))


def needed_by_judge(nodes, pairs, numbers):
    """The lengths that a certificate call needs."""
    return nodes, nodes, 2 * pairs, numbers, nodes + pairs + 1


def small_arrivals(dice, netlist):
    """Arrivals of the size of small delays, all 0 in one of three."""
    if dice.randrange(3) == 0:
        return in_time(netlist)
    return [dice.choice((0, 0, 1, 2, 4, 7)) for _ in range(netlist.inputs)]


def hard_circuit(dice, most_inputs):
    """A circuit and its arrivals, at whose true delay the empty clause alone is no refutation, if one is soon found."""
    for _ in range(12):
        netlist = with_small_delays(dice, methods.random_netlist(dice, most_inputs, 24, 60))
        arrivals = small_arrivals(dice, netlist)
        delay, _ = methods.true_delay(netlist, arrivals)
        if refutation_for(netlist, arrivals, delay + 1) != [[]]:
            break
    return netlist, arrivals


def accepted_certificate(dice, data, arrivals, delay, vector, refutation):
    """A call of judge that must be accepted."""
    netlist = document.read_netlist(data)
    nodes, (pairs, numbers) = node_count(netlist), size_of_formula(data, arrivals, delay + 1)
    enough = [room_enough(dice, length) for length in needed_by_judge(nodes, pairs, numbers)]
    return Call("judge", (data, arrivals, delay, vector, refutation, *enough), Accepted())


# Peers


def peer_calls(dice):
    """Calls on one circuit whose formulas two solvers answered; first the solvers' own disagreements, in words."""
    netlist, arrivals = peer_circuit(dice)
    delay, vector = methods.true_delay(netlist, arrivals)
    data = write_netlist(netlist)
    calls, complaints = [], []
    for target in sorted({delay, delay + 1, max(1, dice.randrange(delay + 3))}):
        pairs, clauses = formula_for(netlist, arrivals, target)
        variables = node_count(netlist) + pairs
        for name, solver in solvers.SOLVERS:
            has_model, found = solver(variables, clauses)
            if has_model != (target <= delay):
                complaints.append("%s: a model at %d: %s; true delay %d" % (name, target, has_model, delay))
            elif has_model:
                calls.append(model_call(netlist, arrivals, target, found, complaints))
            else:
                calls += refutation_calls(dice, variables, clauses, found)
                if target == delay + 1:
                    certificate = arrivals, delay, bytes(vector), needed_steps(clauses, found)
                    calls.append(accepted_certificate(dice, data, arrivals, delay, bytes(vector), numbers_of(found)))
                    calls += false_certificates(netlist, *certificate) + misdated(dice, netlist, *certificate)
    return calls, complaints


def false_certificates(netlist, arrivals, delay, vector, steps):
    """Calls of judge beside the true certificate, none of which may be accepted: one less and one more than the true
    delay, another vector, a refutation without one of its needed steps."""
    data = write_netlist(netlist)
    nodes, (pairs, numbers) = node_count(netlist), size_of_formula(data, arrivals, delay + 1)
    room = needed_by_judge(nodes, pairs, numbers)
    refutation = numbers_of(steps)
    wrong = [(claimed, vector, refutation, Refused(document.WITNESS, delay))
             for claimed in {max(0, delay - 1), delay + 1} if claimed != delay]
    for other in methods.all_vectors(netlist.inputs):
        _, times = document.settle(netlist, arrivals, other)
        if document.circuit_time(netlist, times) != delay:
            time = document.circuit_time(netlist, times)
            wrong.append((delay, bytes(other), refutation, Refused(document.WITNESS, time)))
            break
    if len(steps) > 1:
        fewer = steps[1:]
        _, clauses = formula_for(netlist, arrivals, delay + 1)
        gap = methods.first_gap(clauses, fewer)
        wrong.append((delay, vector, numbers_of(fewer), Refused(document.STEP, gap)))
    return [Call("judge", (data, arrivals, claimed, given, numbers, *room), answer)
            for claimed, given, numbers, answer in wrong]


def misdated(dice, netlist, arrivals, delay, vector, steps):
    """Calls of judge on the true certificate with other arrivals, under which another delay is the true one: none may
    be accepted. Not for circuits of so many inputs that trying all vectors takes long.
    """
    calls, data = [], write_netlist(netlist)
    for _ in range(3 if netlist.inputs <= 6 else 0):
        place, other = dice.randrange(netlist.inputs), list(arrivals)
        other[place] = dice.choice((0, other[place] + 1, other[place] + 3, 40))
        if methods.true_delay(netlist, other)[0] != delay:
            pairs, numbers = size_of_formula(data, other, delay + 1)
            room = needed_by_judge(node_count(netlist), pairs, numbers)
            calls.append(Call("judge", (data, other, delay, vector, numbers_of(steps), *room), ANY_REFUSAL))
    return calls


def pigeons(holes):
    """More pigeons than holes: each has one, no two share; a formula without a solution, and its variables."""
    def sits(pigeon, hole):
        return pigeon * holes + hole + 1
    clauses = [[sits(p, h) for h in range(holes)] for p in range(holes + 1)]
    clauses += [[-sits(p, h), -sits(q, h)] for h in range(holes) for p in range(holes + 1) for q in range(p)]
    return (holes + 1) * holes, clauses


def solver_calls(dice):
    """Calls of check on what two solvers wrote for pigeonhole formulas and for random ones without a solution."""
    formulas = [pigeons(holes) for holes in (2, 3, 4)]
    while len(formulas) < 10:
        clauses = [random_clause(dice, 8, 3) for _ in range(60)]
        if not solvers.cadical(8, clauses)[0]:
            formulas.append((8, clauses))
    calls = []
    for variables, clauses in formulas:
        for _, solver in solvers.SOLVERS:
            calls += refutation_calls(dice, variables, clauses, solver(variables, clauses)[1])
    variables, clauses = pigeons(5)
    for _, solver in solvers.SOLVERS:
        calls.append(check_steps_call(variables, clauses, solver(variables, clauses)[1], Passes()))
    return calls


def peer_circuit(dice):
    """A circuit of up to 12 inputs, few enough to try all vectors, and its arrivals."""
    if dice.randrange(3):
        return hard_circuit(dice, dice.choice((4, 5, 6)))
    netlist = with_small_delays(dice, methods.random_netlist(dice, dice.choice((7, 12)), 20, 48))
    return netlist, small_arrivals(dice, netlist)


def with_small_delays(dice, netlist):
    """The same circuit with delays of 0 to 3, so that its formulas stay small."""
    gates = [Gate(gate.kind, [Pin(pin.driver, dice.choice((0, 1, 1, 1, 2, 3))) for pin in gate.pins])
             for gate in netlist.gates]
    return Netlist(netlist.inputs, gates, netlist.outputs)


def model_call(netlist, arrivals, target, model, complaints):
    """A call of evaluate on a solver's model, whose vector must settle at the target or later."""
    vector = bytes(1 if node + 1 in model else 0 for node in range(netlist.inputs))
    _, times = methods.waveforms(netlist, arrivals, vector)
    time, nodes = max(times[node] for node in netlist.outputs), node_count(netlist)
    if time < target:
        complaints.append("a model at %d settles before" % target)
    return Call("evaluate", (write_netlist(netlist), arrivals, vector, nodes, nodes), Settled(time))


def refutation_calls(dice, variables, clauses, steps):
    """Calls of check: a solver's refutation, which must pass; its needed steps alone; and those without one of them."""
    needed = needed_steps(clauses, steps)
    calls = [check_steps_call(variables, clauses, steps, Passes()),
             check_steps_call(variables, clauses, needed, Passes())]
    if len(needed) > 1:
        place = dice.randrange(len(needed) - 1)
        fewer = needed[:place] + needed[place + 1:]
        calls.append(check_steps_call(variables, clauses, fewer,
                                      Refused(document.STEP, methods.first_gap(clauses, fewer))))
    return calls


def check_steps_call(variables, clauses, steps, wanted):
    """A call of check with just the room it needs."""
    return Call("check", (variables, numbers_of(clauses), numbers_of(steps), variables + 1), wanted)


def needed_steps(clauses, steps):
    """A refutation without the steps that it passes without, tried one by one from its end."""
    for place in range(len(steps) - 2, -1, -1):
        fewer = steps[:place] + steps[place + 1:]
        if methods.first_gap(clauses, fewer) is None:
            steps = fewer
    return steps


# Fixed cases

FILE_A = bytes.fromhex("01010000 03020100 05020300 00000300 02000100 01000100 03000100 01000100 0400"
                       "22000000 0200 0300 0500 0100 0100")


def edge_calls():
    """The cases of rules X3 and X4 with the answers there, and some beside them."""
    return circuit_edges() + late_edges() + arrival_edges() + refutation_edges()


def circuit_edges():
    """Edges of evaluate, build and judge."""
    twice = write_netlist(Netlist(1, [Gate(XOR, [Pin(0, 1), Pin(0, 4)])], [1]))
    chooser = write_netlist(Netlist(3, [Gate(MUX, [Pin(0, 9), Pin(1, 1), Pin(2, 2)])], [3]))
    tied = write_netlist(Netlist(2, [Gate(MUX, [Pin(0, 9), Pin(1, 1), Pin(1, 2)])], [2]))
    through = write_netlist(Netlist(1, [], [0]))
    calls = [Call("evaluate", (FILE_A, [0, 0], bytes(vector), 5, 5), Settled(time))
             for vector, time in (((0, 0), 2), ((0, 1), 1), ((1, 0), 2), ((1, 1), 1))]
    calls += [Call("evaluate", (twice, [0], bytes((value,)), 2, 2), Settled(4)) for value in (0, 1)]
    calls += [Call("evaluate", (chooser, [0] * 3, bytes((s, a, b)), 4, 4), Settled(2 if a == b else 9))
              for s, a, b in methods.all_vectors(3)]
    return calls + [
        Call("build", (FILE_A, [0, 0], 0, 0, 26), Built(5, 8, 26, 0)),
        Call("build", (FILE_A, [0, 0], 3, 6, 48), Built(8, 15, 48, 3)),
        Call("build", (FILE_A, [0, 0], 3, 6, 47), Refused(9, 48)),
        Call("build", (FILE_A, [0, 0], 3, 5, 48), Refused(10, 0)),
        Call("build", (FILE_A, [0, 0], 6, 0, 27), Built(5, 9, 27, 0)),
        Call("judge", (FILE_A, [0, 0], 2, bytes((0, 0)), [0], 5, 5, 6, 48, 9), Accepted()),
        Call("judge", (FILE_A, [0, 0], 2, bytes((0, 1)), [0], 5, 5, 6, 48, 9), Refused(15, 1)),
        Call("judge", (FILE_A, [0, 0], 5, bytes((0, 0)), [0], 5, 5, 6, 48, 9), Refused(15, 2)),
        Call("judge", (FILE_A, [0, 0], LARGEST, bytes((0, 0)), [0], 5, 5, 6, 48, 9), Refused(15, 2)),
        Call("build", (chooser, [0] * 3, 9, 2, 26), Built(5, 7, 26, 1)),
        Call("build", (chooser, [0] * 3, 2, 2, 18), Built(5, 5, 18, 1)),
        Call("judge", (chooser, [0] * 3, 9, bytes((0, 0, 1)), [0], 4, 4, 0, 17, 5), Accepted()),
        Call("judge", (chooser, [0] * 3, 9, bytes((0, 1, 1)), [0], 4, 4, 0, 17, 5), Refused(15, 2)),
        Call("judge", (tied, [0, 0], 2, bytes((1, 0)), [0], 3, 3, 2, 26, 5), Accepted()),
        Call("build", (through, [0], 0, 0, 0), Built(1, 0, 0, 0)),
        Call("judge", (through, [0], 0, bytes((1,)), [0], 1, 1, 0, 1, 2), Accepted()),
    ]


def late_edges():
    """Edges of late inputs, their answers worked out by hand: circuit A with b late; an input that is an output; a gate
    on late inputs, at and past the time up to which they are late.
    """
    through = write_netlist(Netlist(1, [], [0]))
    behind = write_netlist(Netlist(1, [Gate(BUF, [Pin(0, 3)])], [1]))
    both = write_netlist(Netlist(2, [Gate(AND, [Pin(0, 0), Pin(1, 0)])], [2]))
    beside = write_netlist(Netlist(2, [Gate(BUF, [Pin(0, 3)])], [1, 2]))
    latest = write_netlist(Netlist(1, [Gate(BUF, [Pin(node, 999)]) for node in range(448)], [448]))
    calls = [Call("evaluate", (FILE_A, [0, 7], bytes(vector), 5, 5), Settled(time))
             for vector, time in (((0, 0), 8), ((0, 1), 8), ((1, 0), 9), ((1, 1), 8))]
    calls += [Call("evaluate", (FILE_A, [9999, 0], bytes(vector), 5, 5), Settled(time))
              for vector, time in (((0, 0), 2), ((0, 1), 1), ((1, 0), 2), ((1, 1), 1))]
    calls += [Call("evaluate", (latest, [9999], bytes((value,)), 449, 449), Settled(457551)) for value in (0, 1)]
    return calls + [
        Call("evaluate", (through, [5], bytes((1,)), 1, 1), Settled(5)),
        Call("build", (through, [5], 0, 0, 0), Built(1, 0, 0, 0)),
        Call("build", (through, [5], 5, 0, 0), Built(1, 0, 0, 0)),
        Call("build", (through, [5], 6, 0, 1), Built(1, 1, 1, 0)),
        Call("judge", (through, [5], 5, bytes((1,)), [0], 1, 1, 0, 1, 2), Accepted()),
        Call("judge", (through, [5], 4, bytes((1,)), [0], 1, 1, 0, 1, 2), Refused(15, 5)),
        Call("judge", (through, [5], 0, bytes((1,)), [0], 1, 1, 0, 1, 2), Refused(15, 5)),
        Call("build", (behind, [5], 3, 2, 8), Built(3, 3, 8, 1)),
        Call("build", (behind, [5], 8, 2, 8), Built(3, 3, 8, 1)),
        Call("build", (behind, [5], 9, 0, 7), Built(2, 3, 7, 0)),
        Call("build", (behind, [4], 8, 0, 7), Built(2, 3, 7, 0)),
        Call("build", (both, [5, 3], 4, 2, 15), Built(4, 5, 15, 1)),
        Call("build", (both, [5, 3], 3, 2, 12), Built(4, 4, 12, 1)),
        Call("build", (both, [5, 3], 6, 0, 11), Built(3, 4, 11, 0)),
        Call("build", (beside, [0, 3], 3, 2, 6), Built(4, 2, 6, 1)),
        Call("build", (beside, [0, 3], 4, 0, 7), Built(3, 3, 7, 0)),
        Call("judge", (both, [5, 3], 5, bytes((1, 1)), [0], 3, 3, 0, 11, 4), Accepted()),
        Call("judge", (both, [5, 3], 5, bytes((1, 0)), [0], 3, 3, 0, 11, 4), Refused(15, 3)),
        Call("judge", (both, [3, 5], 5, bytes((1, 0)), [0], 3, 3, 0, 11, 4), Accepted()),
        Call("judge", (latest, [9999], 457551, bytes((1,)), [0], 449, 449, 0, 2689, 450), Accepted()),
        Call("judge", (FILE_A, [0, 7], 9, bytes((1, 0)), [0], 5, 5, 0, 27, 6), Accepted()),
        Call("judge", (FILE_A, [0, 7], 8, bytes((0, 1)), [0], 5, 5, 8, 60, 10), Refused(document.STEP, 0)),
    ]


def arrival_edges():
    """Edges of check 16: the number of arrivals, then their size; and its place between 7 and what comes after it."""
    lower = FILE_A[:32] + bytes((5,)) + FILE_A[33:]
    calls = []
    for arrivals, place in (([], 2), ([0], 2), ([0] * 3, 2), ([10000], 2), ([LARGEST] * 3, 2), ([0] * 64, 2),
                            ([10000, 0], 0), ([9999, 10000], 1), ([LARGEST, LARGEST], 0), ([0, LARGEST], 1)):
        wanted = Refused(document.ARRIVAL, place)
        for vector, room in ((bytes((0, 0)), 5), (bytes((2, 0)), 5), (b"", 5), (bytes((0, 0)), 0)):
            calls.append(Call("evaluate", (FILE_A, arrivals, vector, room, room), wanted))
            calls.append(Call("judge", (FILE_A, arrivals, 2, vector, [0], room, room, 6, 48, 9), wanted))
        calls += [Call("build", (FILE_A, arrivals, target, *room), wanted)
                  for target in (0, 3, LARGEST) for room in ((6, 48), (0, 0))]
        wanted = Refused(document.OUTPUT, 0)
        calls += [Call("evaluate", (lower, arrivals, bytes((2, 2)), 5, 5), wanted),
                  Call("build", (lower, arrivals, 3, 6, 48), wanted),
                  Call("judge", (lower, arrivals, 2, b"", [0], 5, 5, 6, 48, 9), wanted)]
    return calls + [
        Call("evaluate", (FILE_A, [9999, 9999], bytes((2, 0)), 5, 5), Refused(document.VECTOR, 0)),
        Call("evaluate", (FILE_A, [9999, 9999], bytes((0, 0)), 4, 5), Refused(document.ROOM, 5)),
        Call("build", (FILE_A, [9999, 9999], 10002, 1, 99), Refused(document.PAIRS, 0)),
    ]


def refutation_edges():
    """Edges of check."""
    four = [1, 2, 0, 1, -2, 0, -1, 2, 0, -1, -2, 0]
    return [
        Call("check", (2, four, [0], 3), Refused(14, 0)),
        Call("check", (2, four, [1, 0, 0], 3), Passes()),
        Call("check", (2, [1, 2, 0], [1, -1, 0, 0], 3), Refused(14, 1)),
        Call("check", (2, four, [0, 0], 3), Refused(13, 0)),
        Call("check", (2, [], [0], 3), Refused(14, 0)),
        Call("check", (0, [1, 0], [0], 1), Refused(11, 0)),
        Call("check", (2, four, [1, 0], 3), Refused(13, 1)),
        Call("check", (2, four, [], 3), Refused(12, 0)),
        Call("check", (2, four, [0], 2), Refused(9, 3)),
        Call("check", (100000, [100000, 0], [-100000, 0, 0], 100001), Refused(14, 0)),
        Call("check", (100000, [100000, 0, -100000, 0], [0], 100001), Passes()),
        Call("check", (100001, [100000, 0, -100000, 0], [0], 100002), Refused(11, 0)),
        Call("check", (LARGEST, [LEAST_SIGNED, 0], [0], 5), Refused(11, 0)),
        Call("check", (100000, [1, LEAST_SIGNED, 0], [0], 5), Refused(11, 1)),
        Call("check", (100000, [1, 0], [1, LEAST_SIGNED, 0], 5), Refused(12, 1)),
    ]


def ladder_calls(dice, count, arrival=0):
    """Calls of build around a number of pairs: the table exact, one short, odd and larger; the formula at its edge. The
    target is later by the arrival, and so the pairs are as many whatever it is.
    """
    netlist = methods.ladders_for_pairs(dice, count)
    given = write_netlist(netlist), [arrival], methods.LADDER_TARGET + arrival
    if count > document.MOST_PAIRS:
        return [Call("build", (*given, room, 1000), Refused(10, 0)) for room in (2 * count, 2 * count + 3)]
    _, numbers = size_of_formula(*given)
    built = Built(node_count(netlist) + count, None, numbers, count)
    return [
        Call("build", (*given, 2 * count, numbers), built),
        Call("build", (*given, 2 * count + 5, numbers + 3), built),
        Call("build", (*given, 2 * count - 1, numbers), Refused(10, 0)),
        Call("build", (*given, 2 * count - 2, numbers), Refused(10, 0)),
        Call("build", (*given, 2 * count, numbers - 1), Refused(9, numbers)),
    ]


def largest_calls(dice):
    """Calls on a circuit with as many inputs, gates, pins and outputs as may be."""
    netlist = methods.largest_netlist(dice)
    data, calls = write_netlist(netlist), [evaluate_call(dice, netlist) for _ in range(4)]
    for arrivals in (in_time(netlist), arrivals_of(dice, netlist, False)):
        top = max(document.tops_of(netlist, arrivals))
        for target in (0, 1, 2, top, top + 1, LARGEST):
            pairs, numbers = size_of_formula(data, arrivals, target)
            calls.append(Call("build", (data, arrivals, target, *rooms(dice, 2 * pairs, numbers))))
    return calls


BOUNDARY_SHARES = 8


def boundary_calls(dice, share):
    """Calls of evaluate, build and judge on a share of the files at the boundaries of checks 1 to 7."""
    calls = []
    for data in bundles.netlist_cases()[share::BOUNDARY_SHARES]:
        inputs = struct.unpack_from("<H", data, len(data) - 10)[0] if len(data) >= 14 else 1
        vector, arrivals = methods.random_vector(dice, inputs % 100), [dice.randrange(2)] * (inputs % 100)
        calls.append(Call("evaluate", (data, arrivals, vector, 520, 520)))
        calls.append(Call("build", (data, arrivals, dice.choice((0, 1, 3)), 60, 9000)))
        calls.append(Call("judge", (data, arrivals, dice.choice((0, 1)), vector, [0], 520, 520, 60, 9000, 600)))
    return calls


def wide_calls(dice):
    """Calls on a circuit of some hundred gates."""
    netlist = with_small_delays(dice, methods.random_netlist(dice, 64, 300, 900))
    return [evaluate_call(dice, netlist), build_call(dice, netlist), build_call(dice, netlist)]


def adder_calls(bits, block, late=0):
    """The certificate of a carry bypass adder, which must be accepted, and the same with a step or room too few."""
    netlist = adder.bypass_adder(bits, block)
    arrivals = adder.carry_late(netlist, late)
    delay, vector, refutation = adder.certificate(netlist, arrivals)
    given, enough = (write_netlist(netlist), arrivals), adder.rooms_for(netlist, arrivals, delay)
    calls = [Call("judge", (*given, delay, vector, refutation, *enough), Accepted()),
             Call("judge", (*given, delay, vector, [0], *enough), Refused(document.STEP, 0)),
             Call("judge", (*given, delay - 1, vector, refutation, *enough), Refused(document.WITNESS, delay))]
    for place, refusal in enumerate((document.ROOM, document.ROOM, document.PAIRS, document.ROOM, document.ROOM)):
        needed = 0 if refusal == document.PAIRS else enough[place]
        short = [room - (place == other) for other, room in enumerate(enough)]
        calls.append(Call("judge", (*given, delay, vector, refutation, *short), Refused(refusal, needed)))
    return calls


FIRST_ROUNDS = [
    lambda dice: edge_calls(),
    lambda dice: adder_calls(12, 2),
    lambda dice: adder_calls(16, 4),
    lambda dice: adder_calls(12, 2, 10),
]

# How many pairs the ladders have, around the most that a table holds and few; the number of the round of each.
LADDERS = (65535, 65536, 65537, 1, 2, 3, 10, 100, 1000)
LADDER_ROUNDS = {count: len(FIRST_ROUNDS) + place for place, count in enumerate(LADDERS)}
LATE_LADDERS = (65536, 3, 100)

FIXED_ROUNDS = [
    *FIRST_ROUNDS,
    *[lambda dice, count=count: ladder_calls(dice, count) for count in LADDERS],
    *[lambda dice, count=count: ladder_calls(dice, count, document.MOST_ARRIVAL) for count in LATE_LADDERS],
    solver_calls,
    *[largest_calls] * 4,
    *[lambda dice, share=share: boundary_calls(dice, share) for share in range(BOUNDARY_SHARES)],
]


# Rounds

LEAST_CALLS = 12


def rounds_for(count):
    """The number of rounds that make at least so many calls, the fixed rounds not counted."""
    return len(FIXED_ROUNDS) + (count + LEAST_CALLS - 1) // LEAST_CALLS


def calls_of_round(dice, number):
    """The calls of one round, and complaints of the peers."""
    if number < len(FIXED_ROUNDS):
        return FIXED_ROUNDS[number](dice), []
    calls = [evaluate_call(dice, some_netlist(dice, 8)) for _ in range(4)]
    calls += [build_call(dice, some_netlist(dice)) for _ in range(3)]
    calls += [check_call(dice) for _ in range(3)]
    netlist = methods.random_netlist(dice, 4, 8, 30)
    calls += [judge_call(dice, netlist, arrivals_of(dice, netlist, False)), judge_call(dice, *hard_circuit(dice, 4))]
    if number % 50 == 0:
        calls += wide_calls(dice)
    complaints = []
    if number % 8 == 0:
        more, complaints = peer_calls(dice)
        calls += more
    return calls, complaints
