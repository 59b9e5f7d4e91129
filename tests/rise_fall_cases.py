"""The calls that the comparison makes where rise and fall are apart: seeded random ones of the three functions, those
on which SAT solvers are peers, and fixed ones whose answers were worked out by hand.

Made where the archive has these calls (tests/tools.py: has_rise_fall). What each must give is worked out by
tests/rise_fall.py. Every maker takes dice, so a seed gives the same calls on every machine.
"""

import bundles
import document
import methods
import rise_fall
import solvers
from calls import Call
from cases import (ANY_REFUSAL, BOUNDARY_SHARES, FILE_A, LARGEST, arrivals_of, damage_numbers, damage_steps, file_of,
                   needed_steps, room_enough, rooms, small_arrivals, some_netlist, tree_refutation, vector_of,
                   with_small_delays)
from document import (AND, BUF, FALL, MUX, NOT, XOR, Accepted, Built, Gate, Netlist, Pin, Refused, Settled, node_count,
                      numbers_of, write_netlist)
from methods import own_falls

EVALUATE, BUILD, JUDGE = "evaluate_rise_fall", "build_rise_fall", "judge_rise_fall"


# What a call takes


def falls_of(dice, netlist, faulty):
    """Fall delays, bad if so asked."""
    return (methods.bad_falls if faulty else methods.random_falls)(dice, netlist)


def small_falls(dice, netlist):
    """Fall delays of the size of small delays."""
    return [dice.choice((0, 1, 1, 2, 3, 5)) for _ in own_falls(netlist)]


def top_of(netlist, arrivals, falls):
    """The topological delay."""
    tops = rise_fall.tops_of(netlist, arrivals, falls)
    return max(tops[node] for node in netlist.outputs)


def target_near(dice, netlist, arrivals, falls):
    """A target: 0, 1, around the true delay, around the topological delay, around an arrival, any, or the largest."""
    top = top_of(netlist, arrivals, falls)
    true = methods.true_delay_apart(netlist, arrivals, falls)[0] if netlist.inputs <= 4 else top // 2
    arrival = dice.choice(arrivals)
    return max(0, dice.choice((0, 1, true - 1, true, true + 1, top - 1, top, top + 1, arrival, arrival + 1,
                               dice.randrange(top + 2), dice.randrange(top + 2),
                               dice.choice((LARGEST, LARGEST - 1, 2 ** 31)))))


def formula_for(netlist, arrivals, falls, target):
    """The number of pairs and the clauses of a formula."""
    pairs = rise_fall.pairs_of(netlist, arrivals, falls, target, document.MOST_PAIRS)
    return len(pairs), rise_fall.clauses_for(netlist, arrivals, falls, target, pairs)


def size_of_formula(data, arrivals, falls, target):
    """The pairs and the numbers of a formula; none where there is no formula."""
    try:
        pairs, clauses = formula_for(rise_fall.read_checked(data, arrivals, falls), arrivals, falls, target)
    except document.Refusal:
        return 0, 0
    return pairs, sum(len(clause) + 1 for clause in clauses)


def needed_by_judge(nodes, pairs, numbers):
    """The lengths that a certificate call needs."""
    return nodes, nodes, 3 * pairs, numbers, nodes + pairs + 1


def refutation_for(netlist, arrivals, falls, target):
    """A refutation of a formula that has no solution: the empty clause if that will do, else the tree over inputs."""
    _, clauses = formula_for(netlist, arrivals, falls, target)
    if methods.first_gap(clauses, [[]]) is None:
        return [[]]
    return tree_refutation(tuple(range(1, netlist.inputs + 1)))


def hard_circuit(dice, most_inputs):
    """A circuit, its arrivals and falls, at whose true delay the empty clause alone is no refutation, if one is soon
    found.
    """
    for _ in range(12):
        netlist = with_small_delays(dice, methods.random_netlist(dice, most_inputs, 20, 50))
        arrivals, falls = small_arrivals(dice, netlist), small_falls(dice, netlist)
        delay, _ = methods.true_delay_apart(netlist, arrivals, falls)
        if refutation_for(netlist, arrivals, falls, delay + 1) != [[]]:
            break
    return netlist, arrivals, falls


# Random calls


def evaluate_call(dice, netlist):
    """A call of evaluate, some with a damaged file, bad arrivals, bad falls, a bad vector, two of these, or too small
    rooms.
    """
    nodes, fault = node_count(netlist), dice.randrange(16)
    data, arrivals = file_of(dice, netlist, fault < 3), arrivals_of(dice, netlist, fault in (2, 3, 4))
    falls = falls_of(dice, netlist, fault in (1, 4, 5, 6))
    vector = vector_of(dice, netlist, fault in (6, 7))
    return Call(EVALUATE, (data, arrivals, falls, vector, *rooms(dice, nodes, nodes)))


def build_call(dice, netlist):
    """A call of build, some with a damaged file, bad arrivals, bad falls, two of these, or rooms that are too small."""
    fault = dice.randrange(14)
    arrivals, falls = arrivals_of(dice, netlist, False), falls_of(dice, netlist, False)
    data, target = file_of(dice, netlist, fault < 2), target_near(dice, netlist, arrivals, falls)
    pairs, numbers = size_of_formula(data, arrivals, falls, target)
    if fault in (1, 2, 3):
        falls = falls_of(dice, netlist, True)
    if fault in (3, 4):
        arrivals = arrivals_of(dice, netlist, True)
    return Call(BUILD, (data, arrivals, falls, target, *rooms(dice, 3 * pairs, numbers)))


def accepted_certificate(dice, netlist, arrivals, falls, delay, vector, refutation):
    """A call of judge that must be accepted."""
    data = write_netlist(netlist)
    pairs, numbers = size_of_formula(data, arrivals, falls, delay + 1)
    enough = [room_enough(dice, length) for length in needed_by_judge(node_count(netlist), pairs, numbers)]
    return Call(JUDGE, (data, arrivals, falls, delay, vector, refutation, *enough), Accepted())


def judge_call(dice, netlist, arrivals, falls):
    """A call of judge: a right certificate, or one with a wrong delay, vector, refutation, file, arrival, fall or
    room.
    """
    delay, vector = methods.true_delay_apart(netlist, arrivals, falls)
    vector, steps = bytes(vector), refutation_for(netlist, arrivals, falls, delay + 1)
    data, refutation = write_netlist(netlist), numbers_of(steps)
    nodes, (pairs, numbers) = node_count(netlist), size_of_formula(data, arrivals, falls, delay + 1)
    fault = dice.randrange(16)
    if fault < 3:
        return accepted_certificate(dice, netlist, arrivals, falls, delay, vector, refutation)
    if fault in (3, 4):
        vector = vector_of(dice, netlist, fault == 3)
    if fault in (4, 5):
        delay = max(0, delay + dice.choice((-1, 1, LARGEST - delay, 10)))
    if fault in (6, 7):
        refutation = numbers_of(damage_steps(dice, nodes + pairs, steps))
    if fault in (7, 8):
        refutation = damage_numbers(dice, nodes + pairs, refutation)
    if fault == 9:
        data = methods.damage(dice, netlist)
    if fault == 10:
        refutation = [0]
    if fault in (11, 12):
        arrivals = arrivals_of(dice, netlist, fault == 12)
    if fault in (12, 13, 14):
        falls = falls_of(dice, netlist, fault != 14)
    if fault == 13:
        vector = vector_of(dice, netlist, True)
    enough = rooms(dice, *needed_by_judge(nodes, pairs, numbers))
    return Call(JUDGE, (data, arrivals, falls, delay, vector, refutation, *enough))


def equal_calls(dice, netlist):
    """Calls with equal lists: the times are those of one delay a pin."""
    arrivals, falls, nodes = arrivals_of(dice, netlist, False), own_falls(netlist), node_count(netlist)
    data, vector = write_netlist(netlist), vector_of(dice, netlist, False)
    _, times = document.settle(netlist, arrivals, vector)
    wanted = Settled(document.circuit_time(netlist, times))
    return [Call(EVALUATE, (data, arrivals, falls, vector, nodes, nodes), wanted),
            Call("evaluate", (data, arrivals, vector, nodes, nodes), wanted)]


# Peers


def peer_calls(dice):
    """Calls on one circuit whose formulas two solvers answered; first the solvers' own disagreements, in words."""
    netlist, arrivals, falls = hard_circuit(dice, dice.choice((3, 4, 5, 6)))
    delay, vector = methods.true_delay_apart(netlist, arrivals, falls)
    data, calls, complaints = write_netlist(netlist), [], []
    for target in sorted({delay, delay + 1, max(1, dice.randrange(delay + 3))}):
        pairs, clauses = formula_for(netlist, arrivals, falls, target)
        for name, solver in solvers.SOLVERS:
            has_model, found = solver(node_count(netlist) + pairs, clauses)
            if has_model != (target <= delay):
                complaints.append("%s: a model at %d: %s; true delay %d" % (name, target, has_model, delay))
            elif has_model:
                calls.append(model_call(netlist, arrivals, falls, target, found, complaints))
            elif target == delay + 1:
                certificate = arrivals, falls, delay, bytes(vector)
                calls.append(accepted_certificate(dice, netlist, *certificate, numbers_of(found)))
                calls += false_certificates(dice, netlist, *certificate, needed_steps(clauses, found))
    return calls, complaints


def model_call(netlist, arrivals, falls, target, model, complaints):
    """A call of evaluate on a solver's model, whose vector must settle at the target or later; and the pairs that are
    true in it must be true of the circuit.
    """
    vector = bytes(1 if node + 1 in model else 0 for node in range(netlist.inputs))
    values, times = methods.settled_apart(netlist, arrivals, falls, vector)
    time, nodes = max(times[node] for node in netlist.outputs), node_count(netlist)
    if time < target:
        complaints.append("a model at %d settles before" % target)
    pairs = rise_fall.pairs_of(netlist, arrivals, falls, target, document.MOST_PAIRS)
    for number, (node, value, t) in enumerate(pairs, nodes + 1):
        if number in model and (values[node] != value or times[node] < t):
            complaints.append("a model says that node %d is late at %d with value %d" % (node, t, value))
    return Call(EVALUATE, (write_netlist(netlist), arrivals, falls, vector, nodes, nodes), Settled(time))


def false_certificates(dice, netlist, arrivals, falls, delay, vector, steps):
    """Calls of judge beside the true certificate, none of which may be accepted: one less and one more than the true
    delay, a refutation without its first needed step, other falls under which another delay is the true one, rise and
    fall exchanged where that makes another one.
    """
    data, refutation = write_netlist(netlist), numbers_of(steps)
    pairs, numbers = size_of_formula(data, arrivals, falls, delay + 1)
    room = needed_by_judge(node_count(netlist), pairs, numbers)
    calls = [Call(JUDGE, (data, arrivals, falls, claimed, vector, refutation, *room), Refused(document.WITNESS, delay))
             for claimed in {max(0, delay - 1), delay + 1} if claimed != delay]
    if len(steps) > 1:
        _, clauses = formula_for(netlist, arrivals, falls, delay + 1)
        gap = Refused(document.STEP, methods.first_gap(clauses, steps[1:]))
        calls.append(Call(JUDGE, (data, arrivals, falls, delay, vector, numbers_of(steps[1:]), *room), gap))
    for other, of in (small_falls(dice, netlist), netlist), exchanged(netlist, falls):
        if methods.true_delay_apart(of, arrivals, other)[0] != delay:
            data = write_netlist(of)
            pairs, numbers = size_of_formula(data, arrivals, other, delay + 1)
            room = needed_by_judge(node_count(of), pairs, numbers)
            calls.append(Call(JUDGE, (data, arrivals, other, delay, vector, refutation, *room), ANY_REFUSAL))
    return calls


def exchanged(netlist, falls):
    """The netlist's own delays as falls, and the netlist with the falls for its own."""
    rest, gates = iter(falls), []
    for gate in netlist.gates:
        gates.append(Gate(gate.kind, [Pin(pin.driver, next(rest)) for pin in gate.pins]))
    return own_falls(netlist), Netlist(netlist.inputs, gates, netlist.outputs)


# Fixed calls


def edge_calls():
    """Edges whose answers were worked out by hand."""
    return settling_edges() + formula_edges() + room_edges() + fall_edges()


def settling_edges():
    """Edges of settling. Circuit A with falls of 7 at its first pin, 2 at the AND's, 4 at the OR's; an inverter; XOR of
    one input twice; MUX whose data agree or differ.
    """
    falls_a = [7, 2, 2, 4, 4]
    inverter = write_netlist(Netlist(1, [Gate(NOT, [Pin(0, 3)])], [1]))
    twice = write_netlist(Netlist(1, [Gate(XOR, [Pin(0, 1), Pin(0, 4)])], [1]))
    chooser = write_netlist(Netlist(3, [Gate(MUX, [Pin(0, 9), Pin(1, 1), Pin(2, 2)])], [3]))
    calls = [Call(EVALUATE, (FILE_A, [0, 0], falls_a, bytes(vector), 5, 5), Settled(time))
             for vector, time in (((0, 0), 6), ((0, 1), 1), ((1, 0), 6), ((1, 1), 1))]
    calls += [Call(EVALUATE, (inverter, [0], [5], bytes((value,)), 2, 2), Settled(time))
              for value, time in ((0, 3), (1, 5))]
    calls += [Call(EVALUATE, (twice, [0], [2, 3], bytes((value,)), 2, 2), Settled(3)) for value in (0, 1)]
    calls += [Call(EVALUATE, (chooser, [0] * 3, [4, 5, 6], bytes(vector), 4, 4), Settled(time))
              for vector, time in (((0, 0, 0), 5), ((0, 1, 0), 9), ((0, 0, 1), 5), ((0, 1, 1), 2), ((1, 0, 0), 6),
                                   ((1, 1, 0), 6), ((1, 0, 1), 9), ((1, 1, 1), 2))]
    return calls


def formula_edges():
    """Edges of formulas and certificates, their numbers counted by hand: a buffer that rises in 3 and falls in 5 at
    each target; the same with a late input; an input that is the output; a table one number short.
    """
    through = write_netlist(Netlist(1, [], [0]))
    buffer = write_netlist(Netlist(1, [Gate(BUF, [Pin(0, 3)])], [1]))
    both = write_netlist(Netlist(2, [Gate(AND, [Pin(0, 2), Pin(1, 4)])], [2]))
    return [
        Call(BUILD, (through, [0], [], 0, 0, 0), Built(1, 0, 0, 0)),
        Call(BUILD, (through, [7], [], 7, 0, 0), Built(1, 0, 0, 0)),
        Call(BUILD, (through, [7], [], 8, 0, 1), Built(1, 1, 1, 0)),
        Call(JUDGE, (through, [7], [], 7, bytes((1,)), [0], 1, 1, 0, 1, 2), Accepted()),
        Call(BUILD, (buffer, [0], [5], 0, 0, 6), Built(2, 2, 6, 0)),
        # Both pairs at 3: "-p, is v" each; the driver is surely late with either delay; the outputs' clause of two.
        Call(BUILD, (buffer, [0], [5], 3, 6, 15), Built(4, 5, 15, 2)),
        # At 4 a rise is not late: "-p" and "-p, driver is not 0" for the pair of value 1.
        Call(BUILD, (buffer, [0], [5], 4, 6, 20), Built(4, 7, 20, 2)),
        Call(BUILD, (buffer, [0], [5], 5, 6, 20), Built(4, 7, 20, 2)),
        Call(BUILD, (buffer, [0], [5], 6, 0, 7), Built(2, 3, 7, 0)),
        Call(BUILD, (buffer, [0], [5], 4, 5, 20), Refused(document.PAIRS, 0)),
        Call(BUILD, (buffer, [0], [5], 4, 8, 19), Refused(document.ROOM, 20)),
        Call(BUILD, (buffer, [4], [5], 7, 6, 15), Built(4, 5, 15, 2)),
        Call(JUDGE, (buffer, [0], [5], 5, bytes((0,)), [0], 2, 2, 0, 7, 3), Accepted()),
        Call(JUDGE, (buffer, [0], [5], 5, bytes((1,)), [0], 2, 2, 0, 7, 3), Refused(document.WITNESS, 3)),
        Call(JUDGE, (buffer, [0], [5], 3, bytes((1,)), [0], 2, 2, 6, 20, 5), Refused(document.STEP, 0)),
        # An AND that rises by 2 and 4, and falls by 9 and 1: it falls at 9 where the first input alone is 0.
        Call(EVALUATE, (both, [0, 0], [9, 1], bytes((0, 1)), 3, 3), Settled(9)),
        Call(EVALUATE, (both, [0, 0], [9, 1], bytes((0, 0)), 3, 3), Settled(1)),
        Call(EVALUATE, (both, [0, 0], [9, 1], bytes((1, 1)), 3, 3), Settled(4)),
        Call(JUDGE, (both, [0, 0], [9, 1], 9, bytes((0, 1)), [0], 3, 3, 0, 11, 4), Accepted()),
    ]


def room_edges():
    """Each room exact, and each one short by itself: two inverters in a row, which rise in 5 and in 6 and fall in 2,
    the input at 1. Their formula for 10 has 46 numbers and 4 pairs.
    """
    data = write_netlist(Netlist(1, [Gate(NOT, [Pin(0, 5)]), Gate(NOT, [Pin(1, 6)])], [2]))
    exact = (3, 3, 12, 46, 8)
    calls = [Call(EVALUATE, (data, [1], [2, 2], bytes((1,)), 3, 3), Settled(9)),
             Call(EVALUATE, (data, [1], [2, 2], bytes((0,)), 3, 3), Settled(8)),
             Call(EVALUATE, (data, [1], [2, 2], bytes((1,)), 2, 3), Refused(document.ROOM, 3)),
             Call(EVALUATE, (data, [1], [2, 2], bytes((1,)), 3, 2), Refused(document.ROOM, 3)),
             Call(BUILD, (data, [1], [2, 2], 10, 12, 46), Built(7, 15, 46, 4)),
             Call(BUILD, (data, [1], [2, 2], 10, 14, 46), Built(7, 15, 46, 4)),
             Call(BUILD, (data, [1], [2, 2], 10, 11, 46), Refused(document.PAIRS, 0)),
             Call(BUILD, (data, [1], [2, 2], 10, 12, 45), Refused(document.ROOM, 46)),
             Call(JUDGE, (data, [1], [2, 2], 9, bytes((1,)), [0], *exact), Accepted())]
    for place, needed in enumerate(exact):
        short = [room - (place == other) for other, room in enumerate(exact)]
        wanted = Refused(document.PAIRS, 0) if place == 2 else Refused(document.ROOM, needed)
        calls.append(Call(JUDGE, (data, [1], [2, 2], 9, bytes((1,)), [0], *short), wanted))
    return calls


def fall_edges():
    """Edges of check 19: the number of falls, then their size; and its place between 16 and what comes after it."""
    lower = FILE_A[:32] + bytes((5,)) + FILE_A[33:]
    calls = []
    for falls, place in (([], 5), ([0] * 4, 5), ([0] * 6, 5), ([1000] * 4, 5), ([LARGEST] * 6, 5), ([0] * 2048, 5),
                         ([1000, 0, 0, 0, 0], 0), ([999, 999, 1000, 0, 1000], 2), ([0, 0, 0, 0, LARGEST], 4)):
        wanted = Refused(FALL, place)
        for vector, room in ((bytes((0, 0)), 5), (bytes((2, 0)), 5), (b"", 5), (bytes((0, 0)), 0)):
            calls.append(Call(EVALUATE, (FILE_A, [0, 0], falls, vector, room, room), wanted))
            calls.append(Call(JUDGE, (FILE_A, [0, 0], falls, 2, vector, [0], room, room, 18, 99, 12), wanted))
        calls += [Call(BUILD, (FILE_A, [0, 0], falls, target, *room), wanted)
                  for target in (0, 3, LARGEST) for room in ((18, 99), (0, 0))]
        wanted = Refused(document.ARRIVAL, 2)
        calls += [Call(EVALUATE, (FILE_A, [0], falls, bytes((2, 2)), 5, 5), wanted),
                  Call(BUILD, (FILE_A, [0] * 3, falls, 3, 18, 99), wanted),
                  Call(JUDGE, (FILE_A, [], falls, 2, b"", [0], 5, 5, 18, 99, 12), wanted)]
        wanted = Refused(document.OUTPUT, 0)
        calls += [Call(EVALUATE, (lower, [0, 0], falls, bytes((2, 2)), 5, 5), wanted),
                  Call(BUILD, (lower, [0, 0], falls, 3, 18, 99), wanted),
                  Call(JUDGE, (lower, [0], falls, 2, b"", [0], 5, 5, 18, 99, 12), wanted)]
    most = [999] * 5
    return calls + [
        Call(EVALUATE, (FILE_A, [0, 0], most, bytes((2, 0)), 5, 5), Refused(document.VECTOR, 0)),
        Call(EVALUATE, (FILE_A, [0, 0], most, bytes((0, 0)), 4, 5), Refused(document.ROOM, 5)),
        Call(EVALUATE, (FILE_A, [0, 0], most, bytes((0, 0)), 5, 5), Settled(1998)),
        Call(BUILD, (FILE_A, [0, 0], most, 3, 2, 99), Refused(document.PAIRS, 0)),
    ]


def ladder_calls(dice, count):
    """Calls of build around a number of pairs: the table exact, a number and a pair short, larger; the formula at its
    edge. With equal lists the ladders of one delay a pin have twice as many pairs.
    """
    netlist = methods.ladders_for_pairs(dice, count // 2)
    given = write_netlist(netlist), [0], own_falls(netlist), methods.LADDER_TARGET
    if count > document.MOST_PAIRS:
        return [Call(BUILD, (*given, room, 1000), Refused(10, 0)) for room in (3 * count, 3 * count + 5)]
    _, numbers = size_of_formula(*given)
    built = Built(node_count(netlist) + count, None, numbers, count)
    return [
        Call(BUILD, (*given, 3 * count, numbers), built),
        Call(BUILD, (*given, 3 * count + 5, numbers + 3), built),
        Call(BUILD, (*given, 3 * count - 1, numbers), Refused(10, 0)),
        Call(BUILD, (*given, 3 * count - 3, numbers), Refused(10, 0)),
        Call(BUILD, (*given, 3 * count, numbers - 1), Refused(9, numbers)),
    ]


def largest_calls(dice):
    """Calls on a circuit with as many inputs, gates, pins and outputs as may be."""
    netlist = methods.largest_netlist(dice)
    data, calls = write_netlist(netlist), [evaluate_call(dice, netlist) for _ in range(4)]
    arrivals, falls = arrivals_of(dice, netlist, False), falls_of(dice, netlist, False)
    for target in (0, 1, 2, top_of(netlist, arrivals, falls), top_of(netlist, arrivals, falls) + 1, LARGEST):
        pairs, numbers = size_of_formula(data, arrivals, falls, target)
        calls.append(Call(BUILD, (data, arrivals, falls, target, *rooms(dice, 3 * pairs, numbers))))
    return calls


def boundary_calls(dice, share):
    """Calls of the three functions on a share of the files at the boundaries of checks 1 to 7, falls of any number."""
    calls = []
    for data in bundles.netlist_cases()[share::BOUNDARY_SHARES]:
        try:
            netlist = document.read_netlist(data)
            inputs, pins = netlist.inputs, rise_fall.pin_count(netlist)
        except document.Refusal:
            inputs, pins = dice.randint(1, 4), dice.randrange(4)
        vector, arrivals = methods.random_vector(dice, inputs), [dice.randrange(2)] * inputs
        falls = [dice.randrange(3) for _ in range(pins + dice.choice((0, 0, 0, 0, 1)))]
        calls.append(Call(EVALUATE, (data, arrivals, falls, vector, 520, 520)))
        calls.append(Call(BUILD, (data, arrivals, falls, dice.choice((0, 1, 3)), 180, 9000)))
        calls.append(Call(JUDGE, (data, arrivals, falls, dice.choice((0, 1)), vector, [0], 520, 520, 180, 9000, 600)))
    return calls


LADDERS = (65534, 65536, 65538, 2, 6, 20, 200, 2000)

FIXED_ROUNDS = [
    lambda dice: edge_calls(),
    *[lambda dice, count=count: ladder_calls(dice, count) for count in LADDERS],
    *[largest_calls] * 2,
    *[lambda dice, share=share: boundary_calls(dice, share) for share in range(BOUNDARY_SHARES)],
]


# Rounds. Their numbers start behind those of tests/cases.py.

FIRST_ROUND = 1_000_000
LEAST_CALLS = 13


def rounds_for(count):
    """The number of rounds that make at least so many calls, the fixed rounds not counted."""
    return len(FIXED_ROUNDS) + (count + LEAST_CALLS - 1) // LEAST_CALLS


def calls_of_round(dice, number):
    """The calls of one round, and complaints of the peers."""
    number -= FIRST_ROUND
    if number < len(FIXED_ROUNDS):
        return FIXED_ROUNDS[number](dice), []
    calls = [evaluate_call(dice, some_netlist(dice, 8)) for _ in range(4)]
    calls += [build_call(dice, some_netlist(dice)) for _ in range(4)]
    calls += equal_calls(dice, some_netlist(dice))
    netlist = methods.random_netlist(dice, 4, 8, 30)
    calls += [judge_call(dice, netlist, arrivals_of(dice, netlist, False), falls_of(dice, netlist, False)),
              judge_call(dice, *hard_circuit(dice, 4)), judge_call(dice, *hard_circuit(dice, 3))]
    complaints = []
    if number % 8 == 0:
        more, complaints = peer_calls(dice)
        calls += more
    return calls, complaints
