"""The search: delays as brute force finds them, by each solver and without one, and the largest circuits."""

import unittest

import large_circuits
import methods
from asking import COURSE, Asking
from buzzlumen import netlist, search
from buzzlumen.library import Library
from document import pairs_of, write_netlist

CIRCUITS = 60
# A whole search may take three times the solver's own seconds, and the start of the command.
TIMES_THE_SOLVER, START_SECONDS = 3, 0.5


def small_circuits():
    """Circuits that can be tried vector by vector."""
    return [methods.random_netlist(methods.Dice(seed, 13), 5, 12) for seed in range(CIRCUITS)]


class Delays(Asking):
    """Delays of small circuits."""

    def paths(self, circuits):
        """Their netlist files."""
        return [self.file(f"{place}.netlist", write_netlist(each)) for place, each in enumerate(circuits)]

    def test_brute_force(self):
        """The delay is the largest settling time over all vectors, whoever finds it."""
        circuits = small_circuits()
        paths = self.paths(circuits)
        wanted = "".join(f"{path}: delay {methods.true_delay(each)[0]}\n" for path, each in zip(paths, circuits))
        without = self.environment(PATH=self.without_solver())
        for words, options in (((), {}), (("--solver", "picosat"), {}), ((), {"env": without})):
            self.assertEqual(self.ask("delay", *paths, *words, **options).out, wanted)

    def test_first_vector(self):
        """Of few inputs the vector is the first in order that reaches the delay."""
        for seed in range(6):
            circuit = methods.random_netlist(methods.Dice(seed, 7), 5, 12)
            vector = methods.true_delay(circuit)[1]
            words = " ".join(f"n{node}={value}" for node, value in enumerate(vector))
            self.assertIn(f": {words} settles at", self.ask("delay", self.paths([circuit])[0]).err)

    def test_without_solver(self):
        """Where no solver is installed that is said; of more than 12 inputs there is no answer."""
        without = self.environment(PATH=self.without_solver())
        answer = self.ask("delay", COURSE / "circuit_a.txt", env=without)
        self.assertEqual(answer.out, "delay 2\n")
        self.assertIn("No solver is installed (Debian's cadical or picosat): every vector is tried", answer.err)
        wide = self.file("wide", "input " + " ".join(f"i{n}" for n in range(13)) + "\noutput i0\n")
        answer = self.ask("delay", wide, status=3, env=without)
        self.assertIn("13 inputs are too many to try every vector: install Debian's cadical or picosat", answer.err)
        self.assertIn("Debian's package is called picosat",
                      self.ask("delay", COURSE / "circuit_a.txt", "--solver", "picosat", status=3, env=without).err)
        self.ask("delay", COURSE / "circuit_a.txt", "--solver", "minisat", status=2)

    def test_twelve_inputs(self):
        """A circuit of 12 inputs, tried vector by vector, and its certificate."""
        names = [f"i{n}" for n in range(12)]
        text = "input " + " ".join(names) + "\nx0 = XOR(i0:3, i1:2)\n"
        text += "".join(f"x{n} = XOR(x{n - 1}:{n}, i{n + 1}:1)\n" for n in range(1, 11))
        text += "g = AND(x10:1, i0:1)\nh = OR(g:1, i0:1)\noutput h\n"
        path, made = self.file("twelve", text), self.folder / "made"
        answers = [self.ask("delay", path, "-o", made, "-f", env=env).out
                   for env in (self.environment(), self.environment(PATH=self.without_solver()))]
        self.assertEqual(answers[0], answers[1])
        self.assertEqual(self.ask("judge", path, made).out, "accepted\n")


class LargestCircuits(Asking):
    """The largest circuits."""

    def test_accepted(self):
        """Each has its certificate, and the whole takes little longer than the solver."""
        for name, make in large_circuits.LARGEST.items():
            path = self.file("large.netlist", write_netlist(make()))
            # The machine may be busy with other things: one good run of three is enough.
            for _ in range(3):
                answer, own, _, whole = large_circuits.measure(path)
                self.assertEqual(answer.status, 0, (name, answer))
                if whole <= TIMES_THE_SOLVER * own + START_SECONDS:
                    break
            self.assertLessEqual(whole, TIMES_THE_SOLVER * own + START_SECONDS, name)

    def test_known_delays(self):
        """The adder of 12 bits has the delay that the literature gives it."""
        path = self.file("adder", write_netlist(large_circuits.bypass_adder(12, 2)))
        answer = self.ask("delay", path)
        self.assertEqual(answer.out, "delay 23\n")
        self.assertIn("The longest path adds up to 40.", answer.err)

    def test_too_many_pairs_between(self):
        """Where formulas between the longest path and the delay have too many pairs, the delay is found from below, or
        output by output."""
        for stages, copies in ((150, 1), (70, 3)):
            path = self.file("ladder", write_netlist(large_circuits.ladders(stages, copies)))
            self.assertIn("PAIRS: the formula for T=1500 has ", self.ask("formula", path, "1500", status=1).err)
            self.assertEqual(self.ask("delay", path).out, "delay 2\n")

    def test_too_many_pairs_at_the_delay(self):
        """Where the formula for the delay + 1 has too many pairs there is no certificate, and the solver's word is
        told for what it is."""
        path = self.file("ladder", write_netlist(large_circuits.ladders(70, 3, 1500)))
        answer = self.ask("delay", path, status=1)
        self.assertEqual(answer.out, "refused 10 0\n")
        self.assertRegex(answer.err, r"PAIRS: the formula for T=1501 has [\d,]+ pairs, and the library holds 65,536\. "
                         r"By cadical's word alone the delay is 1500\.\n$")


class Parts(unittest.TestCase):
    """What the search rests on."""

    def test_pairs(self):
        """Pairs are counted as the rules count them, late inputs or none."""
        for seed in range(40):
            circuit = methods.random_netlist(methods.Dice(seed, 5), 5, 14)
            own = netlist.read_netlist(write_netlist(circuit))
            for arrivals in (methods.in_time(own), methods.random_arrivals(methods.Dice(seed, 8), own.inputs)):
                tops = netlist.tops_of(own, arrivals)
                for target in range(1, max(tops) + 2, 1 + max(tops) // 7):
                    self.assertEqual(search.count_pairs(own, tops, target),
                                     len(pairs_of(circuit, arrivals, target, 10 ** 6)))

    def test_cones_and_times(self):
        """Over all vectors: each output's own netlist gives the output's times, and every time is a possible one; the
        longest path is the last of these."""
        with Library() as library:
            for seed in range(12):
                own = netlist.read_netlist(write_netlist(methods.random_netlist(methods.Dice(seed, 6), 4, 14)))
                arrivals = methods.random_arrivals(methods.Dice(seed, 9), own.inputs)
                cones = [netlist.write_netlist(search.cone(own, node)) for node in own.outputs]
                possible = search.possible_times(own, arrivals)
                self.assertEqual(possible[-1], netlist.longest_path(own, arrivals))
                for vector in methods.all_vectors(own.inputs):
                    whole = library.evaluate(netlist.write_netlist(own), arrivals, bytes(vector))
                    self.assertIn(whole.time, possible)
                    times = [library.evaluate(each, arrivals, bytes(vector)).time for each in cones]
                    self.assertEqual(times, [whole.times[node] for node in own.outputs])

    def test_shortened(self):
        """A shortened refutation still passes, and is no longer; one with a gap is handed back as it is."""
        square = [1, 2, 0, 1, -2, 0, -1, 2, 0, -1, -2, 0]
        with Library() as library:
            self.assertEqual(list(library.shorten(2, square, [2, 1, 0, 1, 0, 2, 0, 0])), [1, 0, 0])
            self.assertEqual(list(library.shorten(2, square, [0])), [0])
            self.assertEqual(list(library.shorten(2, [1, 0, -1, 0], [2, 0, 0])), [0])
            for steps in ([1, -1, 0, 0], [3, 0, 0], [-2 ** 31, 0, 0], [1, 0, 0, 1], [1], [], [1, 0]):
                self.assertEqual(list(library.shorten(2, [1, 2, 2, 0], steps)), steps)


if __name__ == "__main__":
    unittest.main()
