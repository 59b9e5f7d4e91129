"""The conversion from yosys: each cell, names, delays, what is turned away, and damaged JSON."""

import itertools
import json
import shutil
import subprocess
import unittest

import methods
from asking import COURSE, Asking
from buzzlumen import circuit, netlist, yosys
from document import read_netlist, settle

# What each cell gives for its pins A, B and S.
CELL_VALUES = {
    "$_BUF_": lambda a, b, s: a, "$_NOT_": lambda a, b, s: 1 - a,
    "$_AND_": lambda a, b, s: a & b, "$_NAND_": lambda a, b, s: 1 - (a & b),
    "$_OR_": lambda a, b, s: a | b, "$_NOR_": lambda a, b, s: 1 - (a | b),
    "$_XOR_": lambda a, b, s: a ^ b, "$_XNOR_": lambda a, b, s: 1 - (a ^ b),
    "$_ANDNOT_": lambda a, b, s: a & (1 - b), "$_ORNOT_": lambda a, b, s: a | (1 - b),
    "$_MUX_": lambda a, b, s: b if s else a,
}

# Cells of yosys that keep state, and names that only look so.
STATE = ("$dff", "$dffe", "$adff", "$aldff", "$sdff", "$sdffce", "$dffsr", "$dlatch", "$sr", "$ff", "$mem_v2",
         "$_DFF_P_", "$_DFFE_PP0P_", "$_SDFFCE_PP0P_", "$_ALDFF_PN_", "$_DLATCH_N_", "$_DLATCHSR_PPP_", "$_SR_NN_",
         "$_FF_")
NO_STATE = ("buffer8", "$paramod\\buffer8\\W=4", "$paramod$ff\\sr", "latch", "$shiftx", "$srx")

SEQUENTIAL = """module block(input clk, input en, input rst, input [3:0] a, output reg [3:0] sum);
  always @(posedge clk or posedge rst) if (rst) sum <= 0; else if (en) sum <= sum + a;
endmodule
module buffer8 #(parameter W = 8) (input [W-1:0] a, output [W-1:0] y); assign y = ~a; endmodule
module top(input [3:0] a, output [3:0] y); buffer8 #(.W(4)) b(.a(a), .y(y)); endmodule
"""


def module_of(cells, inputs=(2, 3, 4), outputs=(9,)):
    """A module with one-bit ports; a cell is its type, its pins' bits, its result."""
    ports = {f"i{bit}": {"direction": "input", "bits": [bit]} for bit in inputs}
    ports.update({f"o{place}": {"direction": "output", "bits": [bit]} for place, bit in enumerate(outputs)})
    made = {f"cell_{place}": {"type": kind, "connections": {**{pin: [bit] for pin, bit in pins.items()}, "Y": [result]}}
            for place, (kind, pins, result) in enumerate(cells)}
    return {"ports": ports, "cells": made, "netnames": {}}


def converted(cells, delays=None, **ports):
    """The netlist of such a module, in tests/document.py's own terms, and its text."""
    drawn = yosys.Conversion(module_of(cells, **ports), delays or {}).whole()
    text = circuit.write_text(drawn.netlist, drawn.arrivals, drawn.names)
    return read_netlist(netlist.write_netlist(drawn.netlist)), text


class Conversion(Asking):
    """Blocks and their circuits."""

    def test_cells(self):
        """Each cell gives its values, one delay after its last pin or its first controlling one."""
        for kind, value in CELL_VALUES.items():
            drawn, _ = converted([(kind, {"A": 2, "B": 3, "S": 4}, 9)])
            for a, b, s in itertools.product((0, 1), repeat=3):
                values, times = settle(drawn, methods.in_time(drawn), (a, b, s))
                node = drawn.outputs[0]
                self.assertEqual((values[node], times[node]), (value(a, b, s), 1), kind)
        drawn, _ = converted([("$_MUX_", {"A": 2, "B": 3, "S": 4}, 9)], {("$_MUX_",): 5, ("$_MUX_", "S"): 9})
        self.assertEqual([(pin.driver, pin.delay) for pin in drawn.gates[0].pins], [(2, 9), (0, 5), (1, 5)])

    def test_order(self):
        """Cells come after those that drive them; constants are gates at time 0; two outputs may be one node."""
        backwards = [("$_NOT_", {"A": 8}, 9), ("$_NOT_", {"A": 7}, 8), ("$_NOT_", {"A": 2}, 7)]
        self.assertEqual(converted(backwards, inputs=(2,), outputs=(9, 9, 2))[1],
                         "input i2\nn7 = NOT(i2:1)\nn8 = NOT(n7:1)\no0 = NOT(n8:1)\noutput i2 o0\n")
        constant, _ = converted([("$_AND_", {"A": 2, "B": "1"}, 9)], outputs=(9, "0"))
        for vector in itertools.product((0, 1), repeat=3):
            values, times = settle(constant, methods.in_time(constant), vector)
            zero, result = constant.outputs
            self.assertEqual((values[zero], times[zero], values[result], times[result]), (0, 0, vector[0], 1))

    def ask_for(self, block, status=2):
        """Convert a block out of a file."""
        return self.ask("from-yosys", self.file("block.json", block if isinstance(block, bytes) else json.dumps(block)),
                        status=status)

    def test_turned_away(self):
        """What a circuit has none of is turned away in one line."""
        cases = [([(kind, {"D": 2, "C": 3}, 9)], f"cell `cell_0` keeps state ({kind}): cut the flip-flops into inputs "
                  "and outputs by yosys's `dffunmap; expose -evert-dff` before `abc -g gates`") for kind in STATE]
        cases += [([(kind, {"A": 2}, 9)], "synth -flatten; abc -g gates") for kind in NO_STATE + ("$add",)]
        cases += [
            ([("$_NOT_", {"A": 8}, 9), ("$_AND_", {"A": 2, "B": 7}, 8), ("$_NOT_", {"A": 8}, 7)],
             "feedback loop through cell `cell_1`"),
            ([("$_NOT_", {"A": 8}, 9)], "cell `cell_0` reads a bit that nothing drives (8)"),
            ([("$_NOT_", {"A": "x"}, 9)], "cell `cell_0` reads a bit that nothing drives (x)"),
            ([("$_NOT_", {"A": 2}, 9), ("$_NOT_", {"A": 3}, 9)], "cell `cell_1` drives a bit that is driven already"),
            ([], "nothing drives an output (o0)"),
        ]
        for cells, wanted in cases:
            with self.assertRaises(circuit.Mistake) as raised:
                yosys.Conversion(module_of(cells), {}).whole()
            self.assertIn(wanted, str(raised.exception))
        self.assertNotIn("keeps state", self.ask_for({"modules": {"m": module_of([(NO_STATE[1], {}, 9)])}}).err)

    def test_without_parts(self):
        """JSON without cells, ports, inputs, outputs or modules, and of other shapes."""
        whole = module_of([("$_NOT_", {"A": 2}, 9)])
        for name, wanted in (("cells", "has no cells, which yosys writes"), ("ports", "has no ports, which yosys")):
            for other in ({}, {name: None}, {name: []}):
                module = {**{key: value for key, value in whole.items() if key != name}, **other}
                self.assertIn(wanted, self.ask_for({"modules": {"m": module}}).err)
        self.assertIn("the block has no input", self.ask_for({"modules": {"m": module_of([], (), ())}}).err)
        self.assertIn("the block has no output", self.ask_for({"modules": {"m": module_of([], (2,), ())}}).err)
        for block in ({}, [], 1, "modules", {"modules": []}, {"modules": {"m": 1}}, {"modules": {"m": None}}):
            self.ask_for(block)
        self.assertIn("name one module by --top: a b", self.ask_for({"modules": {"a": {}, "b": {}}}).err)
        for bits in (None, 1, [None], [[2]], [{}], [2.5], [True]):
            module = module_of([("$_NOT_", {"A": 2}, 9)])
            module["ports"]["i2"]["bits"] = bits
            self.ask_for({"modules": {"m": module}})
        self.ask_for(b"[" * 100000)
        self.ask_for(b'{"modules": {"m": ' + b'{"a": ' * 100000)

    def test_delays(self):
        """A table of delays that does not read is told by its line."""
        block = COURSE / "gateway/duplicate.json"
        for text, wanted in (("# a\n$_AND_ S 4\n", "line 2: `$_AND_ S 4` is no cell and delay"),
                             ("$_AND_ 1000\n", "line 1: `$_AND_ 1000` is no cell and delay from 0 to 999"),
                             ("$_AND_ " + "1" * 5000 + "\n", "line 1: ")):
            table = self.file("delays", text)
            self.assertIn(wanted, self.ask("from-yosys", block, "--delays", table, status=2).err)

    def test_gateway(self):
        """The gateway's block: below the last number, or equal to it with the window bit set."""
        made = self.folder / "made"
        self.ask("from-yosys", COURSE / "gateway/duplicate.json", "--bytes", "-o", made)
        drawn = read_netlist(made.read_bytes())
        self.assertEqual(methods.true_delay(drawn)[0], 10)
        for vector in methods.all_vectors(9):
            number, last = (sum(bit << place for place, bit in enumerate(bits)) for bits in (vector[:4], vector[4:8]))
            wanted = 1 if number < last or (number == last and vector[8]) else 0
            self.assertEqual(settle(drawn, methods.in_time(drawn), vector)[0][drawn.outputs[0]], wanted)

    def test_yosys_itself(self):
        """Sequential Verilog by the line that the message names, and a parameterised buffer8, where yosys is here."""
        if shutil.which("yosys") is None:
            self.skipTest("yosys is not installed")
        source, block = self.file("block.v", SEQUENTIAL), self.folder / "block.json"

        def synthesised(top, commands):
            script = f"read_verilog {source}; synth {top}; {commands} write_json {block}"
            subprocess.run(["yosys", "-q", "-p", script], check=True, stdout=subprocess.DEVNULL)
            return block

        self.assertIn("keeps state", self.ask("from-yosys", synthesised("-flatten -top block", ""), status=2).err)
        cut = "dffunmap; expose -evert-dff; abc -g gates; opt_clean -purge;"
        text = self.ask("from-yosys", synthesised("-flatten -top block", cut)).out
        self.assertIn(" sum[0] sum[1] sum[2] sum[3]", text.splitlines()[0])
        self.assertIn("sum.d[3]", text.splitlines()[-1])
        self.assertNotIn("keeps state", self.ask("from-yosys", synthesised("-top top", ""), status=2).err)


if __name__ == "__main__":
    unittest.main()
