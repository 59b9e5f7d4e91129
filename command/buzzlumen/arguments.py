"""The command's words: what each subcommand takes, told to whatever reads words.

tree.py makes argparse's tree of it, from which the help, the man page and the completion are made; plain.py reads by it
without argparse. `add` gives what has argparse's calls for a subcommand's arguments.
"""

CIRCUIT_HELP = "a circuit: its text or a netlist file, known by its content; - is standard input"
ARRIVALS_HELP = ("when inputs arrive: b=25,c=3 sets these and leaves the others as the text has them, 0,25,3 sets all; "
                 "in a netlist file all arrive at 0")
FALLS_HELP = ("the delay of each pin for a gate that ends at 0, in the pins' order: 5,1,1; else as the text has it, "
              "and in a netlist file the pin's own")


def add_arrivals(parser):
    """The options of a command that asks about a circuit."""
    parser.add_argument("--arrivals", metavar="TIMES", help=ARRIVALS_HELP)
    parser.add_argument("--falls", metavar="DELAYS", help=FALLS_HELP)


def add_output(parser, what):
    """The options of a command that can write a file."""
    parser.add_argument("-o", "--output", metavar="FILE", help=f"write {what} to this file")
    parser.add_argument("-f", "--force", action="store_true", help="write over a file that stands already")


def add_times(add):
    """times"""
    parser = add("times", "values and settling times under a vector, or of every vector of at most 6 inputs",
                 "buzzlumen times circuit_a.txt 0,1\n  buzzlumen times circuit_a.txt a=0 b=1\n"
                 "  buzzlumen times circuit_a.txt --arrivals b=3")
    parser.add_argument("circuit", metavar="CIRCUIT", help=CIRCUIT_HELP)
    parser.add_argument("vector", metavar="VALUE", nargs="*", help="the vector: 0,1 or 01 or a=0 b=1")
    add_arrivals(parser)


def add_formula(add):
    """formula"""
    parser = add("formula", 'the formula "some output is late at T", as DIMACS CNF',
                 "buzzlumen formula circuit_a.txt 3 --names -o late_at_3.cnf")
    parser.add_argument("circuit", metavar="CIRCUIT", help=CIRCUIT_HELP)
    parser.add_argument("target", metavar="T", help="the target time")
    add_arrivals(parser)
    parser.add_argument("--names", action="store_true", help="say what each variable means, in comment lines")
    add_output(parser, "the formula")


def add_check(add):
    """check"""
    parser = add("check", "does the refutation of a formula pass?", "buzzlumen check late_at_3.cnf steps.txt")
    parser.add_argument("formula", metavar="FORMULA", help="a formula in DIMACS CNF")
    parser.add_argument("refutation", metavar="REFUTATION",
                        help="a solver's refutation: cadical's, with or without --no-binary, or picosat's -R")


def add_judge(add):
    """judge"""
    parser = add("judge", "is this a certificate of the circuit's true delay?",
                 "buzzlumen judge circuit_a.txt circuit_a.certificate\n"
                 "  buzzlumen judge circuit_a.txt --delay 2 --vector 0,0 --refutation steps.txt")
    parser.add_argument("circuit", metavar="CIRCUIT", help=CIRCUIT_HELP)
    parser.add_argument("certificate", metavar="CERTIFICATE", nargs="?", help="a certificate, as delay -o writes it")
    parser.add_argument("--delay", metavar="D", help="in place of a certificate: the delay")
    parser.add_argument("--vector", metavar="VALUE", nargs="+", help="and a vector that settles at it")
    parser.add_argument("--refutation", metavar="FILE", help="and a refutation of the formula for D + 1")
    add_arrivals(parser)


def add_delay(add):
    """delay"""
    parser = add("delay", "find the true delay of circuits, and a certificate that the library accepts",
                 "buzzlumen delay circuit_a.txt -o circuit_a.certificate\n"
                 "  buzzlumen delay circuit_a.txt circuit_b.txt\n  buzzlumen delay circuit_a.txt --arrivals b=3")
    parser.add_argument("circuits", metavar="CIRCUIT", nargs="+", help=CIRCUIT_HELP)
    add_arrivals(parser)
    parser.add_argument("--solver", metavar="NAME", help="cadical or picosat; else the first that is installed")
    parser.add_argument("--seconds", metavar="N", help="give up where the solver takes longer for one question")
    parser.add_argument("--figures", action="store_true", help="say how long the solver took, and the whole")
    add_output(parser, "the certificate; of several circuits, into this folder, by the circuits' names,")


def add_explain(add):
    """explain-refusal"""
    parser = add("explain-refusal", "a refusal's number and place in words", 'buzzlumen explain-refusal "refused 15 1"')
    parser.add_argument("words", metavar="WORD", nargs="+", help="the line that was printed, or its two numbers")


def add_netlist(add):
    """netlist"""
    parser = add("netlist", "turn a circuit's text into a netlist file, or a netlist file into text",
                 "buzzlumen netlist circuit_a.txt -o circuit_a.netlist\n  buzzlumen netlist circuit_a.netlist\n"
                 "  buzzlumen netlist circuit_a.netlist --arrivals n1=3")
    parser.add_argument("circuit", metavar="CIRCUIT", help=CIRCUIT_HELP)
    add_arrivals(parser)
    form = parser.add_mutually_exclusive_group()
    form.add_argument("--text", action="store_true", help="write text, whatever is read")
    form.add_argument("--bytes", action="store_true", help="write a netlist file, whatever is read")
    add_output(parser, "it")


def add_from_yosys(add):
    """from-yosys"""
    parser = add("from-yosys", "the circuit of a block that yosys mapped to simple gates, from its JSON",
                 "yosys -p 'read_verilog block.v; synth -flatten -top block; abc -g gates; opt_clean -purge;\n"
                 "    write_json block.json'\n  buzzlumen from-yosys block.json --delays delays.txt -o block.txt\n\n"
                 "A block with flip-flops: before abc -g gates, cut them into inputs and outputs by\n"
                 "  dffunmap; expose -evert-dff;")
    parser.add_argument("block", metavar="JSON", help="what yosys's write_json wrote")
    parser.add_argument("--delays", metavar="FILE",
                        help="a table: a cell and a delay, or a cell, a pin and a delay; a delay is as 3 or as 3/5")
    parser.add_argument("--top", metavar="MODULE", help="the module, where yosys marked none as top")
    parser.add_argument("--bytes", action="store_true", help="write a netlist file, not text")
    add_output(parser, "the circuit")


def add_completion(add):
    """completion"""
    add("completion", "print the completion for bash", "source <(buzzlumen completion)")


def add_man(add):
    """man"""
    add("man", "print the man page", "buzzlumen man | man -l -")


COMMANDS = (add_times, add_formula, add_check, add_judge, add_delay, add_explain, add_netlist, add_from_yosys,
            add_completion, add_man)
