"""The man page and the completion for bash, both made from the command's own tree of words."""

import argparse

from . import DATE, __version__

HEAD = ".TH BUZZLUMEN 1 {date} \"buzzlumen {version}\" \"User Commands\"\n"
CIRCUIT = """input a b:25
n2 = BUF(a:3)
n3 = AND(n2:1, b:1)
n4 = OR(n3:1, b:1)
output n4"""
ABOUT_CIRCUITS = """One statement a line; # starts a comment. Inputs come first. Behind an input's name may stand a
colon and its arrival, 0 to 9999; the others arrive at 0. A pin is the name of an input or of a gate on a line above, a
colon and the pin's delay, 0 to 999; or two, as a:3/5, 3 for a gate that ends at 1 and 5 for one that ends at 0. The
kinds are BUF NOT AND NAND OR NOR XOR XNOR MUX; MUX takes its pins as select, a, b. A name is any run of printable
characters but blanks and ( ) , : = #. A netlist file holds neither names nor arrivals nor fall delays: its nodes are
called n0, n1 and so on, its inputs arrive at 0 unless --arrivals says when, and every pin falls as it rises unless
--falls says how."""
FILES = (
    ("target/command/host", "in the tree: the program over the library, built when it is missing"),
    ("/usr/lib/buzzlumen", "installed: the command's parts and that program"),
)
VARIABLES = (
    ("BUZZLUMEN_HOST", "another program over the library"),
    ("BUZZLUMEN_LIBRARY", "another folder of the command's parts, in place of /usr/lib/buzzlumen"),
    ("TMPDIR", "where a solver's files stand for a while"),
)


def subcommands(tree):
    """Each subcommand's name, parser and one line."""
    group = next(action for action in tree._actions if isinstance(action, argparse._SubParsersAction))
    for choice in group._choices_actions:
        yield choice.dest, group.choices[choice.dest], choice.help


def own_arguments(parser):
    """The arguments of a parser, the help and the subcommands left out."""
    return [action for action in parser._actions
            if not isinstance(action, (argparse._HelpAction, argparse._SubParsersAction, argparse._VersionAction))]


# The man page


def escaped(text):
    """A text as roff prints it."""
    text = text.replace("\\", "\\e").replace("-", "\\-")
    return "\n".join("\\&" + line if line.startswith((".", "'")) else line for line in text.split("\n"))


def term(name, words):
    """A term and what it is."""
    return f".TP\n{name}\n{escaped(words)}\n"


def bold(words):
    """Words in bold."""
    return f"\\fB{escaped(words)}\\fR"


def italic(words):
    """Words in italics."""
    return f"\\fI{escaped(words)}\\fR"


def argument_name(action):
    """An argument as the man page heads it."""
    value = action.metavar or action.dest
    if not action.option_strings:
        return italic(value)
    options = ", ".join(bold(option) for option in action.option_strings)
    return options if action.nargs == 0 else f"{options} {italic(value)}"


def usage(parser):
    """A parser's usage on one line."""
    return " ".join(parser.format_usage().removeprefix("usage: ").split())


def command_text(name, parser):
    """A subcommand's part of the page."""
    lines = [f".SS {name}\n", f".B {escaped(usage(parser))}\n.PP\n{escaped(parser.description)}\n"]
    lines += [term(argument_name(action), action.help) for action in own_arguments(parser)]
    example = parser.epilog.removeprefix("example:\n")
    lines.append(f".PP\n.EX\n{escaped(example)}\n.EE\n")
    return "".join(lines)


def man_text(tree):
    """The man page."""
    status = tree.epilog.removeprefix("exit status:\n")
    parts = [
        HEAD.format(date=DATE, version=__version__),
        ".SH NAME\nbuzzlumen \\- a circuit's true delay, with a certificate that anyone can check\n",
        f".SH SYNOPSIS\n.B {escaped('buzzlumen COMMAND ...')}\n",
        f".SH DESCRIPTION\n{escaped(tree.description)}\n",
        ".SH COMMANDS\n" + "".join(command_text(name, parser) for name, parser, _ in subcommands(tree)),
        f".SH CIRCUITS\nA circuit as text:\n.PP\n.EX\n{escaped(CIRCUIT)}\n.EE\n.PP\n{escaped(ABOUT_CIRCUITS)}\n",
        f".SH EXIT STATUS\n.EX\n{escaped(status)}\n.EE\n",
        ".SH ENVIRONMENT\n" + "".join(term(bold(name), words) for name, words in VARIABLES),
        ".SH FILES\n" + "".join(term(italic(name), words) for name, words in FILES),
        f".SH SEE ALSO\n{escaped('cadical(1), picosat(1), yosys(1)')}\n",
    ]
    return "".join(parts)


# The completion


COMPLETION = """# Completion of buzzlumen for bash; made by: buzzlumen completion
_buzzlumen() {{
    local word=${{COMP_WORDS[COMP_CWORD]}} options=
    COMPREPLY=()
    if [ "$COMP_CWORD" -eq 1 ]; then
        mapfile -t COMPREPLY < <(compgen -W "{commands} --help --version" -- "$word")
        return
    fi
    case ${{COMP_WORDS[1]}} in
{cases}    esac
    if [[ $word == -* ]]; then
        mapfile -t COMPREPLY < <(compgen -W "$options --help" -- "$word")
    elif [ "${{COMP_WORDS[COMP_CWORD-1]}}" = --solver ]; then
        mapfile -t COMPREPLY < <(compgen -W "cadical picosat" -- "$word")
    else
        compopt -o filenames 2>/dev/null
        mapfile -t COMPREPLY < <(compgen -f -- "$word")
    fi
}}
complete -F _buzzlumen buzzlumen
"""


def completion_text(tree):
    """The completion for bash."""
    commands, cases = [], []
    for name, parser, _ in subcommands(tree):
        commands.append(name)
        options = [option for action in own_arguments(parser) for option in action.option_strings]
        if options:
            cases.append(f"        {name}) options=\"{' '.join(options)}\" ;;\n")
    return COMPLETION.format(commands=" ".join(commands), cases="".join(cases))
