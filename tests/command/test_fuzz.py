"""Damaged files and words, by the hundred: no traceback, no wrong status, no file changed.

What the status must be is worked out by tests/document.py and by readers of this file, never by the command's own.
"""

import hashlib
import re
import unittest
from concurrent.futures import ThreadPoolExecutor

import document
import methods
from asking import COURSE, Asking, run
from document import AND, BUF, OR, Accepted, Gate, Netlist, Passes, Pin, Refusal, Refused

RUNS, WORKERS, SEED = 720, 3, 1
LONG = b"9" * 5000
LATE_C = [0, 25, 0, 0]
STEPS = b"-14 0\nd 1 -5 0\n-16 0\n0\n"
# Pieces that are put into files and among words.
PIECES = (b"", b"0", b"1", b"-1", b" ", b"\n", b"\r", b"\t", b"#", b"=", b":", b",", b"(", b")", b"{", b"}", b"[", b'"',
          b"\0", b"\xff", b"\xef\xbb\xbf", b"\xff\xfe", "ä".encode(), b"\x1b[2J", LONG, b"input", b"output", b"a",
          b"999", b"1000", b"a:3/5", b"b:25", b"d", b"c", b"p cnf 3 2", b"0 0", b"-0", b"1e9", b"null", b"%",
          b"$_DFF_P_", b"buzzlumen certificate 1", b"refutation 2", b"vector", b"99999999999", b"arrivals b=25\n",
          b"9999", b"10000", b"b=24", b":10000")
WORDS = ("times", "formula", "check", "judge", "delay", "explain-refusal", "netlist", "from-yosys", "-o", "--force",
         "--names", "--delay", "--vector", "--refutation", "--solver", "--seconds", "--text", "--bytes", "--top",
         "--delays", "cadical", "refused", "15", "0,1", "01", "a=0", "b=1", "3", "-1", "", "--", "-", "-h", "ä",
         "9" * 5000, "a b", ".", "circuit.txt", "a.netlist", "made.certificate", "late.cnf", "steps",
         "block.json", "delays", "--arrivals", "b=25", "0,10000", "late.txt", "late.certificate")
# Arrivals of circuit A's two inputs, which are damaged, and signs that are put among them.
ARRIVALS = ("0,25", "b=25", "a=3,b=9999", "10000,0", "7")
SIGNS = ("", "0", "9", "99", "10000", "a", "b", "n", "c", "=", ",", ":", " ", "-", "+", ".", "x", "4294967296", "25,3")


def damaged(dice, data):
    """Bytes with a few things changed."""
    for _ in range(dice.choice((1, 1, 2, 5))):
        start = dice.randrange(len(data) + 1)
        end = min(len(data), start + dice.choice((0, 1, 1, 4, 40)))
        kind = dice.randrange(6)
        if kind == 0:
            data = data[:start]
        elif kind == 1 and end > start:
            data = data[:start] + bytes((data[start] ^ 1 << dice.randrange(8),)) + data[start + 1:]
        elif kind == 2:
            data = data[:end] + data[start:]
        elif kind == 3:
            lines = data.split(b"\n")
            lines = dice.sample(lines, len(lines)) if dice.randrange(2) else lines[dice.randrange(len(lines)):]
            data = b"\n".join(lines)
        else:
            data = data[:start] + dice.choice(PIECES) + data[end:]
    return data


# What the status must be


def netlist_of(data):
    """The netlist in the bytes of a netlist file, or the refusal."""
    try:
        return document.read_netlist(data)
    except Refusal as refusal:
        return refusal.answer


def is_bytes(data):
    """Whether a file is no text: it has a byte 0 near its start, or ends as a netlist file does."""
    return b"\0" in data[:4096] or not isinstance(netlist_of(data), Refused)


def wrong_of_netlist(data, answer):
    """What is wrong with the times of a netlist file under the vector 0,1."""
    if not is_bytes(data) or data.startswith((b"\xff\xfe", b"\xfe\xff", b"\xef\xbb\xbf")):
        return "" if answer.status in (0, 1, 2) else "status"
    in_time = [0] * getattr(netlist_of(data), "inputs", 0)
    verdict = document.evaluate(data, in_time, [0, 1], 512, 512)[0]
    if isinstance(verdict, Refused):
        return "" if (answer.status, answer.out) == (1, b"refused %d %d\n" % verdict) else f"not {verdict}"
    settled = (answer.status, answer.out.split()[:2]) == (0, [b"settled", b"%d" % verdict.time])
    return "" if settled else f"not {verdict}"


def has_late_input(data):
    """Whether a line of a text may name an input that arrives after 9,999."""
    return any(int(digits) > 9999 for digits in re.findall(rb":0*([1-9][0-9]{0,9})(?![0-9])", data))


def wrong_of_text(data, answer):
    """What is wrong with an answer about a text: it reads or it does not; only an arrival is refused."""
    if is_bytes(data):
        return "" if answer.status in (0, 1, 2) else "status"
    if answer.status == 1:
        late = has_late_input(data) and answer.out.startswith(b"refused 16 ") and ": ARRIVAL: input " in answer.err
        return "" if late else "status"
    return "" if answer.status in (0, 2) else "status"


def damaged_word(dice, word):
    """A word with a few things changed."""
    for _ in range(dice.choice((0, 1, 1, 2, 3))):
        start = dice.randrange(len(word) + 1)
        end = min(len(word), start + dice.choice((0, 1, 1, 3)))
        word = word[:start] + dice.choice(SIGNS) + word[end:]
    return word


def arrivals_in(word, names):
    """The two arrivals that a word asks for, or the list that it is, or None where it is neither; before that every
    input arrives at 0."""
    matches = [re.fullmatch(r"(?:([^=]+)=)?(0*[0-9]{1,10})", part) for part in word.replace(",", " ").split()]
    if not matches or None in matches or max(int(match[2]) for match in matches) >= 2 ** 32:
        return None
    if all(match[1] is None for match in matches):
        return [int(match[2]) for match in matches]
    of_name = {match[1]: int(match[2]) for match in matches}
    if len(of_name) < len(matches) or not set(of_name) <= set(names):
        return None
    return [of_name.get(name, 0) for name in names]


def wrong_of_arrivals(netlist, names, word, answer):
    """What is wrong with the times of circuit A under 0,1 with the arrivals that a word asks for."""
    arrivals = arrivals_in(word, names)
    if arrivals is None:
        return "" if answer.status == 2 else f"not a slip: {word}"
    verdict = document.evaluate(netlist, arrivals, [0, 1], 512, 512)[0]
    if isinstance(verdict, Refused):
        return "" if (answer.status, answer.out) == (1, b"refused %d %d\n" % verdict) else f"not {verdict}"
    settled = (answer.status, answer.out.split()[:2]) == (0, [b"settled", b"%d" % verdict.time])
    return "" if settled else f"not {verdict}"


def numbers_in(data):
    """The numbers of a refutation in plain text, or None where a line is anything but numbers, deletions, comments."""
    numbers = []
    for line in re.split(rb"\r\n|\r|\n", data):
        words = line.partition(b"#")[0].split()
        if not words or words[0] == b"c":
            continue
        deleted = words[0] == b"d"
        if not all(re.fullmatch(rb"0|-?[1-9][0-9]{0,8}", word) for word in words[deleted:]):
            return None
        numbers += [] if deleted else [int(word) for word in words]
    return numbers or [0]


def wrong_of_steps(formula, data, answer):
    """What is wrong with a check of a damaged refutation, where it is plain text with a clause a line."""
    numbers = numbers_in(data)
    whole_lines = all(line.partition(b"#")[0].split()[-1:] in ([], [b"0"]) or line.startswith(b"c")
                      for line in re.split(rb"\r\n|\r|\n", data))
    if numbers is None or not whole_lines or re.search(rb"[^\x09\x0a\x0d\x20-\x7e]", data):
        return "" if answer.status in (0, 1, 2) else "status"
    verdict = document.check(18, formula, numbers, 19)[0]
    wanted = 0 if verdict == Passes() else 1
    return "" if answer.status == wanted else f"not {verdict}"


def wrong_of_certificate(netlist, arrivals, data, answer):
    """What is wrong with a judgement: nothing is accepted but what the rules accept, and for these arrivals."""
    if answer.status:
        return "" if answer.status in (1, 2) else "status"
    text = re.sub(r"#.*", "", data.decode())
    late = re.search(r"^\s*arrivals +(.*)", text, re.M)
    said = [(name, int(time)) for name, time in re.findall(r"(\w+)=(\d+)", late[1] if late else "") if int(time)]
    if sorted(said) != [("abcd"[place], arrival) for place, arrival in enumerate(arrivals) if arrival]:
        return f"for other arrivals: {said}"
    delay = int(re.search(r"^delay +(\d+)", text, flags=re.M)[1])
    values = [int(value) for _, value in sorted(re.findall(r"(\w+)=(\d)", re.search(r"^vector (.*)", text, re.M)[1]))]
    steps = [int(word) for word in re.split(r"^refutation.*$", text, flags=re.M)[1].split()]
    verdict = document.judge(netlist, arrivals, delay, values, steps, 512, 512, 131072, 10000, 10000)[0]
    return "" if verdict == Accepted() else f"not {verdict}"


class Fuzz(Asking):
    """Damaged files and words."""

    def setUp(self):
        super().setUp()
        self.dice, self.number = methods.Dice(SEED), 0
        self.texts = [path.read_bytes() for path in sorted(COURSE.glob("circuit_[abc].txt"))]
        self.texts += [text.replace(b"input a b", b"input a b:25") for text in self.texts[::2]]
        gates = [Gate(BUF, [Pin(0, 3)]), Gate(AND, [Pin(2, 1), Pin(1, 1)]), Gate(OR, [Pin(3, 1), Pin(1, 1)])]
        a = Netlist(2, gates, [4])
        self.netlists = [document.write_netlist(a), document.write_netlist(a, b"note")]
        self.c = self.file("c.netlist", b"")
        self.ask("netlist", COURSE / "circuit_c.txt", "-o", self.c, "--force")
        self.formula = self.file("c.cnf", b"")
        self.ask("formula", COURSE / "circuit_c.txt", "3", "-o", self.formula, "--force")
        self.certificate, self.late = self.file("c.certificate", b""), self.file("late.certificate", b"")
        self.late_circuit = self.file("late.txt", self.texts[-1])
        self.ask("delay", COURSE / "circuit_c.txt", "-o", self.certificate, "--force")
        self.ask("delay", self.late_circuit, "-o", self.late, "--force")
        self.block = (COURSE / "gateway/duplicate.json").read_bytes()
        for name, content in (("circuit.txt", self.texts[0]), ("a.netlist", self.netlists[0]), ("steps", STEPS),
                              ("late.cnf", self.formula.read_bytes()), ("block.json", self.block),
                              ("made.certificate", self.certificate.read_bytes()), ("delays", b"$_AND_ 4\n")):
            self.file(name, content)

    def new_file(self, data):
        """A file of its own for one case."""
        self.number += 1
        return self.file(f"case_{self.number}", data)

    def case(self):
        """One case: the words, and what is wrong with an answer to them."""
        kind = self.dice.randrange(9)
        if kind == 0:
            data = damaged(self.dice, self.dice.choice(self.netlists))
            return ["times", self.new_file(data), "0,1"], lambda answer: wrong_of_netlist(data, answer)
        if kind == 1:
            data = damaged(self.dice, self.dice.choice(self.texts))
            words = self.dice.choice((["delay"], ["netlist", "--text"], ["netlist", "--bytes"]))
            return words + [self.new_file(data)], lambda answer: wrong_of_text(data, answer)
        if kind == 2:
            data = damaged(self.dice, STEPS)
            numbers = [int(word) for word in self.formula.read_text().split()[4:]]
            return ["check", self.formula, self.new_file(data)], lambda answer: wrong_of_steps(numbers, data, answer)
        if kind == 3:
            return self.certificate_case()
        if kind == 4:
            data = damaged(self.dice, self.block)
            return ["from-yosys", self.new_file(data)], lambda answer: "" if answer.status in (0, 2) else "status"
        if kind == 5:
            data = damaged(self.dice, self.formula.read_bytes())
            return (["check", self.new_file(data), self.folder / "steps"],
                    lambda answer: "" if answer.status in (0, 1, 2) else "status")
        if kind == 6:
            kept = self.dice.choice(("circuit.txt", "steps", "delays"))
            words = self.dice.choice((["delay", "circuit.txt"], ["formula", "circuit.txt", "3"],
                                      ["netlist", "a.netlist"]))
            return words + ["-o", kept], lambda answer: "" if answer.status == 2 else "status"
        if kind == 7:
            return self.arrivals_case()
        words = [self.dice.choice(WORDS) for _ in range(self.dice.randrange(6))]
        words = [self.dice.choice(WORDS[:8])] * self.dice.randrange(2) + [word for word in words if word != "--force"]
        # A new output may only stand where the words name one that does not stand yet.
        words = [word for word in words if word != "-o"]
        return words, lambda answer: "" if answer.status in (0, 1, 2) else "status"

    def certificate_case(self):
        """A damaged certificate of circuit C, with a late input or without."""
        circuit, certificate, arrivals = self.dice.choice((
            (COURSE / "circuit_c.txt", self.certificate, [0, 0, 0, 0]), (self.late_circuit, self.late, LATE_C)))
        data, netlist = damaged(self.dice, certificate.read_bytes()), self.c.read_bytes()
        return (["judge", circuit, self.new_file(data)],
                lambda answer: wrong_of_certificate(netlist, arrivals, data, answer))

    def arrivals_case(self):
        """Damaged arrivals beside circuit A, a text or a netlist file."""
        word = damaged_word(self.dice, self.dice.choice(ARRIVALS))
        name, names = self.dice.choice((("circuit.txt", ("a", "b")), ("a.netlist", ("n0", "n1"))))
        return (["times", name, "0,1", f"--arrivals={word}"],
                lambda answer: wrong_of_arrivals(self.netlists[0], names, word, answer))

    def snapshot(self):
        """Every file of the folder and what it holds."""
        return {path.name: hashlib.sha256(path.read_bytes()).hexdigest() for path in self.folder.iterdir()}

    def test_damaged(self):
        """Every case has the status that it must have, and no file changes."""
        cases = [self.case() for _ in range(RUNS)]
        before = self.snapshot()
        with ThreadPoolExecutor(WORKERS) as pool:
            answers = list(pool.map(lambda case: run(case[0], cwd=self.folder), cases))
        told = []
        for (words, wrong), answer in zip(cases, answers):
            fault = "Traceback" in answer.err or "fault of the command" in answer.err
            about = wrong(answer) or ("traceback" if fault else "")
            if not about and answer.status in (1, 2) and not answer.err.strip():
                about = "nothing is said"
            if about:
                told.append(f"{about}: {[str(word)[:80] for word in words]} {answer.status} {answer.out[:80]} "
                            f"{answer.err[:300]}")
        counts = {status: sum(answer.status == status for answer in answers) for status in range(4)}
        print(f"fuzz: {len(cases)} cases, statuses {counts}, {len(told)} wrong")
        self.assertEqual(told, [])
        self.assertEqual(self.snapshot(), before)
        self.assertGreater(min(counts[0], counts[1], counts[2]), RUNS // 20)


if __name__ == "__main__":
    unittest.main()
