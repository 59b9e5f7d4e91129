#!/usr/bin/env python3
"""Changes a definition, its code and its proofs together, and sees that a row of the proved table or a law refuses it.

Such a change breaks no promise of a function: every function is still proved, of another definition. What refuses it is
a row or a law that says the same thing in other words. Eight changes are tried, each in a copy of the tree, where the
crates that it changes are proved again, up to the one that refuses:

- four are edits that the kit's gate tries too, in crates/NAME/must-fail;
- four are too long for such an edit, or reach two crates, and stand here;
- one of these, 65,535 pairs for 65,536, is also compiled without proof, and a case of the comparison names it.

Each is caught where every function is proved and every error stands in the files named here. Ends with 1 where one is
not. What of the crates is proved already, here or in another copy of the tree on this machine, the kit begins with.
Works in temporary folders that it removes.
"""

import concurrent.futures
import os
import pathlib
import re
import shutil
import subprocess
import sys
import tempfile
from collections import namedtuple

import cases
import planted

ROOT = planted.ROOT

# A change: what it changes, the crate and the files of that crate in which it is refused, and each text that is
# replaced, wherever it stands in its file of crates/.
Joint = namedtuple("Joint", "name crate files texts")
Text = namedtuple("Text", "path old new")

# One that is an edit of the kit's gate, by the edit's name.
Edit = namedtuple("Edit", "name crate files label")

EDITS = (
    Edit("Largest is bounded for the vector of ones alone", "certificate", "proofs/LargestIs.antt",
         "largest_of_all_ones"),
    Edit("numbers 8 and 9 are exchanged", "refusal", "specs/Edges.antt", "vector_and_room_exchanged"),
    Edit("over 99,999 variables are too many", "refute", "proofs/Edges.antt", "one_variable_less"),
    Edit("a parity gate's clauses are in another order", "formula", "specs/Edges.antt", "parity_clauses_exchanged"),
)

LAST = "last_row (clauses_of refutation)"
ROOM = "room_row (suc variables) room"

NOR = Joint("a pin at 0 decides NOR", "settle", "specs/Edges.antt", (
    Text("netlist/specs/Kinds.antt", "controlling kind = ltb 4 kind", "controlling kind = eqb kind 5"),
    Text("netlist/src/lib.rt", "let c = 4 < kind;", "let c = kind == 5;"),
))

ROOM_FIRST = Joint("room for propagation is asked before LAST", "refute", "proofs/Edges.antt", (
    Text("refute/specs/Rows.antt", f"({LAST} ∷ {ROOM} ∷ [])", f"({ROOM} ∷ {LAST} ∷ [])"),
    Text("refute/src/lib.rt", "    last_row(refutation)?;\n    room_row(variables, room)\n",
         "    room_row(variables, room)?;\n    last_row(refutation)\n"),
    Text("refute/proofs/Judging.antt", LAST, "FIRST"),
    Text("refute/proofs/Judging.antt", ROOM, LAST),
    Text("refute/proofs/Judging.antt", "FIRST", ROOM),
    Text("refute/proofs/Judging.antt", f"rest-passes ({ROOM} ∷ []) ({LAST} ∷ []) rest in", "rest in"),
    Text("refute/proofs/Judging.antt", "(Room (suc variables)) [] roomy).0",
         f"(Room (suc variables)) ({LAST} ∷ []) roomy).0"),
))

FEWER_PAIRS = Joint("more than 65,535 pairs are too many", "formula", "specs/Edges.antt specs/Apart.antt", (
    Text("pairs/specs/Pairs.antt", "min (room / numbers) 65536", "min (room / numbers) 65535"),
    Text("pairs/src/lib.rt", "(numbers / 2).min(65536)", "(numbers / 2).min(65535)"),
    Text("pairs/src/lib.rt", "(numbers / 3).min(65536)", "(numbers / 3).min(65535)"),
))

TO_THE_END = Joint("a reader with no clause left goes to the end", "reader", "specs/Edges.antt", (
    Text("reader/specs/Reading.antt", "next_at list at = at + length_at list at",
         "next_at list at = cond (eqb (length_at list at) 0) (length list) (at + length_at list at)"),
    Text("reader/src/lib.rt", "    at + length_from(list, at)\n", """\
    let length = length_from(list, at);
    if length == 0 {
        return list.len();
    }
    at + length
"""),
    Text("reader/proofs/Agree.antt", "Common.{length,", "Common.{drop_of_length-le, length,"),
    Text("reader/proofs/Agree.antt", "  unfolding next_at length_at\n", "  unfolding next_at length_at parts_from\n"),
    Text("reader/proofs/Agree.antt", "get_or (left (at + n)) k []",
         "get_or (left (cond (eqb n 0) (length list) (at + n))) k []"),
    Text("reader/proofs/Agree.antt", """\
          ap (λ (m : ℕ). get_or (left m) k []) (add-zero at)
          ∙ ap (λ (ps : List (List ℤ)). get_or ps k []) e
""", """\
          ap (λ (zs : List ℤ). get_or (parts zs) k []) (drop_of_length-le list {i = length list} (omega arith))
"""),
    Text("reader/proofs/Agree.antt", """\
          ap (λ (zs : List ℤ). get_or (parts zs) k []) (sym (drop-drop (suc n) at list))
""", """\
          ap (λ (t : Bool). get_or (left (cond t (length list) (at + suc n))) k []) (ne_eqb (suc n) 0 (λ q. omega arith))
          ∙ ap (λ (zs : List ℤ). get_or (parts zs) k []) (sym (drop-drop (suc n) at list))
"""),
))

JOINTS = (FEWER_PAIRS, NOR, ROOM_FIRST, TO_THE_END)


def against(said, status, places):
    """What a prover's words have against a change that is to be refused in these files alone; nothing where it is."""
    if status != 1 or "\nlogic=not-proved" not in said:
        return f"rt ends with {status}: {said[-200:]}"
    unproved = re.findall(r"^(?:fn|struct|enum|impl|trait|const) (\S+): (?!proved$)", said, re.MULTILINE)
    if unproved:
        return "not proved: " + ", ".join(unproved)
    errors = {os.path.normpath(path) for path in re.findall(r"^(\S+?):\d+:\d+: error", said, re.MULTILINE)}
    if not errors:
        return "nothing is refused"
    elsewhere = sorted(errors - set(places))
    return "also refused in " + ", ".join(elsewhere) if elsewhere else ""


def texts_of(edit):
    """The texts that an edit of the kit's gate replaces."""
    path, old, texts = None, None, []
    for line in (ROOT / f"crates/{edit.crate}/must-fail/{edit.label}.edit").read_text(encoding="utf-8").splitlines():
        word, _, rest = line.partition(": ")
        if word == "file":
            path = f"{edit.crate}/{rest}"
        elif word == "old":
            old = rest
        elif word == "new":
            texts.append(Text(path, old, rest))
    return texts


def change(name, texts, crates):
    """Make a change in a copy of the crates."""
    for text in texts:
        path = crates / text.path
        content = path.read_text(encoding="utf-8")
        if text.old not in content:
            sys.exit(f"joint: {name}: {text.path} has no {text.old!r}")
        path.write_text(content.replace(text.old, text.new), encoding="utf-8")


def copy_of_crates(folder):
    """A copy of the crates, without what the kit keeps in them and without the edits; gives the folder of crates."""
    shutil.copytree(ROOT / "crates", folder / "crates", ignore=shutil.ignore_patterns("out", "must-fail"))
    for name in ("crates.txt", "HANDLES"):
        if (ROOT / name).is_file():
            shutil.copy(ROOT / name, folder)
    return folder / "crates"


def tried(joint):
    """What is wrong with a change: the crates below its crate are proved, and it is not."""
    texts = texts_of(joint) if isinstance(joint, Edit) else joint.texts
    with tempfile.TemporaryDirectory() as name:
        crates = copy_of_crates(pathlib.Path(name))
        change(joint.name, texts, crates)
        ended = subprocess.run(["rt", "check", "--jobs", "2"], cwd=crates / joint.crate, stdout=subprocess.PIPE,
                               stderr=subprocess.STDOUT, text=True, errors="replace", check=False)
    if " did not build, so nothing above it was checked" in ended.stdout:
        return "a crate below is not proved: " + ended.stdout[-200:]
    return against(ended.stdout, ended.returncode, joint.files.split())


def named_by_comparison(joint, count):
    """What is wrong where the cases of so many pairs show no difference on the changed source."""
    number = cases.LADDER_ROUNDS[count]
    with tempfile.TemporaryDirectory() as copy, tempfile.TemporaryDirectory() as work:
        crates = copy_of_crates(pathlib.Path(copy))
        change(joint.name, joint.texts, crates)
        archive = planted.Compiler(pathlib.Path(work)).archive(crates)
        command = [sys.executable, ROOT / "tests/compare.py", "--archive", archive, "--round", str(number)]
        ended = subprocess.run(command, stdout=subprocess.PIPE, stderr=subprocess.STDOUT, text=True, check=False)
    first = re.search(r"^round .*$", ended.stdout, re.MULTILINE)
    return "" if first and ended.returncode == 1 else "the comparison ends with: " + ended.stdout[-200:]


def main(names):
    """The status: 0 where each change is caught as it should be; only those of the named crates, where any is named."""
    wrong = 0
    with concurrent.futures.ThreadPoolExecutor(2) as pool:
        found = [(joint.name, joint.crate, pool.submit(tried, joint)) for joint in (*JOINTS, *EDITS)
                 if not names or joint.crate in names]
        if not names:
            found.append((FEWER_PAIRS.name, "the comparison", pool.submit(named_by_comparison, FEWER_PAIRS, 65536)))
        for name, where, complaint in found:
            wrong += bool(complaint.result())
            print(f"{name}: {complaint.result() or 'caught by ' + where}", flush=True)
    print(f"joint: {len(found)} tried, {wrong} wrong")
    return 1 if wrong else 0


if __name__ == "__main__":
    sys.exit(main(sys.argv[1:]))
