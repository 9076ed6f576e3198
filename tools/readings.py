#!/usr/bin/env python3
"""Shows that each case of the second half of the table refuses the wrong reading that its comment names.

For each reading this makes a copy of crates/ancestry with its definitions and the table alone, changes the definition to the
wrong reading, and asks the toolchain twice in one check: the first half of the table must still be proved, and the case must
not. It takes a few minutes and changes nothing in the repository.

    python3 tools/readings.py
"""

import os
import re
import shutil
import subprocess
import sys
import tempfile

ROOT = os.path.dirname(os.path.dirname(os.path.abspath(__file__)))
SPECS = os.path.join(ROOT, "crates", "ancestry", "specs")

# for each case of the second half, in order: what is misread, the file, and the change
READINGS = [
    ("the first name found", "Describe", [("(earliest (least n ns) 0 (n ∷ ns))", "0")]),
    ("ties by the higher id", "Keys", [("nat_lt a.id b.id", "nat_lt b.id a.id")]),
    ("an absent generation as 0", "Keys", [("rank None = 4294967295", "rank None = 0")]),
    ("by date alone", "Keys", [("better a b =\n    nat_lt (rank b.generation) (rank a.generation)\n    || (rank a.generation == rank b.generation && newer a b)", "better a b = newer a b")]),
    ("a way of two parents at most", "Reaching", [("within H (length H) p q", "within H 2 p q")]),
    ("an id not held counts against all", "Bases", [("shared H first others p = id_reaches H first p &&", "shared H first others p = every (λ i. any (id_reaches H i) (ranked H)) others && id_reaches H first p &&")]),
    ("no rule for first among the others", "Bases", [("cond (empty others || member first others)", "cond (empty others)")]),
    ("an id not held is passed over by the octopus", "Bases", [("every (λ i. id_reaches H i p) others", "every (λ i. id_reaches H i p || not (any (id_reaches H i) (ranked H))) others")]),
    ("no rule for an octopus of one commit", "Bases", [("cond (every (nat_eq first) others) (Some first) (head (ids H (best H (shared_by_all H first others))))", "head (ids H (best H (shared_by_all H first others)))")]),
    ("all parents followed", "Naming", [("front a.only_first (parents_of H p)", "front false (parents_of H p)")]),
    ("an invented seen", "Describe", [("choose H a w [] = no_name a w.seen", "choose H a w [] = no_name a 0")]),
    ("the bare id unasked", "Naming", [("cond a.fallback (bare seen) nothing", "bare seen")]),
    ("no early stop", "Walk", [("cond (absent (first_of H w.waiting) && has_least (w.marks p) w.counts) (ended w)", "cond (false && absent (first_of H w.waiting) && has_least (w.marks p) w.counts) (ended w)")]),
    ("the finishing walk stops at the first marked", "Finish", [("w.marks p m && every (λ q. not (w.waiting q) || w.marks q m) (by_date H)", "w.marks p m")]),
    ("dates tie by the higher id", "Walk", [("ordered (λ p q. newer (at H p) (at H q))", "ordered (λ p q. newer (turned (at H p)) (turned (at H q)))"), ("-- all places, greatest date first", "abbrev turned : Commit → Commit\nturned c = record { id = 1000000 - c.id; generation = c.generation; date = c.date; parents = c.parents }\n\n-- all places, greatest date first")]),
    ("no cap at 32", "Walk", [("(min 32 a.most)", "a.most")]),
    ("a named start must be held", "Describe", [("describe H a i = unless_named H a i (name_of a i)", "describe H a i = if_held (place_of H i) (unless_named H a i (name_of a i))"), ("unfoldable pub describe :", "abbrev if_held : Option ℕ → Answer → Answer\nif_held None r = nothing\nif_held (Some p) r = r\n\nunfoldable pub describe :")]),
]

SOURCE = """// The types that the definitions name, and the two halves of the table.
#![tactic(auto)]

ghost use Rattle.ancestry.specs.Cases.{AllRight, first_half};
ghost use Rattle.ancestry.specs.Chosen.{ChosenRight};

mod refusal;

pub use refusal::Refusal;

pub fn first_half()
    ensures { AllRight first_half }
{}

pub fn the_case()
    ensures { ChosenRight }
{}
"""

CHOSEN = """use Rattle.std.specs.Prelude.{ℕ, zero, suc, List, [], ◌∷◌}
use Rattle.ancestry.specs.Cases.{Right, second_half, Case}

abbrev pick : ℕ → List Case → Type 0
pick n [] = Unit {0}
pick zero (c ∷ cs) = Right c
pick (suc n) (c ∷ cs) = pick n cs

abbrev pub ChosenRight : Type 0
ChosenRight = pick %d second_half
"""


def answers(name, proof, table):
    head = table[: table.index("first_right :")]
    head = head.replace("second_half, AllRight, Table", "second_half, AllRight")
    goal = "use Rattle.ancestry.proofs.%s.Goals as goal\n" % name
    return goal + head + "pub returns : goal.returns\nunfolding opened\nreturns c = %s\n" % proof


def write(path, text):
    os.makedirs(os.path.dirname(path), exist_ok=True)
    with open(path, "w", encoding="utf-8") as f:
        f.write(text)


def read(path):
    with open(path, encoding="utf-8") as f:
        return f.read()


def try_reading(number, what, module, changes):
    with tempfile.TemporaryDirectory() as folder:
        crate = os.path.join(folder, "crates", "ancestry")
        shutil.copytree(SPECS, os.path.join(crate, "specs"))
        write(os.path.join(folder, "crates.txt"), "ancestry:\n")
        # the type alone: the definitions name it
        text = read(os.path.join(ROOT, "crates", "ancestry", "src", "refusal.rt"))
        kind = re.search(r"(?s)#\[derive\([^\n]*\n(pub enum .*?\n}\n)", text).group(1)
        write(os.path.join(crate, "src", "refusal.rt"), "#[derive(Clone, Copy)]\n" + kind)
        write(os.path.join(crate, "src", "lib.rt"), SOURCE)
        lib = read(os.path.join(crate, "specs", "Lib.antt"))
        for name in ("Theorems", "Digits", "Ids"):
            # the table needs neither the laws nor how an id is held
            lib = lib.replace("pub mod %s\n" % name, "")
            os.remove(os.path.join(crate, "specs", name + ".antt"))
        write(os.path.join(crate, "specs", "Lib.antt"), lib + "pub mod Chosen\n")
        write(os.path.join(crate, "specs", "Chosen.antt"), CHOSEN % number)
        path = os.path.join(crate, "specs", module + ".antt")
        text = read(path)
        for old, new in changes:
            if text.count(old) != 1:
                return "the change does not fit: " + old
            text = text.replace(old, new)
        write(path, text)
        table = read(os.path.join(ROOT, "crates", "ancestry", "proofs", "Table.antt"))
        write(os.path.join(crate, "proofs", "Lib.antt"), "")
        half = re.search(r"first_right = (.*)", table).group(1)
        write(os.path.join(crate, "proofs", "first_half", "Answers.antt"), answers("first_half", half, table))
        write(os.path.join(crate, "proofs", "the_case", "Answers.antt"), answers("the_case", "refl", table))
        run = subprocess.run(["rt", "check"], cwd=crate, capture_output=True, text=True)
        out = run.stdout + run.stderr
        passes = "fn ancestry::first_half: proved" in out
        refused = "fn ancestry::the_case: not proved" in out and "the_case/Answers.antt" in out and "expected type" in out
        if passes and refused:
            return None
        return "first half %s, case %s\n%s" % ("passes" if passes else "FAILS", "refused" if refused else "PASSES", out[:3000])


def main():
    bad = 0
    for number, (what, module, changes) in enumerate(READINGS):
        fault = try_reading(number, what, module, changes)
        print("%2d %s: %s" % (number + 1, what, "refused" if fault is None else fault), flush=True)
        bad += fault is not None
    print("%d refused, %d not" % (len(READINGS) - bad, bad))
    return 1 if bad else 0


if __name__ == "__main__":
    sys.exit(main())
