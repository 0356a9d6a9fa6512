#!/usr/bin/env python3
"""Trials of the machines and of the claims. Definitions are computed by antt: each trial is an equation that `refl` has to prove.

usage: trial.py [--runs N] [--wild N] [--seed S] [--moments M] [--keep DIR] [--slips]"""

import argparse
import collections
import glob
import os
import re
import shutil
import subprocess
import sys
import tempfile

import generate
import model
import scripts
import tree

HERE = os.path.dirname(os.path.abspath(__file__))
ROOT = os.path.dirname(os.path.dirname(HERE))
CRATES = ["table", "tree", "semantic", "scope_map", "pass", "pass_laws", "r7rs", "lockstep", "execution"]
BATCH = 60

HEADER = """use Rattle.std.specs.Prelude.{ℕ, List, [], ◌∷◌, Bool, true, false, ◌≡◌, refl}
use Rattle.tree.specs.Tree.{Ident, Node, Tree, Trees, ident, const, if, letin, define, lambda, sequence, begins, ands, whens, call, set!, nil, cons}
use Rattle.trial.specs.InStep.{demand3, fails_outside}
use Rattle.trial.specs.Claimed.{claims, claims_anyhow}

abbrev x : ℕ → ℕ → ℕ → Ident
x at id name = record { at = at; id = id; name = name; from = at; to = id }

abbrev nd : ℕ → ℕ → Node
nd at id = record { at = at; id = id; from = at; to = id }
"""


def unfoldables(path):
    """The names that a file marks unfoldable."""
    block = None
    for line in open(path):
        indent = len(line) - len(line.lstrip())
        if re.match(r"\s*unfoldable mutual", line):
            block = indent
        elif block is not None and line.strip() and indent <= block:
            block = None
        found = re.match(r"\s*unfoldable pub (\S+) :", line) or (block is not None and re.match(r"\s*pub (\S+) :", line))
        if found:
            yield found.group(1)


def unfolding(place):
    words = []
    for crate in CRATES + ["trial"]:
        for path in sorted(glob.glob(f"{place}/crates/{crate}/specs/*.antt")):
            words += [f"Rattle.{crate}.specs.{os.path.basename(path)[:-5]}.{n}" for n in unfoldables(path)]
    return "unfolding " + " ".join(words)


def make_place(place):
    for crate in CRATES:
        for part in ("src", "specs", "proofs"):
            if os.path.isdir(f"{ROOT}/crates/{crate}/{part}"):
                shutil.copytree(f"{ROOT}/crates/{crate}/{part}", f"{place}/crates/{crate}/{part}")
    lines = [l for l in open(f"{ROOT}/crates.txt") if l.split(":")[0] in CRATES]
    with open(f"{place}/crates.txt", "w") as out:
        out.write("".join(lines) + "trial: " + " ".join(CRATES) + "\n")
    os.makedirs(f"{place}/crates/trial/src")
    os.makedirs(f"{place}/crates/trial/specs")
    with open(f"{place}/crates/trial/src/lib.rt", "w") as out:
        out.write("#![tactic(auto)]\n// Trials.\n")
    shutil.copy(f"{HERE}/in_step.template", f"{place}/crates/trial/specs/InStep.antt")
    shutil.copy(f"{HERE}/claims.template", f"{place}/crates/trial/specs/Claimed.antt")
    return unfolding(place)


def numbers(l):
    return " ∷ ".join(map(str, l)) + " ∷ []"


def equation(name, case, opened):
    return f"\n-- {case['text']}\n{name} : {case['goal']}\n{opened}\n{name} = refl\n"


class NotProved(Exception):
    """A crate whose proofs no longer hold, so that nothing can be tried on it."""


def check(place, cases, opened):
    """The names of the equations that fail."""
    failed = []
    for start in range(0, len(cases), BATCH):
        part = {f"t{start + i}": c for i, c in enumerate(cases[start:start + BATCH])}
        with open(f"{place}/crates/trial/specs/Cases.antt", "w") as out:
            out.write(HEADER + "".join(equation(n, c, opened) for n, c in part.items()))
        with open(f"{place}/crates/trial/specs/Lib.antt", "w") as out:
            out.write("pub mod InStep\npub mod Claimed\npub mod Cases\n")
        done = subprocess.run(["rt", "check"], cwd=f"{place}/crates/trial", capture_output=True, text=True)
        said = done.stdout + done.stderr
        wrong = {n for n in re.findall(r"`(t\d+)`", said) if n in part}
        if not wrong and done.returncode != 0:
            lost = re.search(r"rt: the library (\w+) did not build", said)
            raise NotProved(lost.group(1)) if lost else SystemExit(said[-3000:])
        failed += [part[n] for n in sorted(wrong)]
        print(f"  {start + len(part)} of {len(cases)}, {len(failed)} failed", flush=True)
    return failed


# ---- Guile

GUILE = """
(define fuel 0)
(define (tick!) (set! fuel (- fuel 1)) (if (< fuel 0) (throw 'spent)))
(define (kind v) (cond ((eq? v #f) 'false) ((number? v) v) ((procedure? v) 'procedure) ((unspecified? v) 'unspecified) (else 'other)))
(define (last-of forms m v)
  (if (null? forms) v
      (let ((w (eval (car forms) m)))
        (last-of (cdr forms) m (if (and (pair? (car forms)) (eq? (caar forms) 'define)) (if #f #f) w)))))
(define (run forms)
  (set! fuel 2000)
  (let ((m (make-fresh-user-module)))
    (module-define! m 'tick! tick!)
    (display (catch #t (lambda () (kind (last-of forms m (if #f #f)))) (lambda (k . rest) (if (eq? k 'spent) 'spent 'stop))))
    (newline)))
"""


def guile(tops):
    body = GUILE + "".join("(run '(" + " ".join(tree.scheme_top(t)) + "))\n" for t in tops)
    with tempfile.NamedTemporaryFile("w", suffix=".scm") as out:
        out.write(body)
        out.flush()
        done = subprocess.run(["guile", "--no-auto-compile", "-q", out.name], capture_output=True, text=True)
    lines = done.stdout.split()
    if len(lines) != len(tops):
        sys.exit("guile: " + done.stderr[-2000:])
    return lines


def in_words(outcome):
    _, status, kind, value = outcome
    if status == 3:
        return "stop"
    return {1: str(value), 2: "false", 3: "unspecified", 4: "procedure"}[kind]


# ---- the trials

def show(top):
    return " ".join(tree.text(t) for t in top)


def classes_of(names, prelude=()):
    return "(" + numbers([int(n in prelude) for n in names]) + ")" if names else "[]"


def made(text):
    top = tree.parse(text)
    return top, tree.number(top)


def runs(args):
    """Both machines in step at every number of moments, and how the plain one ended, as model.py says; as scripts.RUNS says, where it does."""
    told = [(line.split()[4:], [int(n) for n in line.split()[:4]]) for line in scripts.RUNS]
    for words, outcome in told:
        assert model.Plain(args.moments).run(made(" ".join(words))[0]) == outcome, words
    tops = [made(" ".join(words)) for words, _ in told] + [made(s) for s in scripts.WITHIN]
    tops += [generate.runnable(args.seed + s) for s in range(args.runs)]
    cases, ended = [], collections.Counter()
    for top, names in tops:
        outcome = model.Plain(args.moments).run(top)
        ended[{1: "still running", 2: "ended", 3: "stopped"}[outcome[1]]] += 1
        cases.append({"text": show(top), "goal": f"demand3 {classes_of(names)} {tree.antt_list(top)} {args.moments} ≡ {numbers(outcome)}"})
    for text in scripts.OUTSIDE:
        top, names = made(text)
        cases.append({"text": text, "goal": f"fails_outside {classes_of(names)} {tree.antt_list(top)} {args.moments} ≡ true"})
    return [t for t, _ in tops], cases, ended


def wild_trees(args):
    """Trees with no inner define: as many refused by each number as were found among 40 times as many, and others; and some with inner defines."""
    shares = {9: args.wild // 6, 11: args.wild // 6, 12: args.wild // 6, 0: args.wild // 4}
    got = collections.Counter()
    for s in range(40 * args.wild):
        top, names = generate.wild(args.seed + s, False)
        walk = model.Walk(top)
        refused = (9, walk.nine()) if walk.nine() is not None else walk.second()
        if got[refused[0]] < shares[refused[0]]:
            got[refused[0]] += 1
            yield top, names, refused
    for s in range(args.wild // 4):
        top, names = generate.wild(args.seed + s, True)
        yield top, names, None if model.inner_defines(top) else "skip"


def claim_cases(args):
    cases, kinds = [], collections.Counter()
    trees = [made(" ".join(l.split()[2:])) + (tuple(map(int, l.split()[:2])),) for l in scripts.REFUSED]
    trees += [made(l) + (None,) for l in scripts.INNER]
    for top, names, refused in trees + list(wild_trees(args)):
        if refused == "skip":
            continue
        kinds["inner define" if refused is None else f"refusal {refused[0]}" if refused[0] else "accepted"] += 1
        words = f"{classes_of(names, 'a')} {tree.antt_list(top)}"
        goal = f"claims_anyhow {words} ≡ 0" if refused is None else f"claims {words} ≡ 0 ∷ {numbers(refused)}"
        cases.append({"text": show(top), "goal": goal})
    return cases, kinds


def compare_with_guile(tops):
    """Scripts that end or stop within 2,000 moments."""
    same, different, left = 0, [], 0
    for top, said in zip(tops, guile(tops)):
        outcome = model.Plain(2000).run(top)
        if outcome[1] == 1 or said == "spent":
            left += 1
        elif said == in_words(outcome):
            same += 1
        else:
            different.append((show(top), said, in_words(outcome)))
    return same, different, left


def slips(args):
    """Each slip, made in the definitions, has to break the proofs of a crate, or else to make a trial fail."""
    unnoticed = 0
    for name, edits in scripts.SLIPS:
        place = tempfile.mkdtemp()
        make_place(place)
        for path, old, new in edits:
            text = open(f"{place}/crates/{path}").read()
            assert old in text, (name, old)
            with open(f"{place}/crates/{path}", "w") as out:
                out.write(text.replace(old, new))
        print(name)
        opened = unfolding(place)
        try:
            failed = [len(check(place, cases, opened)) for cases in (runs(args)[1], claim_cases(args)[0])]
            print(f"  scripts that fail: {failed[0]}; claims that fail: {failed[1]}", flush=True)
            unnoticed += not any(failed)
        except NotProved as crate:
            print(f"  not proved any more: {crate}", flush=True)
        shutil.rmtree(place)
    sys.exit(1 if unnoticed else 0)


def main():
    ask = argparse.ArgumentParser(description=__doc__)
    ask.add_argument("--runs", type=int, default=300)
    ask.add_argument("--wild", type=int, default=300)
    ask.add_argument("--seed", type=int, default=0)
    ask.add_argument("--moments", type=int, default=60)
    ask.add_argument("--keep", help="work in this new folder and leave it there")
    ask.add_argument("--slips", action="store_true", help="try the slips of scripts.py instead")
    args = ask.parse_args()
    if args.slips:
        slips(args)
    place = args.keep or tempfile.mkdtemp()
    os.makedirs(place, exist_ok=True)
    opened = make_place(place)
    tops, cases, ended = runs(args)
    print(f"in step at every n to {args.moments}: {len(tops)} scripts, {dict(ended)}; {len(scripts.OUTSIDE)} outside the premises")
    failed = check(place, cases, opened)
    same, different, left = compare_with_guile(tops)
    print(f"guile: {same} equal, {len(different)} different, {left} not ended")
    claimed, kinds = claim_cases(args)
    print(f"claims: {len(claimed)} trees, {dict(kinds)}")
    failed += check(place, claimed, opened)
    for case in failed:
        print("failed:", case["text"], "|", case["goal"])
    for text, said, wanted in different:
        print("guile:", text, "|", said, "|", wanted)
    if not args.keep:
        shutil.rmtree(place)
    sys.exit(1 if failed or different else 0)


if __name__ == "__main__":
    main()
