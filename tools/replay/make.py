#!/usr/bin/env python3
"""Writes the Rust's answers that the program `replay` holds the port to, and what it then says.

Each case is a tree with the facts that the Rust gives after one run and after
two, every field; a panic of its second run stands for refusal 11 or 12. A tree
with `and`, `when` or `unless` is given to it expanded, by document 02 as
tools/trial/expansion.py reads it, and the facts go by the tree's own records. The
trees are the scripts of tools/trial/scripts.txt, small random ones and the
large ones of large.py. Refusal 9 is not the Rust's: it is expected from a
reading of the documents in Python, tools/trial/reading.py, as are refusals 1 to 8
and 16 of damaged trees. Neither is refusal 10: it is counted on the Rust's lists.

The input is in parts: the small trees, each large one, the damaged large ones.
A line of 8 bytes says how many bytes a part has. The rest is numbers. A case:
how many names, their classes; how many records, their numbers; then for each
run the number of the refusal and its record, or 0 and 0 and the tables. A
table: how many rows, then each row as how many numbers it has up to its last
that is not 0, and those. 4294967295 is written as -, without a blank beside it.

What each large tree has is printed, with how many captured entries there are
after each run and how many of them are mutated. The files are the same each
time: trees go by their seeds.
"""
import argparse
import os
import sys

HERE = os.path.dirname(os.path.abspath(__file__))
TRIAL = os.path.join(HERE, "..", "trial")
sys.path.insert(0, TRIAL)

import damage
import expected
import large
import random_trees
import reading
import rust
import trees

PART_MOST = 1048576
MUTATED = 8


def options():
    p = argparse.ArgumentParser(description=__doc__, formatter_class=argparse.RawDescriptionHelpFormatter)
    p.add_argument("--oracle", required=True, metavar="FOLDER", help="the folder of the oracle's program `oracle` (its bin/)")
    p.add_argument("--into", default=os.path.join(HERE, "..", "..", "crates", "replay"), metavar="FOLDER", help="where the files stdin and stdout go (crates/replay)")
    p.add_argument("--random", type=int, default=360, metavar="N", help="how many small random trees (360)")
    p.add_argument("--expanded", type=int, default=40, metavar="N", help="how many more with `and`, `when` or `unless` (40)")
    p.add_argument("--seed", type=int, default=0, metavar="N", help="the seed of the first of them (0)")
    p.add_argument("--records", type=int, default=18, metavar="N", help="their most records (18)")
    p.add_argument("--damaged", type=int, default=60, metavar="N", help="how many small damaged trees (60)")
    return p.parse_args()


# ---- the lines of cases and answers, each a list of numbers

def row(numbers):
    numbers = list(numbers)
    while numbers and numbers[-1] == 0:
        numbers.pop()
    return [len(numbers)] + numbers


def table(rows):
    return [[len(rows)]] + [row(r) for r in rows]


def facts(f):
    """The lines of one run's answer."""
    if f.refused:
        return [list(f.refused)]
    return [[0, 0]] + table(f.rows) + table(f.captured) + table(f.arguments)


def tree(classes, records):
    return [[len(classes)] + list(classes), [len(records)]] + [list(r) for r in records]


def refused(names, records, refusal):
    """A damaged tree with its refusal, the same of both runs."""
    return tree([0] * names, records) + [list(refusal)] * 2


# ---- the parts, each how many trees it has and its lines

def small(o, oracle):
    some = trees.scripts(os.path.join(TRIAL, "scripts.txt"))
    some += [random_trees.at_random(seed, o.records) for seed in range(o.seed, o.seed + o.random)]
    some += [random_trees.at_random(seed, o.records, expanded=True) for seed in range(o.seed, o.seed + o.expanded)]
    limits = limits_of_rows()
    some += [trees.Case("limit", [0] * names, grouped(numbers)) for names, numbers in limits if not reading.refusal(names, numbers)]
    lines, count = [], len(some)
    for case, both in zip(some, expected.answers(oracle, some)):
        lines += tree(case.classes, case.records) + facts(both[0]) + facts(both[1])
    for names, numbers in limits + damage.copies(some, o.damaged):
        refusal = reading.refusal(names, numbers)
        if refusal and len(numbers) % 6 == 0:
            lines += refused(names, grouped(numbers), refusal)
            count += 1
    return count, lines


def grouped(numbers):
    return [tuple(numbers[i:i + 6]) for i in range(0, len(numbers), 6)]


def limits_of_rows():
    """Forms 10 to 12 at their limits, and beside check 16: numbers of names, and numbers."""
    return [limit for form in (10, 11, 12) for limit in damage.expanded_limits(form)]


def title(case, both):
    """A line on a large tree."""
    nesting = max(n for n, _ in reading.places(case.records)[0])
    count = max(r[3] for r in case.records)
    line = "%s: %d records, %d names, nesting %d, count %d" % (case.label, len(case.records), len(case.classes), nesting, count)
    for run, f in zip(("fresh", "settled"), both):
        if f.refused:
            line += "; %s: %d at %d" % ((run,) + f.refused)
        else:
            listed = [e for e in f.captured if any(e)]
            mutated = sum(1 for e in listed if e[2] & MUTATED)
            line += "; %s: %d captured, %d mutated, %d arguments" % (run, len(listed), mutated, len(f.arguments))
    return line


def large_parts(oracle):
    some = large.cases()
    cases = [l.case for l in some]
    for l, both in zip(some, expected.answers(oracle, cases)):
        told = tuple(f.refused[0] if f.refused else 0 for f in both)
        if told != (l.fresh, l.settled):
            raise rust.Unknown("%s: refused %s" % (l.case.label, told))
        print(title(l.case, both))
        yield 1, tree(l.case.classes, l.case.records) + facts(both[0]) + facts(both[1])


def damaged_part():
    lines, some = [], large.damaged()
    for names, records, number in some:
        refusal = reading.refusal(names, damage.flat(records))
        if refusal is None or refusal[0] != number:
            raise rust.Unknown("damaged: refused %s, not %d" % (refusal, number))
        print("damaged: %d records, %d names; both: %d at %d" % ((len(records), names) + refusal))
        lines += refused(names, records, refusal)
    return len(some), lines


# ---- the files

def text(lines):
    """The part, after its length."""
    out = "".join(" ".join("-" if n == rust.NONE else str(n) for n in line) + "\n" for line in lines)
    out = out.replace(" -", "-").replace("- ", "-")
    if len(out) > PART_MOST:
        raise rust.Unknown("a part of %d bytes" % len(out))
    return "%7d\n%s" % (len(out), out)


def main():
    o = options()
    oracle = os.path.join(o.oracle, "oracle")
    parts = [small(o, oracle)] + list(large_parts(oracle)) + [damaged_part()]
    with open(os.path.join(o.into, "stdin"), "w") as out:
        out.writelines(text(lines) for _, lines in parts)
    with open(os.path.join(o.into, "stdout"), "w") as out:
        for number, (count, _) in enumerate(parts, 1):
            out.write("part=%d trees=%d answers=%d agree=%d\n" % (number, count, 2 * count, 2 * count))


if __name__ == "__main__":
    main()
