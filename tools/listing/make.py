#!/usr/bin/env python3
"""Writes the inputs that the program `listing_main` prints the text of, and the texts.

The texts of accepted trees are the Rust's, asked of the oracle; a tree with
`and`, `when` or `unless` is given to it expanded (tools/trial/expansion.py), and
the lines go by the tree's own records. Bad lines and refusals are not the
Rust's: they are expected from a reading of the documents in Python, here (`read`)
and in tools/trial/reading.py. That the captured entries pass 4,096 is seen in the
Rust's own lists.

In the file stdin the inputs are parted by `---` and LF, wherever those stand,
so that an input may end without LF; the texts in stdout are parted alike.
"""
import argparse
import os
import re
import sys

HERE = os.path.dirname(os.path.abspath(__file__))
TRIAL = os.path.join(HERE, "..", "trial")
sys.path.insert(0, TRIAL)

import damage
import expansion
import random_trees
import reading
import rust
import trees
from trees import AND, BEGIN, CALL, CONST, IF, LAMBDA, UNLESS, WHEN, ident

RECORDS_MOST = 512
PARTING = "---\n"

NUMBER = "(0|[1-9][0-9]*)"
NAMES = re.compile("names=" + NUMBER)
CLASS = re.compile("class=" + NUMBER)
RECORD = re.compile("form=%s id=%s name=%s count=%s from=%s to=%s" % ((NUMBER,) * 6))


def options():
    p = argparse.ArgumentParser(description=__doc__, formatter_class=argparse.RawDescriptionHelpFormatter)
    p.add_argument("--oracle", required=True, metavar="FOLDER", help="the folder of the oracle's program `oracle` (its bin/)")
    p.add_argument("--into", default=os.path.join(HERE, "..", "..", "crates", "listing_main"), metavar="FOLDER", help="where the files stdin and stdout go (crates/listing_main)")
    p.add_argument("--random", type=int, default=50, metavar="N", help="how many random trees (50)")
    p.add_argument("--expanded", type=int, default=20, metavar="N", help="how many more with `and`, `when` or `unless` (20)")
    p.add_argument("--records", type=int, default=24, metavar="N", help="their most records (24)")
    p.add_argument("--damaged", type=int, default=40, metavar="N", help="how many damaged trees (40)")
    return p.parse_args()


# ---- document 01's input, read in Python

def numbers_of(line, pattern, most):
    """The numbers of a line, or None where it differs."""
    found = pattern.fullmatch(line)
    if not found or any(int(n) > most for n in found.groups()):
        return None
    return [int(n) for n in found.groups()]


def read(text):
    """The number of the first bad line, or None; and the case that the text says."""
    lines = text.split("\n")
    unended = lines.pop()
    names, classes, records = None, [], []
    for at, line in enumerate(lines):
        if names is None:
            n = numbers_of(line, NAMES, 4294967295)
        elif len(classes) < names:
            n = numbers_of(line, CLASS, 255)
        else:
            n = numbers_of(line, RECORD, 4294967295)
        if n is None:
            return at + 1, None
        if names is None:
            [names] = n
        elif len(classes) < names:
            classes += n
        else:
            records.append(tuple(n))
    if unended or names is None or len(classes) < names:
        return len(lines) + 1, None
    return None, trees.Case("", classes, records)


# ---- the inputs

def line(form=7, id=0, name=0, count=0, start=0, end=0):
    return "form=%d id=%d name=%d count=%d from=%d to=%d\n" % (form, id, name, count, start, end)


def head(*classes):
    return "names=%d\n" % len(classes) + "".join("class=%d\n" % c for c in classes)


EMPTY = line()  # a begin without children: a good tree, and no fact

# Document 01's own example, its ids as the document has them.
EXAMPLE = head(0, 0) + line(5) + line(1, 1) + line(6, 2, count=1) + line(1, 3, 1) + line(8, 4, count=2) + line(1, 5) + line(1, 6, 1)


def bad_lines():
    """Each kind of line that differs, and of line that is missing; then where a line is bad and something else is wrong too."""
    good = line(1, 1)
    return [
        # nothing at all; the first line
        "", "\n", "names=0", "names=", "names=\n", "names=-1\n", "names=0\r\n", "names=0 \n", " names=0\n", "Names=0\n", "name=0\n", "names=00\n", "names=01\n",
        "names=4294967296\n", "names=99999999999999999999999\n", "names=0x0\n", "names=1e0\n", "\ufeffnames=0\n", "names=0\nnames=0\n",
        # class lines
        "names=1\n", "names=1\nclass=0", "names=1\nclass=256\n", "names=1\nclass=4294967297\n", "names=1\nclass=00\n", "names=1\nclass=\n", "names=2\nclass=0\n",
        "names=2\nclass=0\n\nclass=0\n", "names=1\nclass=0\nclass=0\n", "names=2\nclass=0\n" + EMPTY, "names=4294967295\nclass=0\n", "names=1\nclas=0\n", "names=1\nclass=0\t\n",
        # record lines: LF, spaces, order, words, numbers
        head(0) + good[:-1], head(0) + good + good[:20], head(0) + "\n", head(0) + good + "\n", head(0) + good[:-1] + "\r\n", head(0) + good[:-1] + " \n", head(0) + " " + good,
        head(0) + good.replace(" id", "  id"), head(0) + good.replace(" to", "\tto"), head(0) + good.replace(" to", "to"), head(0) + good.replace("id=1 name=0", "name=0 id=1"),
        head(0) + good.replace(" count=0", ""), head(0) + good[:-1] + " to=0\n", head(0) + good.replace("count", "counts"), head(0) + good.replace("form", "Form"),
        head(0) + good.replace("form=1", "from=1"), head(0) + good.replace("id=1", "id=01"), head(0) + good.replace("id=1", "id="), head(0) + good.replace("id=1", "id=+1"),
        head(0) + good.replace("id=1", "id=1.0"), head(0) + good.replace("id=1", "id=4294967296"), head(0) + good.replace("to=0", "to=4294967296"),
        head(0) + good.replace("to=0", "to=" + "9" * 40), head(0) + good.replace("to=0", "to=" + "0" * 80), head(0) + "x" * 5000 + "\n", head(0) + "x" * 5000,
        head(0) + good + "# a comment\n", head(0) + good + "end\n" + good,
        # a bad line goes before any refusal, and is found behind all that there is room for
        head(0) + line(0) + "x\n", head(0) + line(9) + good[:-1], "names=1025\n" + "class=0\n" * 1024, "names=1025\n" + "class=0\n" * 1024 + "class=256\n",
        head() + EMPTY * 513 + "x\n",
    ]


def good_lines():
    """The largest numbers, and names that nothing uses."""
    return [
        head(255, 0, 16) + line(1, 4294967294, 2, 0, 4294967295, 4294967295), head(*range(16)) + "".join(line(1, 1 + n, n) for n in range(16)),
        head() + line(2, 1, 1) + line(2, 2), head(0) + line(1, 10, start=1000000000, end=9),
    ]


def refused():
    """Refusals 2 to 8 and 16, at the limits and one past them where they have any, and where two apply."""
    out = [
        head() + EMPTY * 512 + line(13), head(*[0] * 1024) + line(1, 1, 1023), head(*[0] * 1025) + line(13), head(0) + EMPTY * 9 + line(13),
        head() + line(7, count=1) + line(11), head() + line(12) + line(8, 1), head() + line(2, 1) * 2 + line(11), head() + line(12) + line(5) + line(2, 1) + line(2, 2),
        head(0) + line(4294967295), head() + line(1, 1), head() + line(7, 0, 1), head() + line(7, 1), head() + line(2, 0), head() + line(2, 4294967295), head() + line(2, 1, 2),
        head() + line(5), head() + line(6, 1, count=2), head() + line(7, count=2) + line(8, 1) * 2, head() + line(5) + EMPTY + EMPTY,
    ]
    return out + [trees.text(trees.Case("", [0] * n, grouped(ns))) for n, ns in damage.limits() if len(ns) % 6 == 0 and len(ns) <= 6 * RECORDS_MOST and n <= 64]


def grouped(numbers):
    return [tuple(numbers[i:i + 6]) for i in range(0, len(numbers), 6)]


def of_trees(expressions, names):
    return trees.text(trees.Case("", [0] * names, trees.records_of(expressions, lambda at: 4294967294 - at, lambda at: (at, at))))


def wide():
    """As many rows as there can be, and many of each kind; shares that are rounded; lists up to the limit of refusal 10, and past it."""
    call = (CALL, 0, (), (ident(0),))
    calls = [(LAMBDA, 0, (), ((BEGIN, 0, (), (call,) * n),)) for n in (1, 2, 3, 6, 7, 8, 200, 201)]
    halves = [(LAMBDA, 0, (), ((BEGIN, 0, (), (call,) * n + ((IF, 0, (), (call, call, call)),)),)) for n in (0, 1, 2, 5)]
    rows = [
        ([ident(n % 40) for n in range(512)], 40), ([(LAMBDA, 0, (), ((CONST, 0, (), ()),))] * 40, 0), ([call] * 40, 1),
        ([(LAMBDA, 0, tuple(range(255)), ((CALL, 0, (), tuple(map(ident, range(255)))),))], 255),
    ]
    return [of_trees([e], 1) for e in calls + halves] + [of_trees(*r) for r in rows] + [trees.text(c) for c in trees.limits()]


def rows():
    """512 records whose expansion has more, and one record more; the widest `and`; tail calls in what follows many tests."""
    call = (CALL, 0, (), (ident(0),))

    def of(form, *kids):
        return (form, 0, (), kids)

    most = (LAMBDA, 0, (0,), (of(AND, *[of(WHEN, call)] * 85, *[of(UNLESS, call, call)] * 49),))
    tests = [(LAMBDA, 0, (), (of(AND, *[of(WHEN, *[call] * n)] * n, of(UNLESS, *[call] * n)),)) for n in (1, 2, 3, 7)]
    widest = (LAMBDA, 0, (0,), (of(AND, *[ident(0)] * 254, of(AND, call)),))
    return [of_trees([most, *[ident(0)] * n], 1) for n in (9, 10)] + [of_trees([e], 1) for e in tests + [widest]]


def inputs(o):
    cases = trees.scripts(os.path.join(TRIAL, "scripts.txt"))
    cases += [random_trees.at_random(seed, o.records) for seed in range(o.random)]
    cases += [random_trees.at_random(seed, o.records, expanded=True) for seed in range(o.expanded)]
    out = [EXAMPLE, head()] + [trees.text(c) for c in cases] + good_lines() + wide() + rows() + refused() + bad_lines()
    return out + [trees.text(trees.Case("", [0] * n, grouped(ns))) for n, ns in damage.copies(cases, o.damaged) if len(ns) % 6 == 0]


# ---- the texts

def refused_text(number, at):
    return "refused=%d at=%d\n" % (number, at)


def over_limit(facts, ends):
    """The lambda whose list makes the captured entries more than 4,096, or None."""
    lists = {int(at): int(n) for at, n in re.findall(r"^at=(\d+) captured=(\d+) ", facts, flags=re.M)}
    total = 0
    for node in ends:
        total += lists[node.at] if node.form == LAMBDA else 0
        if total > rust.CAPTURED_MOST:
            return node.at
    return None


def before_the_run(bad, case):
    """The text where no facts are asked for, or None."""
    if bad is not None:
        return "bad=%d\n" % bad
    if len(case.records) > RECORDS_MOST:
        return refused_text(2, 0)
    found = reading.refusal(len(case.classes), [n for r in case.records for n in r])
    return refused_text(*found) if found else None


def texts(oracle, some):
    found = [read(text) for text in some]
    out = [before_the_run(*f) for f in found]
    asked = [i for i, text in enumerate(out) if text is None]
    expanded = [expansion.expand(found[i][1]) for i in asked]
    for i, (tree, written), facts in zip(asked, expanded, rust.ask(oracle, [tree for tree, _ in expanded], "facts")):
        nine, ends = reading.walk(tree.records)
        ten = over_limit(facts, ends)
        if nine is not None:
            out[i] = refused_text(9, written[nine])
        elif ten is not None:
            out[i] = refused_text(10, written[ten])
        elif facts.startswith(("panic=", "malformed")):
            raise rust.Unknown(facts)
        else:
            out[i] = by_written(facts, written)
    return out


def by_written(facts, written):
    """The lines of an expansion's facts, with the records as written."""
    return re.sub(r"^at=(\d+)", lambda at: "at=%d" % expansion.written_record(int(at[1]), written), facts, flags=re.M)


def main():
    o = options()
    some = inputs(o)
    if any(PARTING in text for text in some):
        raise rust.Unknown("an input with a parting")
    with open(os.path.join(o.into, "stdin"), "w", encoding="utf-8", newline="") as out:
        out.write(PARTING.join(some))
    with open(os.path.join(o.into, "stdout"), "w", encoding="utf-8", newline="") as out:
        out.write(PARTING.join(texts(os.path.join(o.oracle, "oracle"), some)))


if __name__ == "__main__":
    main()
