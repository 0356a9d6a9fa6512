"""Cases, and what is expected of them, as text of antt: one lemma for each thing that is compared."""
from itertools import groupby
import os
import re

from reading import nodes
from trees import AND, BEGIN, CALL, CONST, DEFINE, IDENT, IF, LAMBDA, LET, UNLESS, WHEN

# Of cases with more records only the fresh run is tried, for its refusal and how many entries its lists have.
LARGE = 60

HEAD = """use Rattle.std.specs.Prelude.{List, [], ◌∷◌, ◌++◌, true, false, ◌≡◌, refl}
use Rattle.tree.specs.Tree.{Trees, ident, const, if, letin, define, lambda, sequence, begins, ands, whens, call, set!, nil, cons}
use Rattle.trial.specs.Seen.{x, n, copies, cell, seen_fresh, seen_settled, counts_fresh, records_of, checked, rest_fresh, rest_settled}

"""


# The forms that are sequences, by what they say of their node.
SEQUENCES = {BEGIN: "begins", AND: "ands", WHEN: "whens true", UNLESS: "whens false"}


def unfoldable(folder, crates):
    """The definitions of the crates under `folder` that compute only where they are named, by their whole paths."""
    out = []
    for crate in crates:
        specs = os.path.join(folder, crate, "specs")
        for file in sorted(f for f in os.listdir(specs) if f.endswith(".antt")):
            with open(os.path.join(specs, file)) as source:
                names = names_in(source.read().splitlines())
            out += ["Rattle.%s.specs.%s.%s" % (crate, file[:-len(".antt")], name) for name in names]
    return out


def names_in(lines):
    out, block = [], None
    for line in lines:
        indent = len(line) - len(line.lstrip())
        if block is not None and line.strip() and indent <= block:
            block = None
        if line.strip() == "unfoldable mutual":
            block = indent
        pattern = r" *(?:pub )?(\S+) :" if block is not None else r" *unfoldable pub (\S+) :"
        found = re.match(pattern, line)
        if found:
            out.append(found[1])
    return out


def listed(texts):
    return "(%s)" % " ∷ ".join(list(texts) + ["[]"])


def number_list(numbers):
    return listed(str(n) for n in numbers)


def rows(table):
    return listed(number_list(row) for row in table)


def trees(texts):
    texts = list(texts)
    return "(" + "".join("cons %s (" % t for t in texts) + "nil" + ")" * (len(texts) + 1)


def term(records):
    """The records as a term of `Trees`."""

    def name(at):
        _, id, number, _, start, end = records[at]
        return "(x %d %d %d %d %d)" % (at, id, number, start, end)

    def of(node):
        _, id, number, _, start, end = records[node.at]
        here = "(n %d %d %d %d)" % (node.at, id, start, end)
        names = [name(at) for at in node.names]
        kids = [of(kid) for kid in node.kids]
        if node.form == IDENT:
            return "(ident %s)" % name(node.at)
        if node.form == CONST:
            return "(const %s %s)" % (here, "true" if number else "false")
        if node.form == IF:
            return "(if %s %s)" % (here, " ".join(kids))
        if node.form == LET:
            return "(letin %s %s %s %s)" % (here, listed(names), trees(kids[:-1]), kids[-1])
        if node.form == LAMBDA:
            return "(lambda %s %s %s)" % (here, listed(names), kids[0])
        if node.form in SEQUENCES:
            return "(sequence (%s %s) %s)" % (SEQUENCES[node.form], here, trees(kids))
        if node.form == CALL:
            return "(call %s %s %s)" % (here, kids[0], trees(kids[1:]))
        return "(%s %s %s %s)" % ("define" if node.form == DEFINE else "set!", here, names[0], kids[0])

    return trees(of(node) for node in nodes(records))


def lemma(name, left, right, opened):
    return "%s : %s ≡ %s\nunfolding %s\n%s = refl\n\n" % (name, left, right, opened, name)


def flat(table):
    return [n for row in table for n in row]


def sizes(facts):
    return [len(facts.rows), len(facts.captured), len(facts.arguments)]


def refusal(refused):
    """A refusal as rows: none, or one."""
    return rows([refused] if refused else [])


def seen(facts):
    """The record `Seen`."""
    tops = [] if facts.refused else sizes(facts)[1:]
    return "record { refused = %s; rows = %s; captured = %s; arguments = %s; tops = %s; rest_is_zero = true }" % (
        refusal(facts.refused), rows(facts.rows), rows(facts.captured), rows(facts.arguments), number_list(tops))


def tree_of(name, case):
    return "abbrev %s : Trees\n%s = %s\n\n" % (name, name, term(case.records))


def computed(what, case, name, facts):
    return "%s %s %s %d %d %d" % (what, number_list(case.classes), name, *sizes(facts))


def case_lemmas(number, case, fresh, settled, whole):
    """Lemmas `fresh0`, `settled0`, `records0` and `checked0` for the case 0; if whole, also that all the rest is zero."""
    name = "t%d" % number
    out = tree_of(name, case)
    if len(case.records) > LARGE:
        left = "counts_fresh %s %s" % (number_list(case.classes), name)
        return out + lemma("fresh%d" % number, left, rows([fresh.refused or sizes(fresh)[1:]]), "counts_fresh")
    for run, facts in ("fresh", fresh), ("settled", settled):
        out += lemma(run + str(number), computed("seen_" + run, case, name, facts), seen(facts), "seen_" + run)
        if whole and not facts.refused:
            out += lemma("rest_%s%d" % (run, number), computed("rest_" + run, case, name, facts), "true", "rest_" + run)
    numbers = number_list(flat(case.records))
    out += lemma("records%d" % number, "records_of " + name, numbers, "records_of")
    return out + lemma("checked%d" % number, "checked %d %s" % (len(case.classes), numbers), "[]", "checked")


def check_lemma(number, names, numbers, refused):
    """A lemma `checked0` that the checks 1 to 8 and 16 answer `refused`. Runs of equal records are written as such."""
    records = [numbers[i:i + 6] for i in range(0, len(numbers), 6)]
    parts = ["copies %d %s" % (len(list(run)), number_list(record)) for record, run in groupby(records)]
    text = " ++ ".join("(%s)" % p for p in parts + ["[]"])
    return lemma("checked%d" % number, "checked %d (%s)" % (names, text), refusal(refused), "checked")


def cell_lemmas(case, run, facts):
    """A lemma for the refusal and for each number of the tables: `refused'0'1`, `rows'3'7`, `captured'0'2`, `arguments'1'0`."""
    left = computed("seen_" + run, case, "t0", facts)
    tables = {"refused": [facts.refused or (0, 0)], "rows": facts.rows, "captured": facts.captured, "arguments": facts.arguments}
    out = tree_of("t0", case)
    for table, lines in tables.items():
        for i, line in enumerate(lines):
            for j, value in enumerate(line):
                out += lemma("%s'%d'%d" % (table, i, j), "cell (%s).%s %d %d" % (left, table, i, j), value, "seen_" + run)
    return out
