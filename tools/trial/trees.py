"""Trees: their records, and the making of them.

An expression here is (form, name, names, kids): the name field, the name
numbers of the children that are names, and the other children, expressions.
"""
from collections import namedtuple
from functools import lru_cache
from itertools import permutations, product
import re

IDENT, CONST, IF, LET, DEFINE, LAMBDA, BEGIN, CALL, SET, AND, WHEN, UNLESS = range(1, 13)
HAS_ID = (IDENT, CONST, LET, LAMBDA, CALL)
EXPANDED = (AND, WHEN, UNLESS)  # what the Rust is not given, but expanded
COUNTED = (BEGIN, CALL, AND, WHEN, UNLESS)  # whose count is that of the children, none of them a name's place
HAS_COUNT = (LET, LAMBDA) + COUNTED
NEEDS_A_CHILD = (CALL, WHEN, UNLESS)

# classes: one byte a name. records: (form, id, name, count, from, to).
Case = namedtuple("Case", "label classes records")


def ident(name):
    return (IDENT, name, (), ())


def children(form, count):
    """How many children are names, and how many are not. Document 01's table, and order 7 of document 02."""
    if form in COUNTED:
        return 0, count
    return {IDENT: (0, 0), CONST: (0, 0), IF: (0, 3), LET: (count, count + 1), DEFINE: (1, 1), LAMBDA: (count, 1), SET: (1, 1)}[form]


def count_of(form, names, kids):
    if form in COUNTED:
        return len(kids)
    return len(names) if form in HAS_COUNT else 0


def has_expanded(e):
    return e[0] in EXPANDED or any(map(has_expanded, e[3]))


def records_of(expressions, id_of, place_of):
    """The records in preorder. id_of and place_of give a record's id and its positions."""
    out = []

    def put(form, name, count):
        at = len(out)
        out.append((form, id_of(at) if form in HAS_ID else 0, name, count) + place_of(at))

    def visit(e):
        form, name, names, kids = e
        put(form, name, count_of(form, names, kids))
        for n in names:
            put(IDENT, n, 0)
        for kid in kids:
            visit(kid)

    for e in expressions:
        visit(e)
    return out


def text(case):
    """The case as document 01's input."""
    lines = ["names=%d" % len(case.classes)] + ["class=%d" % c for c in case.classes]
    lines += ["form=%d id=%d name=%d count=%d from=%d to=%d" % r for r in case.records]
    return "\n".join(lines) + "\n"


def from_text(label, lines):
    n = int(lines[0].split("=")[1])
    numbers = [[int(w.split("=")[1]) for w in line.split()] for line in lines[1:]]
    return Case(label, [c for [c] in numbers[:n]], [tuple(r) for r in numbers[n:]])


# ---- all small trees

@lru_cache(None)
def of_size(size, names, last_form):
    """All expressions of exactly `size` records over `names` names, of the forms up to this one."""
    out = []
    if size == 1:
        out += [ident(n) for n in range(names)] + [(CONST, q, (), ()) for q in (0, 1)]
    for form in range(IF, last_form + 1):
        for count in range(size) if form in HAS_COUNT else [0]:
            bound, others = children(form, count)
            if form in NEEDS_A_CHILD and count == 0:
                continue
            for ns in product(range(names), repeat=bound):
                for kids in sequences(size - 1 - bound, others, names, last_form):
                    out.append((form, 0, ns, kids))
    return out


@lru_cache(None)
def sequences(size, parts, names, last_form):
    """All sequences of `parts` expressions with `size` records together."""
    if parts == 0:
        return [()] if size == 0 else []
    return [
        (e,) + rest
        for first in range(1, size - parts + 2)
        for e in of_size(first, names, last_form)
        for rest in sequences(size - first, parts - 1, names, last_form)
    ]


CLASSES = [(0, 0), (1, 0), (8, 1), (6, 9)]


def small(most, names):
    """Every tree of up to `most` records over `names` names without forms 10 to 12, then every
    one of fewer records that has one. Records have the ids from 10 on, in every second tree
    shuffled, and positions that are all different. The classes change from tree to tree, over
    four choices."""
    yield from of_forms(most, names, SET)
    yield from of_forms(most - 1, names, UNLESS)


def of_forms(most, names, last_form):
    """Those of the forms up to this one; of those up to 12 the ones that have 10, 11 or 12."""
    number = 0
    for size in range(most + 1):
        orders = list(permutations(range(size)))
        for parts in range(size + 1):
            for expressions in sequences(size, parts, names, last_form):
                if last_form == UNLESS and not any(map(has_expanded, expressions)):
                    continue
                order = orders[number // 2 % len(orders)] if number % 2 else orders[0]
                classes = (CLASSES[number // 3 % len(CLASSES)] * names)[:names]
                records = records_of(expressions, lambda at: 10 + order[at], lambda at: (100 + 2 * at, 101 + 2 * at))
                yield Case("small %d of forms up to %d" % (number, last_form), list(classes), records)
                number += 1


# ---- scripts

def parse(source):
    tokens = re.findall(r"[()]|[^\s()]+", source)
    at = 0

    def one():
        nonlocal at
        at += 1
        if tokens[at - 1] != "(":
            return tokens[at - 1]
        out = []
        while tokens[at] != ")":
            out.append(one())
        at += 1
        return out

    out = []
    while at < len(tokens):
        out.append(one())
    return out


ROWS = {"begin": BEGIN, "and": AND, "when": WHEN, "unless": UNLESS}


def from_script(label, source):
    """A script with `name:class` words before it, as `car:1 (car 7)`. Ids neither rise nor fall."""
    classes = dict(re.findall(r"(\S+):(\d+)", source))
    numbers = {}

    def number(name):
        return numbers.setdefault(name, len(numbers))

    def expression(s):
        if isinstance(s, str):
            return (CONST, int(s == "#f"), (), ()) if s == "#f" or s.isdigit() else ident(number(s))
        word = s[0] if s and isinstance(s[0], str) else None
        if word == "if":
            return (IF, 0, (), tuple(map(expression, s[1:])))
        if word == "let":
            names = tuple(number(n) for n, _ in s[1])
            return (LET, 0, names, tuple(expression(e) for _, e in s[1]) + (expression(s[2]),))
        if word in ("define", "set!"):
            return (DEFINE if word == "define" else SET, 0, (number(s[1]),), (expression(s[2]),))
        if word == "lambda":
            return (LAMBDA, 0, tuple(map(number, s[1])), (expression(s[2]),))
        if word in ROWS:
            return (ROWS[word], 0, (), tuple(map(expression, s[1:])))
        return (CALL, 0, (), tuple(map(expression, s)))

    expressions = [expression(s) for s in parse(re.sub(r"\S+:\d+", "", source))]
    records = records_of(expressions, lambda at: 1 + at * 37 % 101, lambda at: (1000 + at, 2000 + at))
    return Case(label, [int(classes.get(n, 0)) for n in numbers], records)


def scripts(path):
    """One script a line; `;` starts a comment."""
    with open(path) as file:
        lines = [line.strip() for line in file]
    return [from_script("script " + line, line) for line in lines if line and not line.startswith(";")]


def limits():
    """4,096 captured entries, which is the most, and 64 more: 64 parameters, all in the lists of 64 or 65 lambdas."""
    names = tuple(range(64))
    using = (LAMBDA, 0, (), ((BEGIN, 0, (), tuple(ident(n) for n in names)),))
    idle = (LAMBDA, 0, (), ((CONST, 0, (), ()),))
    out = []
    for lambdas in 64, 65:
        tree = (LAMBDA, 0, names, ((BEGIN, 0, (), (using,) + (idle,) * (lambdas - 1)),))
        out.append(Case("%d lists of 64 entries" % lambdas, [0] * 64, records_of([tree], lambda at: 5000 - at, lambda at: (at, at))))
    return out
