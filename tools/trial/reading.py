"""Document 01 read a second time, in plain Python: refusals 1 to 9, and the places of lists; and refusal 16, from document 02.

It shares nothing with the definitions but the documents.
"""
from collections import namedtuple

from trees import BEGIN, CALL, DEFINE, HAS_COUNT, HAS_ID, IDENT, LAMBDA, LET, UNLESS, WHEN, children

# A record with its children; `names` are the records of those that are names.
Node = namedtuple("Node", "at form names kids")


def field_fits(record, names):
    form, id, name, count, _, _ = record
    if not 1 <= form <= 12:
        return False
    id_fits = 1 <= id <= 4294967294 if form in HAS_ID else id == 0
    name_below = {1: names, 2: 2}.get(form, 1)
    count_most = 255 if form in HAS_COUNT else 0
    return id_fits and name < name_below and count <= count_most


def places(records):
    """For each record its nesting and whether it stands in a name's place; then whether children are missing."""
    out = []
    missing = False

    def take(nesting, is_name):
        nonlocal missing
        if len(out) == len(records):
            missing = True
            return
        form, _, _, count, _, _ = records[len(out)]
        out.append((nesting, is_name))
        names, others = children(form, count)
        for _ in range(names):
            take(nesting + 1, True)
        for _ in range(others):
            take(nesting + 1, False)

    while len(out) < len(records):
        take(1, False)
    return out, missing


def refusal(names, numbers):
    """Refusals 1 to 8 and 16 of a list of numbers: (number, record) or None."""
    if len(numbers) % 6 != 0:
        return (1, 0)
    records = [tuple(numbers[i:i + 6]) for i in range(0, len(numbers), 6)]
    if len(records) > 4096 or names > 1024:
        return (2, 0)
    for at, r in enumerate(records):
        if not field_fits(r, names):
            return (3, at)
    where, missing = places(records)
    if missing:
        return (4, len(records))
    for at, (nesting, _) in enumerate(where):
        if nesting > 64:
            return (5, at)
    for at, (_, is_name) in enumerate(where):
        if is_name and records[at][0] != IDENT:
            return (6, at)
    for at, r in enumerate(records):
        if r[0] == CALL and r[3] == 0:
            return (7, at)
    for at, r in enumerate(records):
        if r[0] in (WHEN, UNLESS) and r[3] == 0:
            return (16, at)
    ids = set()
    for at, r in enumerate(records):
        if r[1] and r[1] in ids:
            return (8, at)
        ids.add(r[1])
    return None


def nodes(records):
    """The top-level expressions of good records."""
    at = 0

    def take():
        nonlocal at
        here = at
        at += 1
        names, others = children(records[here][0], records[here][3])
        at += names
        return Node(here, records[here][0], list(range(here + 1, here + 1 + names)), [take() for _ in range(others)])

    out = []
    while at < len(records):
        out.append(take())
    return out


def is_lambda_define(node):
    return node.form == DEFINE and node.kids[0].form == LAMBDA


class Twice(Exception):
    """Refusal 9, at a binder's record."""


class Walk:
    """The names that enter and leave layers, and the lambdas and lets that end, in the pass's order; of trees without
    forms 10 to 12."""

    def __init__(self, records):
        self.records = records
        self.layers = [[]]
        self.ends = []

    def enter(self, at):
        name = self.records[at][2]
        if len(self.layers) > 1 and name in self.layers[-1]:
            raise Twice(at)
        self.layers[-1].append(name)

    def visit(self, node, entered=False):
        """`entered`: a lambda define that its begin has entered."""
        if node.form == LET:
            self.let(node)
        elif node.form == LAMBDA:
            self.layers.append([])
            for at in node.names:
                self.enter(at)
            self.visit(node.kids[0])
            self.layers.pop()
            self.ends.append(node)
        elif node.form == DEFINE:
            first = is_lambda_define(node)
            if first and not entered:
                self.enter(node.names[0])
            self.visit(node.kids[0])
            if not first:
                self.enter(node.names[0])
        elif node.form == BEGIN:
            for kid in node.kids:
                if is_lambda_define(kid):
                    self.enter(kid.names[0])
            for kid in node.kids:
                self.visit(kid, True)
        elif node.form == CALL:
            for kid in node.kids[1:] + node.kids[:1]:
                self.visit(kid)
        else:
            for kid in node.kids:
                self.visit(kid)

    def let(self, node):
        for kid in node.kids[:-1]:
            self.visit(kid)
        opens = len(self.layers) == 1
        if opens:
            self.layers.append([])
        for at in node.names:
            self.enter(at)
        self.visit(node.kids[-1])
        for at in node.names:
            self.layers[-1].remove(self.records[at][2])
        if opens:
            self.layers.pop()
        self.ends.append(node)


def walk(records):
    """The record of refusal 9, or None; and the lambdas and lets in the order of their ends.
    At top level all names enter the bottom layer, which refuses none."""
    w = Walk(records)
    try:
        for node in nodes(records):
            w.visit(node)
    except Twice as twice:
        return twice.args[0], []
    return None, w.ends
