"""Trees: read from text, numbered, written as antt and as Scheme."""

import re

WITH_ID = ("ident", "const", "let", "lambda", "call")


class Node:
    """A record with its children. kids: name children first where the form has them."""

    def __init__(self, form, kids=(), names=(), name=None, false=False):
        self.form, self.kids, self.names, self.name, self.false = form, list(kids), list(names), name, false
        self.at = self.id = None


def ident(name):
    return Node("ident", name=name)


# The forms whose children stand in a row, and what antt says of their node.
SEQUENCES = {"begin": "begins", "and": "ands", "when": "whens true", "unless": "whens false"}


def core(t):
    """An `and` of one child is that child."""
    while t.form == "and" and len(t.kids) == 1:
        t = t.kids[0]
    return t


# ---- text: (if a b c) (let ((x e) ..) b) (define x b) (lambda (x ..) b) (begin ..) (set! x e) (and ..) (when e ..) (unless e ..), 7, #f

def tokens(text):
    return re.findall(r"[()]|[^\s()]+", text)


def parse(text):
    stack = [[]]
    for t in tokens(text):
        if t == "(":
            stack.append([])
        elif t == ")":
            done = stack.pop()
            stack[-1].append(done)
        else:
            stack[-1].append(t)
    return [build(x) for x in stack[0]]


def build(x):
    if isinstance(x, str):
        if x == "#f" or x.isdigit():
            return Node("const", false=x == "#f")
        return ident(x)
    head = x[0] if x and isinstance(x[0], str) else None
    if head == "if":
        return Node("if", [build(y) for y in x[1:]])
    if head == "let":
        return Node("let", [build(e) for _, e in x[1]] + [build(x[2])], [ident(n) for n, _ in x[1]])
    if head == "define":
        return Node("define", [build(x[2])], [ident(x[1])])
    if head == "set!":
        return Node("set!", [build(x[2])], [ident(x[1])])
    if head == "lambda":
        return Node("lambda", [build(x[2])], [ident(n) for n in x[1]])
    if head in SEQUENCES:
        return Node(head, [build(y) for y in x[1:]])
    return Node("call", [build(y) for y in x])


def walk(node):
    """The records of a tree in preorder."""
    yield node
    for n in node.names:
        yield n
    for k in node.kids:
        yield from walk(k)


def number(top, ids=None):
    """Gives each record its number and its id; answers the names in order of first use."""
    names, at, ids = [], 0, iter(ids or range(1, 10**6))
    for t in top:
        for r in walk(t):
            r.at, at = at, at + 1
            r.id = next(ids) if r.form in WITH_ID else 0
            if r.form == "ident" and r.name not in names:
                names.append(r.name)
    for t in top:
        for r in walk(t):
            if r.form == "ident":
                r.code = names.index(r.name)
    return names


# ---- antt

def antt_ident(x):
    return f"x {x.at} {x.id} {x.code}"


def antt_names(xs):
    return "(" + "".join(antt_ident(x) + " ∷ " for x in xs) + "[])"


def antt_list(ts):
    return "(" + "".join(f"cons {antt(t)} (" for t in ts) + "nil" + ")" * len(ts) + ")"


def antt(t):
    node = f"(nd {t.at} {t.id})"
    if t.form == "ident":
        return f"(ident ({antt_ident(t)}))"
    if t.form == "const":
        return f"(const {node} {'true' if t.false else 'false'})"
    if t.form == "if":
        return f"(if {node} {' '.join(antt(k) for k in t.kids)})"
    if t.form == "let":
        return f"(letin {node} {antt_names(t.names)} {antt_list(t.kids[:-1])} {antt(t.kids[-1])})"
    if t.form in ("define", "set!"):
        return f"({t.form} {node} ({antt_ident(t.names[0])}) {antt(t.kids[0])})"
    if t.form == "lambda":
        return f"(lambda {node} {antt_names(t.names)} {antt(t.kids[0])})"
    if t.form in SEQUENCES:
        return f"(sequence ({SEQUENCES[t.form]} {node}) {antt_list(t.kids)})"
    return f"(call {node} {antt(t.kids[0])} {antt_list(t.kids[1:])})"


# ---- Scheme: names are n0, n1, ..; a constant is its id, an `and` of none 0; arguments and initial values go left to right, the head last

UNSPECIFIED = "(if #f #f)"

def var(x):
    return f"n{x.code}"


def in_order(node, parts, last):
    """`last` after the parts, each bound to a temporary of its own."""
    temps = [f"t{node.at}-{i}" for i in range(len(parts))]
    binds = " ".join(f"({t} {scheme(p)})" for t, p in zip(temps, parts))
    return f"(let* ({binds}) {last(temps)})"


def scheme(t):
    if t.form == "ident":
        return var(t)
    if t.form == "const":
        return "#f" if t.false else str(t.id)
    if t.form == "if":
        return f"(if {' '.join(scheme(k) for k in t.kids)})"
    if t.form == "let":
        binds = lambda ts: " ".join(f"({var(n)} {s})" for n, s in zip(t.names, ts))
        return in_order(t, t.kids[:-1], lambda ts: f"(let ({binds(ts)}) {scheme(t.kids[-1])})")
    if t.form in ("define", "set!"):
        return f"({t.form} {var(t.names[0])} {scheme(t.kids[0])})"
    if t.form == "lambda":
        return f"(lambda ({' '.join(var(n) for n in t.names)}) {scheme(t.kids[0])})"
    if t.form == "begin":
        return f"(begin {' '.join(scheme(k) for k in t.kids)})" if t.kids else UNSPECIFIED
    if t.form == "and":
        return f"(and {' '.join(scheme(k) for k in t.kids)})" if t.kids else "0"
    if t.form in ("when", "unless"):
        return f"({t.form} {' '.join(scheme(k) for k in t.kids)}{'' if t.kids[1:] else ' ' + UNSPECIFIED})"
    return in_order(t, t.kids[1:] + t.kids[:1], lambda ts: f"(begin (tick!) ({ts[-1]} {' '.join(ts[:-1])}))")


def scheme_top(top):
    """The top-level forms. The children of a begin with defines stand in its place."""
    out = []
    for t in map(core, top):
        kids = [core(k) for k in t.kids]
        if t.form == "begin" and any(k.form == "define" for k in kids):
            out += [scheme(k) for k in kids]
        else:
            out.append(scheme(t))
    return out


def text(t):
    if t.form == "ident":
        return t.name
    if t.form == "const":
        return "#f" if t.false else str(t.id)
    if t.form == "let":
        pairs = " ".join(f"({n.name} {text(k)})" for n, k in zip(t.names, t.kids))
        return f"(let ({pairs}) {text(t.kids[-1])})"
    if t.form == "lambda":
        return f"(lambda ({' '.join(n.name for n in t.names)}) {text(t.kids[0])})"
    words = [] if t.form == "call" else [t.form]
    return "(" + " ".join(words + [n.name for n in t.names] + [text(k) for k in t.kids]) + ")"
