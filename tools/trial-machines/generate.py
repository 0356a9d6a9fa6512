"""Random scripts by seed: runnable ones within the premises of demand 3, and any trees for the claims of demand 2."""

import random

from model import Plain, Walk, inner_defines
from tree import Node, ident, number

LOCALS = ["a", "b", "c", "d"]
GLOBALS = ["f", "g", "h", "a"]


class Scope:
    """Names in sight as (name, arity or None, level); the level counts lambdas, `live` are the names of the layer."""

    def __init__(self, names=(), level=0, live=frozenset()):
        self.names, self.level, self.live = names, level, live

    def fresh(self, rng, k):
        free = [n for n in LOCALS if n not in self.live]
        return rng.sample(free, min(k, len(free)))

    def let(self, names, types):
        added = tuple((n, t, self.level) for n, t in zip(names, types))
        return Scope(added + self.names, self.level, self.live | set(names))

    def body(self, names):
        added = tuple((n, None, self.level + 1) for n in names)
        return Scope(added + self.names, self.level + 1, frozenset(names))

    def seen(self):
        out = {}
        for n, t, level in self.names:
            out.setdefault(n, (t, level))
        return out


class Maker:
    def __init__(self, rng, size):
        self.rng, self.left, self.globals = rng, size, {}

    def const(self):
        self.left -= 1
        return Node("const", false=self.rng.random() < 0.3)

    def procedures(self, sc):
        seen = sc.seen()
        known = [(n, t) for n, (t, _) in seen.items() if t is not None]
        return known + [(n, t) for n, t in self.globals.items() if t is not None and n not in seen]

    def identifier(self, sc):
        self.left -= 1
        seen = list(sc.seen())
        if seen and self.rng.random() < 0.85:
            return ident(self.rng.choice(seen))
        if self.globals and self.rng.random() < 0.97:
            return ident(self.rng.choice(list(self.globals)))
        return ident(self.rng.choice(GLOBALS)) if self.rng.random() < 0.3 else self.const()

    def expression(self, d, sc):
        if d == 0 or self.left <= 0:
            return self.identifier(sc) if self.rng.random() < 0.6 else self.const()
        self.left -= 1
        make = self.rng.choices([self.identifier, self.conditional, self.let, self.closure, self.sequence, self.call, self.assign,
                                 self.conjunction, self.tested], [3, 3, 4, 2, 2, 6, 2, 3, 3])[0]
        return make(sc) if make == self.identifier else make(d - 1, sc)

    def conditional(self, d, sc):
        test = self.expression(min(d, 1), sc)
        return Node("if", [test, self.expression(d, sc), self.expression(d, sc)])

    def typed(self, d, sc):
        """A value, and its arity where it is a procedure that is known."""
        if self.rng.random() < 0.45:
            k = self.rng.randrange(3)
            return self.lambda_of(d, sc, k), k
        return self.expression(d, sc), None

    def let(self, d, sc):
        names = sc.fresh(self.rng, self.rng.choice([0, 1, 1, 1, 2, 2]))
        values = [self.typed(d, sc) for _ in names]
        body = self.expression(d, sc.let(names, [t for _, t in values]))
        return Node("let", [v for v, _ in values] + [body], [ident(n) for n in names])

    def lambda_of(self, d, sc, k):
        names = self.rng.sample(LOCALS, k)
        return Node("lambda", [self.expression(d, sc.body(names))], [ident(n) for n in names])

    def closure(self, d, sc):
        return self.lambda_of(d, sc, self.rng.randrange(3))

    def sequence(self, d, sc):
        return Node("begin", [self.expression(d, sc) for _ in range(self.rng.choice([0, 1, 2, 2, 3]))])

    def conjunction(self, d, sc):
        return Node("and", [self.expression(d, sc) for _ in range(self.rng.choice([0, 1, 1, 2, 2, 3]))])

    def tested(self, d, sc):
        test = self.expression(min(d, 1), sc)
        return Node(self.rng.choice(["when", "unless"]), [test] + [self.expression(d, sc) for _ in range(self.rng.choice([0, 1, 1, 2]))])

    def in_ands(self, t):
        """Now and then in an `and` of one, or two."""
        for _ in range(self.rng.choice([0, 0, 0, 0, 0, 1, 2])):
            t = Node("and", [t])
        return t

    def call(self, d, sc):
        known = self.procedures(sc)
        roll = self.rng.random()
        if known and roll < 0.6:
            name, k = self.rng.choice(known)
            head = ident(name)
        elif roll < 0.98:
            k = self.rng.randrange(3)
            head = self.lambda_of(d, sc, k)
        else:
            k, head = self.rng.randrange(3), self.expression(d, sc)
        if self.rng.random() < 0.01:
            k += 1
        return Node("call", [self.in_ands(head)] + [self.expression(min(d, 2), sc) for _ in range(k)])

    def assign(self, d, sc):
        own = [n for n, (t, level) in sc.seen().items() if level == sc.level and t is None]
        cells = [n for n, t in self.globals.items() if t is None and n not in sc.seen()]
        if not own and not cells:
            return self.expression(d, sc)
        return Node("set!", [self.expression(min(d, 2), sc)], [ident(self.rng.choice(own * 3 + cells))])

    def define(self):
        name = self.rng.choice(GLOBALS)
        if self.rng.random() < 0.7:
            k = self.rng.randrange(1, 3)
            self.globals[name] = k
            return Node("define", [self.in_ands(self.recursive(name, k))], [ident(name)])
        body = self.expression(2, Scope())
        self.globals[name] = None
        return Node("define", [body], [ident(name)])

    def recursive(self, name, k):
        """Half of them call themselves where the first parameter is true."""
        names = self.rng.sample(LOCALS, k)
        sc = Scope().body(names)
        if self.rng.random() < 0.5:
            return Node("lambda", [self.expression(4, sc)], [ident(n) for n in names])
        again = Node("call", [ident(name), Node("const", false=True)] + [self.expression(2, sc) for _ in names[1:]])
        form = self.rng.choice(["if", "if", "and", "when"])
        test = Node(form, [ident(names[0]), again] if form != "if" else [ident(names[0]), again, self.expression(3, sc)])
        return Node("lambda", [test], [ident(n) for n in names])

    def script(self):
        top = [self.in_ands(self.define()) for _ in range(self.rng.choice([0, 1, 1, 2, 3]))]
        if top and self.rng.random() < 0.2:
            top = [self.in_ands(Node("begin", top))]
        for _ in range(self.rng.choice([1, 1, 2])):
            self.left = max(self.left, 12)
            top.append(self.call(4, Scope()) if self.rng.random() < 0.6 else self.expression(4, Scope()))
        return top


def shuffled_ids(rng):
    return rng.sample(range(1, 5000), 1000)


def runnable(seed, size=40):
    """A script within the premises: no refusal 9, no inner define, no set! of a name that an inner lambda mentions. Few stop at once."""
    rng = random.Random(seed)
    while True:
        top = Maker(rng, size).script()
        names = number(top, shuffled_ids(rng))
        walk = Walk(top)
        if walk.nine() is not None or inner_defines(top) or walk.inner_set():
            continue
        if Plain(60).run(top)[0] >= 15 or rng.random() < 0.02:
            return top, names


class Wild(Maker):
    """Any trees: names clash, names are set anywhere and, if asked for, defines stand anywhere."""

    def __init__(self, rng, size, defines):
        super().__init__(rng, size)
        self.defines = defines

    def name(self):
        return ident(self.rng.choice("abc"))

    def any(self, d):
        if d == 0 or self.left <= 0:
            return self.name() if self.rng.random() < 0.8 else self.const()
        self.left -= 1
        form = self.rng.choices(["ident", "const", "if", "let", "lambda", "begin", "call", "set!", "and", "when", "unless", "define"],
                                [3, 1, 1, 3, 5, 2, 4, 4, 3, 1, 1, 3 if self.defines else 0])[0]
        some = lambda n: [self.any(d - 1) for _ in range(n)]
        if form == "ident":
            return self.name()
        if form == "const":
            return self.const()
        if form == "let":
            k = self.rng.choice([0, 1, 1, 2])
            return Node("let", some(k + 1), [self.name() for _ in range(k)])
        if form == "lambda":
            return Node("lambda", some(1), [self.name() for _ in range(self.rng.choice([0, 0, 1, 1, 2]))])
        if form in ("set!", "define"):
            return Node(form, some(1), [self.name()])
        return Node(form, some({"if": 3}.get(form) or self.rng.randrange(1, 4) - (form in ("begin", "and"))))

    def nest(self):
        """Lambdas three deep with a set! after the innermost: where refusal 12 arises."""
        some = lambda: [self.name() for _ in range(self.rng.choice([0, 0, 1]))]
        inner = Node("lambda", [self.any(2)], some())
        row = self.rng.choice(["begin", "begin", "and", "when", "unless"])
        middle = Node("lambda", [Node(row, [inner, Node("set!", [self.any(1)], [self.name()]), self.any(2)])], some())
        return Node("lambda", [Node("begin", [self.any(1), middle, self.any(2)])], [self.name()])

    def script(self):
        top = []
        for _ in range(self.rng.randrange(1, 4)):
            t = self.any(5) if self.rng.random() < 0.7 else self.nest()
            if self.rng.random() < 0.4:
                t = self.in_ands(Node("define", [self.in_ands(t)], [self.name()]))
            top.append(self.in_ands(Node("begin", [t])) if self.rng.random() < 0.1 else t)
        return top


def wild(seed, defines, size=22):
    rng = random.Random(seed)
    top = Wild(rng, size, defines).script()
    names = number(top, shuffled_ids(rng))
    return top, names
