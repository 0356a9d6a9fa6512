"""Random trees of any size, nested at most 64 deep, made in the order of the visits with the layers of live names in view:
no binder has the name of another one that is live in its layer, which would be refusal 9."""
from collections import namedtuple

from trees import AND, BEGIN, CALL, CONST, DEFINE, IF, LAMBDA, LET, SET, UNLESS, WHEN, ident

NESTING_MOST = 64
COUNT_MOST = 255

# What a tree leans to. weights: of if, let, define, lambda, begin, call, set!, and perhaps of and, when, unless; set_local: how many of 100 set!s may have
# a parameter or let name as their target; defines: how many of 100 top-level expressions are defines; pieces: about how
# many top-level expressions there are.
Style = namedtuple("Style", "weights set_local defines pieces")


def size_of(e):
    return 1 + len(e[2]) + sum(map(size_of, e[3]))


def core(e):
    """An `and` of one child is that child."""
    return core(e[3][0]) if e[0] == AND and len(e[3]) == 1 else e


def is_lambda_define(e):
    return core(e)[0] == DEFINE and core(core(e)[3][0])[0] == LAMBDA


class Maker:
    def __init__(self, rng, names, style):
        self.rng, self.names, self.style = rng, names, style
        self.layers = [[]]  # the live names of each layer, the bottom one first
        self.context = None  # the name of the lambda define around

    def percent(self, n):
        return self.rng.randrange(100) < n

    def name(self):
        """Mostly a live one."""
        above = len(self.layers) - 1
        live = self.layers[self.rng.randint(1, above) if above and self.percent(75) else 0]
        return self.rng.choice(live) if live and self.percent(90) else self.rng.randrange(self.names)

    def binder(self):
        """One that may enter the newest layer; None where they are hard to find."""
        tries = [self.rng.randrange(self.names) for _ in range(8)]
        return next((n for n in tries if len(self.layers) == 1 or n not in self.layers[-1]), None)

    def binders(self, most):
        """Enters up to so many names, and gives them."""
        out = []
        while len(out) < most:
            name = self.binder()
            if name is None:
                break
            self.layers[-1].append(name)
            out.append(name)
        return tuple(out)

    def target(self):
        if self.percent(self.style.set_local):
            return self.name()
        tries = [self.rng.randrange(self.names) for _ in range(8)]
        return next((n for n in tries if not any(n in layer for layer in self.layers[1:])), 0)

    def count(self, least, most):
        """Mostly a small one."""
        top = self.rng.choice([1, 2, 2, 3, 3, 3, 4, 4])
        if self.percent(3):
            top = self.rng.choice([16, 64, COUNT_MOST])
        return self.rng.randint(least, max(least, min(top, most)))

    def shares(self, size, parts):
        """Sizes of so many parts; every second time one takes all that the others can spare."""
        spare = size - parts
        if self.percent(50):
            out = [1] * parts
            out[self.rng.randrange(parts)] += spare
            return out
        cuts = sorted(self.rng.randint(0, spare) for _ in range(parts - 1))
        return [b - a + 1 for a, b in zip([0] + cuts, cuts + [spare])]

    def atom(self):
        n = self.rng.randrange(100)
        if n < 10:
            return (CONST, n % 2, (), ())
        return (BEGIN, 0, (), ()) if n < 13 else ident(self.name())

    def expression(self, size, nesting):
        """At most `size` records, its own at this nesting."""
        if size == 1 or nesting == NESTING_MOST:
            return self.atom()
        form = self.rng.choices(range(IF, IF + len(self.style.weights)), self.style.weights)[0]
        if form == IF and size >= 4:
            return (IF, 0, (), self.every(self.shares(size - 1, 3), nesting))
        if form == LET:
            return self.let(size, nesting)
        if form == DEFINE and size >= 3:
            return self.define(size, nesting)
        if form == LAMBDA:
            return self.function(size, nesting)
        if form == BEGIN:
            return (BEGIN, 0, (), self.begin(self.sizes(size), nesting))
        if form == AND:
            return (AND, 0, (), self.every(self.sizes(size), nesting))
        if form in (WHEN, UNLESS):
            sizes = self.sizes(size)
            test = self.every(sizes[:1], nesting)
            return (form, 0, (), test + self.begin(sizes[1:], nesting))
        if form == SET and size >= 3:
            value = self.expression(size - 2, nesting + 1)
            return (SET, 0, (self.target(),), (value,))
        return self.call(size, nesting)

    def sizes(self, size):
        """Of some children of an expression of this size."""
        return self.shares(size - 1, self.count(1, size - 1))

    def every(self, sizes, nesting):
        return tuple(self.expression(n, nesting + 1) for n in sizes)

    def call(self, size, nesting):
        sizes = self.sizes(size)
        arguments = self.every(sizes[1:], nesting)
        if self.percent(40):
            head = self.expression(sizes[0], nesting + 1)
        elif self.context is not None and self.percent(40):
            head = ident(self.context)
        else:
            head = ident(self.name())
        return (CALL, 0, (), (head,) + arguments)

    def let(self, size, nesting):
        most = self.count(0, (size - 2) // 2)
        sizes = self.shares(size - 1 - most, most + 1)
        values = self.every(sizes[:most], nesting)
        opens = len(self.layers) == 1
        if opens:
            self.layers.append([])
        names = self.binders(most)
        body = self.expression(sizes[most], nesting + 1)
        self.layers[-1] = [n for n in self.layers[-1] if n not in names]
        if opens:
            self.layers.pop()
        return (LET, 0, names, values[:len(names)] + (body,))

    def function(self, size, nesting):
        self.layers.append([])
        names = self.binders(self.count(0, size - 2))
        body = self.expression(size - 1 - len(names), nesting + 1)
        self.layers.pop()
        return (LAMBDA, 0, names, (body,))

    def define(self, size, nesting):
        """Of a lambda, of a call that may make it a builtin's or a required one, of a name, or of anything."""
        deeper = nesting + 1 < NESTING_MOST
        if size >= 4 and deeper and self.percent(50):
            name = self.binder()
            if name is None:
                return self.atom()
            self.layers[-1].append(name)
            return self.lambda_define(name, size, nesting)
        way = self.rng.randrange(4)
        if way == 0 and size >= 5 and deeper:
            body = (CALL, 0, (), tuple(ident(self.rng.randrange(self.names)) for _ in range(2)))
        else:
            body = ident(self.name()) if way == 1 else self.expression(size - 2, nesting + 1)
        name = self.binder()
        if name is None or core(body)[0] == LAMBDA:
            return body
        self.layers[-1].append(name)
        return (DEFINE, 0, (name,), (body,))

    def lambda_define(self, name, size, nesting):
        """The name has entered."""
        around, self.context = self.context, name
        body = self.function(size - 2, nesting + 1)
        self.context = around
        return (DEFINE, 0, (name,), (body,))

    def begin(self, sizes, nesting):
        """The children of a begin, or what follows a test. Lambda defines enter first; one made later would enter too late: of
        such a one the lambda alone."""
        room = nesting + 2 < NESTING_MOST and self.style.weights[2] > 0
        plan = [self.binders(1) if room and n >= 4 and self.percent(30) else () for n in sizes]
        return tuple(self.begun(names, n, nesting + 1) for names, n in zip(plan, sizes))

    def begun(self, names, size, nesting):
        """A child of a begin: the lambda define whose name has entered, or anything."""
        if names:
            return self.lambda_define(names[0], size, nesting)
        kid = self.expression(size, nesting)
        return core(kid)[3][0] if is_lambda_define(kid) else kid

    def tree(self, size):
        """Top-level expressions of exactly `size` records together."""
        left, out = size, []
        while left > 0:
            piece = self.rng.randint(1, max(1, min(left, 2 * size // self.style.pieces)))
            define = piece >= 3 and self.percent(self.style.defines)
            out.append(self.define(piece, 1) if define else self.expression(piece, 1))
            left -= size_of(out[-1])
        return out
