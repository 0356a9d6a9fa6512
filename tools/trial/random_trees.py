"""Random trees, each made by its seed."""
import random

from trees import AND, BEGIN, CALL, CONST, Case, DEFINE, IF, LAMBDA, LET, SET, UNLESS, has_expanded, ident, records_of

# Weights of if, let, define, lambda, begin, call, set!: for captures, for inner defines,
# for lets and set!s, for calls, for all alike.
WEIGHTS = [(1, 1, 0, 8, 5, 0, 4), (0, 2, 4, 6, 4, 1, 2), (0, 5, 0, 5, 4, 1, 4), (2, 1, 1, 2, 1, 6, 1), (1, 1, 1, 1, 1, 1, 1)]
# Of and, when, unless, where a tree is to have them.
EXPANDED = [(1, 1, 1), (5, 1, 1), (2, 5, 5), (8, 0, 0)]
LEAST = {IF: 4, DEFINE: 3, SET: 3}


class Maker:
    """Makes expressions; `live` are the names bound around."""

    def __init__(self, rng, names, expanded):
        self.rng, self.names, self.weights = rng, names, rng.choice(WEIGHTS)
        self.expanded = expanded
        if expanded:
            self.weights += rng.choice(EXPANDED)
        self.defined = []  # the names of top-level defines so far

    def name(self, live):
        """Mostly a live one."""
        if live and self.rng.random() < 0.85:
            return self.rng.choice(live)
        return self.rng.randrange(self.names)

    def unused(self, live):
        """Names that are not live, if there are any; now and then all."""
        names = [n for n in range(self.names) if n not in live]
        return names if names and self.rng.random() < 0.95 else range(self.names)

    def binders(self, most, names):
        """Different ones, now and then not."""
        n = min(most, len(names), self.rng.choice([0, 1, 1, 1, 2, 2, 3]))
        return tuple(self.rng.choices(names, k=n) if self.rng.random() < 0.03 else self.rng.sample(names, n))

    def shares(self, size, parts):
        """Sizes of the parts; in every second case one takes all that the others can spare."""
        if self.rng.random() < 0.5:
            out = [1] * parts
            out[self.rng.randrange(parts)] += size - parts
            return out
        cuts = sorted(self.rng.randrange(size - parts + 1) for _ in range(parts - 1))
        return [b - a + 1 for a, b in zip([0] + cuts, cuts + [size - parts])]

    def atom(self, live):
        if self.rng.random() < 0.12:
            atoms = [(CONST, 0, (), ()), (CONST, 1, (), ()), (BEGIN, 0, (), ())]
            return self.rng.choice(atoms + [(AND, 0, (), ())] if self.expanded else atoms)
        return ident(self.name(live))

    def expression(self, size, live):
        if size == 1:
            return self.atom(live)
        forms = range(IF, (UNLESS if self.expanded else SET) + 1)
        weights = [w if size >= LEAST.get(form, 2) else 0 for form, w in zip(forms, self.weights)]
        return self.of_form(self.rng.choices(forms, weights)[0], size, live)

    def of_form(self, form, size, live):
        bound, others = self.children(form, size, live)
        sizes = self.shares(size - 1 - len(bound), others)
        if form == CALL and self.rng.random() < 0.3:
            sizes.sort(reverse=True)
        inner = live + bound if form in (LET, LAMBDA, DEFINE) else live
        kids = [self.expression(n, live) for n in sizes[:-1]] + [self.expression(sizes[-1], inner)]
        if form == CALL and self.rng.random() < 0.5:
            kids[0] = ident(self.name(self.defined or live))
        return (form, 0, bound, tuple(kids))

    def children(self, form, size, live):
        """The names that are children, and how many others there are."""
        if form == SET:
            return (self.name(live),), 1
        if form == DEFINE:
            return (self.rng.choice(self.unused(live)),), 1
        if form == LAMBDA:
            return self.binders(size - 2, range(self.names)), 1
        if form == LET:
            bound = self.binders((size - 2) // 2, self.unused(live))
            return bound, len(bound) + 1
        return (), 3 if form == IF else min(size - 1, self.rng.choice([1, 2, 2, 3, 4]))

    def definition(self, size):
        """At top level: of a lambda, or of a call of a name with a name, which may be a builtin's, or of anything."""
        name = self.name(())
        self.defined.append(name)
        if self.rng.random() < 0.6 and size >= 4:
            ands = self.rng.choice([0, 0, 1, 2]) if self.expanded and size >= 6 else 0
            body = self.of_form(LAMBDA, size - 2 - ands, (name,))
            for _ in range(ands):
                body = (AND, 0, (), (body,))
        elif self.rng.random() < 0.5:
            body = (CALL, 0, (), (ident(self.name(())), ident(self.name(())))[:1 + (size >= 5)])
        else:
            body = self.expression(size - 2, (name,))
        return (DEFINE, 0, (name,), (body,))

    def top(self, size):
        """Top-level expressions: in some trees many small ones, mostly defines."""
        out = []
        many = self.rng.random() < 0.2
        while size > 0:
            n = self.rng.randint(1, 7) if many else self.rng.choice([size, size, size, self.rng.randint(1, size)])
            n = min(n, size)
            size -= n
            form = self.rng.choices([DEFINE, BEGIN, LAMBDA, LET, None], (6, 1, 1, 1, 1) if many else (6, 2, 6, 4, 4))[0]
            out.append(self.at_top(form, n))
        return out

    def at_top(self, form, size):
        if size < 4 or form is None:
            return self.expression(size, ())
        if form == DEFINE:
            return self.definition(size)
        if form == BEGIN:
            return (BEGIN, 0, (), tuple(self.top(size - 1)))
        return self.of_form(form, size, ())


def at_random(seed, most, expanded=False):
    """Up to `most` records, with an `and`, `when` or `unless` if so asked. Ids are a random choice, now and then with the
    smallest and the largest there are."""
    rng = random.Random(seed)
    names = rng.choice([1, 2, 3, 3, 4, 5, 6])
    classes = [rng.choice([0, 2, 6, rng.randrange(16)]) if seed % 2 else 0 for _ in range(names)]
    expressions = Maker(rng, names, expanded).top(rng.randint(most // 4, most))
    while expanded and not any(map(has_expanded, expressions)):
        expressions = Maker(rng, names, expanded).top(rng.randint(most // 4, most))
    ids = rng.sample(range(2, 7 * most), most)
    if rng.random() < 0.1:
        ids[:2] = 4294967294, 1
    places = rng.sample(range(2**32), 2 * most)
    records = records_of(expressions, lambda at: ids[at], lambda at: (places[2 * at], places[2 * at + 1]))
    return Case("seed %d" % seed, classes, records)
