"""The plain machine once more, in direct style; and by structure: inner defines, what identifiers mean, refusals 9, 11 and 12."""

import sys

from tree import core, walk

sys.setrecursionlimit(100000)


class Stop(Exception):
    pass


class Spent(Exception):
    pass


UNSPECIFIED = ("unspecified",)


def is_false(value):
    return value[0] == "const" and value[2]


class Plain:
    def __init__(self, limit):
        self.limit, self.made, self.cells = limit, 0, {}

    def moment(self):
        self.made += 1
        if self.made == self.limit:
            raise Spent

    def run(self, top):
        """[moments, status, kind, number]: 1 running, 2 ended, 3 stopped; 1 constant, 2 #f, 3 unspecified, 4 procedure."""
        try:
            value = UNSPECIFIED
            for t in top:
                value = self.eval(t, ())
        except Stop:
            return [self.made, 3, 0, 0]
        except Spent:
            return [self.made, 1, 0, 0]
        return [self.made, 2] + kind_of(value)

    def push(self, e, env):
        value = self.eval(e, env)
        self.moment()
        return value

    def eval(self, e, env):
        self.moment()
        return getattr(self, "eval_" + e.form.rstrip("!"))(e, env)

    def find(self, name, env):
        while env:
            (n, box), env = env
            if n == name:
                return box
        box = self.cells.get(name)
        if box is None:
            raise Stop
        return box

    def eval_ident(self, e, env):
        value = self.find(e.code, env)[0]
        self.moment()
        return value

    def eval_const(self, e, env):
        return ("const", e.id, e.false)

    def eval_if(self, e, env):
        test = self.eval(e.kids[0], env)
        return self.eval(e.kids[2] if is_false(test) else e.kids[1], env)

    def eval_let(self, e, env):
        return self.eval(e.kids[-1], bind(e.names, [self.push(k, env) for k in e.kids[:-1]], env))

    def eval_define(self, e, env):
        self.cells[e.names[0].code] = [self.eval(e.kids[0], env)]
        return UNSPECIFIED

    def eval_lambda(self, e, env):
        return ("lambda", e, env)

    def in_turn(self, kids, env):
        value = UNSPECIFIED
        for k in kids:
            value = self.eval(k, env)
        return value

    def eval_begin(self, e, env):
        return self.in_turn(e.kids, env)

    def eval_and(self, e, env):
        value = ("const", 0, False)
        for k in e.kids:
            if is_false(value):
                return ("const", 0, True)
            value = self.eval(k, env)
        return value

    def eval_when(self, e, env):
        return UNSPECIFIED if is_false(self.eval(e.kids[0], env)) else self.in_turn(e.kids[1:], env)

    def eval_unless(self, e, env):
        return self.in_turn(e.kids[1:], env) if is_false(self.eval(e.kids[0], env)) else UNSPECIFIED

    def eval_call(self, e, env):
        values = [self.push(k, env) for k in e.kids[1:]]
        head = self.eval(e.kids[0], env)
        if head[0] != "lambda" or len(head[1].names) != len(values):
            raise Stop
        return self.eval(head[1].kids[0], bind(head[1].names, values, head[2]))

    def eval_set(self, e, env):
        value = self.eval(e.kids[0], env)
        self.find(e.names[0].code, env)[0] = value
        return UNSPECIFIED


def bind(names, values, env):
    for n, v in zip(names, values):
        env = ((n.code, [v]), env)
    return env


def kind_of(value):
    if value[0] == "const":
        return [2 if value[2] else 1, value[1]]
    return [4, value[1].at] if value[0] == "lambda" else [3, 0]


# ---- structure

def inner_defines(top):
    """Whether a define stands neither at top level nor directly in a begin there."""
    tops = [core(t) for t in top]
    direct = [core(k) for t in tops for k in (t.kids if t.form == "begin" else [t])]
    return any(r.form == "define" for t in direct for k in t.kids for r in walk(k))


class Bound:
    def __init__(self, ident, is_let, layer, around):
        self.ident, self.is_let, self.layer, self.around = ident, is_let, layer, around


class Walk:
    """The events of a tree in visiting order: ("enters", binder, live) and ("mentions", ident, is_set, binder, scope, around)."""

    def __init__(self, top):
        self.events = []
        for t in top:
            self.visit(t, (), (), 1)

    def enter(self, names, is_let, scope, layer, around):
        for n in names:
            live = any(b.layer == layer and b.ident.name == n.name for b in scope)
            binder = Bound(n, is_let, layer, around)
            self.events.append(("enters", binder, live))
            scope = (binder,) + scope
        return scope

    def mention(self, x, is_set, scope, around):
        binder = next((b for b in scope if b.ident.name == x.name), None)
        self.events.append(("mentions", x, is_set, binder, scope, around))

    def visit(self, t, scope, around, layer):
        if t.form == "ident":
            self.mention(t, False, scope, around)
        elif t.form == "let":
            for k in t.kids[:-1]:
                self.visit(k, scope, around, layer)
            inner = 2 if layer == 1 else layer
            self.visit(t.kids[-1], self.enter(t.names, True, scope, inner, around), around, inner)
        elif t.form == "lambda":
            around = (t.at,) + around
            self.visit(t.kids[0], self.enter(t.names, False, scope, layer + 1, around), around, layer + 1)
        else:
            for k in t.kids[1:] + t.kids[:1] if t.form == "call" else t.kids:
                self.visit(k, scope, around, layer)
            if t.form == "set!":
                self.mention(t.names[0], True, scope, around)

    def mentions(self):
        return [e for e in self.events if e[0] == "mentions"]

    def inner_set(self):
        """A parameter or let name that is set and that an inner lambda mentions."""
        uses = [e for e in self.mentions() if e[3]]
        sets = {e[3].ident.at for e in uses if e[2]}
        return any(len(e[5]) > len(e[3].around) and e[3].ident.at in sets for e in uses)

    def nine(self):
        return next((e[1].ident.at for e in self.events if e[0] == "enters" and e[2]), None)

    def second(self):
        """The first of 11 and 12, with its record; (0, 0) for none."""
        for k, e in enumerate(self.events):
            if e[0] == "enters" and self.eleven(e[1]):
                return 11, e[1].ident.at
            if e[0] == "mentions" and e[3] and self.twelve(k, e):
                return 12, e[1].at
        return 0, 0

    def eleven(self, b):
        of = [e for e in self.mentions() if e[3] is b]
        return b.is_let and not b.around and any(e[2] for e in of) and any(e[5] for e in of)

    def twelve(self, k, e):
        _, _, _, b, scope, around = e
        if len(around) < 2 or around[1] in b.around:
            return False
        if any(c.ident.name == b.ident.name and c.layer != b.layer for c in scope):
            return False
        sets = [(j, o) for j, o in enumerate(self.events) if o[0] == "mentions" and o[2] and o[3] is b]
        if any(j < k or around[0] in o[5] for j, o in sets):
            return False
        return any(around[1] in o[5] for j, o in sets)
