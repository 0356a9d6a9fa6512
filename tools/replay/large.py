"""The large trees: 1,000 to 4,096 records each, and good but for what is said. Each is found from its own seed.

They are large enough for what the port does otherwise in large trees: tables
for more than 512 records; lists by an index of names where more than 128 names
are live, or where a list of fewer has many live names above the bottom layer;
lists that are sorted; the count of entries where live names could pass 4,096.
"""
from collections import namedtuple
import random

from layered import Maker, Style
from trees import AND, BEGIN, CALL, CONST, Case, DEFINE, IF, LAMBDA, LET, SET, UNLESS, WHEN, ident, records_of

# A case and the refusals that it has to have, fresh and settled; 0 is none.
Large = namedtuple("Large", "case fresh settled")

ZERO = (CONST, 0, (), ())
FALSE = (CONST, 1, (), ())


def begin(*kids):
    return (BEGIN, 0, (), tuple(kids))


def call(*kids):
    return (CALL, 0, (), tuple(kids))


def function(names, body):
    return (LAMBDA, 0, tuple(names), (body,))


def let(names, values, body):
    return (LET, 0, tuple(names), tuple(values) + (body,))


def define(name, body):
    return (DEFINE, 0, (name,), (body,))


def assign(name, value=ZERO):
    return (SET, 0, (name,), (value,))


def reads(names):
    return begin(*map(ident, names))


def row(form, *kids):
    """An `and`, `when` or `unless`."""
    return (form, 0, (), tuple(kids))


# ---- ids and positions

def rising(rng, n):
    return range(1, n + 1)


def falling(rng, n):
    return range(n, 0, -1)


def mixed(rng, n):
    return rng.sample(range(1, n + 1), n)


def far_apart(rng, n):
    """Of all there are, the smallest and the largest among them."""
    ids = [1, 4294967294] + rng.sample(range(2, 4294967294), n - 2)
    rng.shuffle(ids)
    return ids


def large(label, seed, classes, expressions, ids, fresh=0, settled=0, places=100):
    """No position is 0."""
    rng = random.Random(seed)
    n = len(records_of(expressions, lambda at: 0, lambda at: ()))
    ids = list(ids(rng, n))
    records = records_of(expressions, lambda at: ids[at], lambda at: (rng.randrange(1, places), rng.randrange(1, places)))
    return Large(Case(label, classes, records), fresh, settled)


# ---- made by a rule

def tower():
    """Nesting 64 three times: lambdas in one another, the inmost reads all their names; lambdas that each read all names
    around; calls, lets, ifs and begins in one another. Nearly 4,096 captured entries, and as many after the second run."""
    straight = reads(range(124))
    for n in reversed(range(62)):
        straight = function([2 * n, 2 * n + 1], straight)
    around = begin(begin())
    for n in reversed(range(25)):
        more = map(ident, range(n))
        around = function([n], begin(*more, call(ident(n), around)) if n % 2 else begin(around, ident(n), *more))
    deep = ident(0)
    for n in reversed(range(62)):
        some = reads([n, n // 2, 124])
        forms = [call(ident(n), some, deep), let([n], [some], deep), (IF, 0, (), (some, deep, FALSE)), begin(assign(n), some, deep)]
        deep = forms[n % 4]
    return [straight, around, deep]


def counts():
    """Lambda, let, call and begin of 255 in one another, and a lambda that reads all names of both; a let of 255 at top
    level, half of its names captured."""
    parameters, names = range(255), range(255, 510)
    inner = function([], begin(reads(parameters), reads(names)))
    body = call(*map(ident, names[:253]), inner, begin(*map(ident, parameters)))
    inside = function(parameters, let(names, map(ident, parameters), body))
    return [inside, let(parameters, [ZERO] * 255, function([], reads(parameters[::2])))]


def names():
    """1,024 names: four lambdas of 255 in one another, 65 names in two of them; a let of 69 in the inmost, which reads all and sets
    some of its own; a lambda there has some of the names itself; a lambda in each reads some before the next."""
    groups = [range(255), range(255, 510), range(510, 765), range(700, 955)]
    own = range(955, 1024)
    inner = function(range(690, 710), reads(range(0, 1024, 9)))
    before, after = map(assign, range(702, 955, 9)), map(assign, range(700, 955, 6))
    tree = let(own, map(ident, range(0, 690, 10)), begin(*before, *map(reads, groups), reads(own), inner, *after))
    for group in reversed(groups):
        tree = function(group, begin(function([], reads(group[-25::3])), tree))
    return [tree]


def sets():
    """Parameters and let names that lambdas read, two of three parameters and some let names set."""
    out, at = [], 0
    for i in range(6):
        own, more = range(at, at + 8 * i + 8), range(at + 8 * i + 8, at + 8 * i + 12)
        users = [function([], begin(reads(own), call(ident(n), ident(n)))) for n in own[:4]]
        inside = begin(function([], reads(more)), *map(assign, more[i % 4:]), reads(own))
        assigned = [assign(n, ident(n)) for n in own if n % 3]
        out.append(function(own, begin(*assigned, *users, let(more, map(ident, own[:4]), inside))))
        at += 8 * i + 12
    return out


def lists():
    """Lists of 70 to 100 entries: of some of 255 live names, and of all live names above a bottom layer of 250."""
    defines = [define(n, ident(n // 2) if n % 3 else ZERO) for n in range(250)]
    some = begin(function([], reads(range(250, 450, 2))), function([250], begin(reads(range(250, 350, 3)), ident(250))))
    every = begin(function([], reads(range(506, 576))), function([], begin(reads(range(250)), ident(575))))
    return defines + [function(range(250, 505), some), function(range(506, 576), every)]


def captured(lists, late=()):
    """64 of 70 parameters in the lists of so many lambdas, each of which reads some."""
    using = [function([], reads(n * k % 64 for n in range(1, 13))) for k in range(1, lists)]
    return [function(range(70), begin(function([], reads(range(64))), *using)), *late]


def over():
    """200 parameters in 20 lists; the one that passes 4,096 is that of the inmost of three lambdas more, which ends first."""
    using = [function([], reads(n * k for n in range(1, 21))) for k in range(1, 10)]
    using += [function([], ident(n)) for n in range(10)]
    inmost = function([], reads(range(5)))
    around = function([200], function([201], begin(ident(200), inmost, function([], ident(201)))))
    body = begin(function([], reads(range(200))), *using, begin(ident(0), around), function([], reads(range(200))))
    return [function(range(200), body), *[define(n, ident(n)) for n in range(60)]]


def tall():
    """Calls of 255 in one another's last places: the greatest heights."""
    tree = let([2], [ident(0)], begin(function([3], call(ident(1), ident(2), ident(3))), assign(2), ident(2)))
    for n in range(15):
        tree = call(ident(n % 2), *[ZERO] * 250, ident(0), FALSE, function([1], ident(0)), tree)
    return [function([0], tree)]


def rows():
    """`and`s of 200 in one another's last places, with a lambda now and then: the expansion nests 2,000 deep. Then `when`s and `unless`es
    of 200 that hold an `and` of one around a lambda define, which calls itself through another."""
    tree = call(row(AND, ident(0)), row(AND, ident(1)), ident(2))
    for n in range(10):
        tree = row(AND, *[ident(k % 3) for k in range(198)], call(ident(n % 3), ident(0)), tree)
        tree = function([n % 3], tree) if n % 3 == 2 else tree
    inner = row(AND, define(3, row(AND, function([4], call(row(AND, row(AND, ident(3))), row(AND, ident(4)))))))
    out = [function([0, 1, 2], tree)]
    for form in WHEN, UNLESS:
        out.append(function([0], row(form, ident(0), *[call(ident(3), ident(0))] * 100, inner, *[ident(3)] * 90, call(ident(3)))))
    return out


# ---- at random

# Weights of the forms: even; captures; captures that are set; inner defines; calls; a plain program.
EVEN = (1, 1, 1, 1, 1, 1, 1)
CAPTURES = (1, 1, 0, 8, 5, 1, 2)
SETS = (0, 4, 0, 6, 7, 0, 5)
INNER = (1, 2, 4, 5, 4, 1, 1)
CALLS = (2, 1, 1, 2, 1, 7, 1)
PLAIN = (3, 3, 0, 3, 3, 9, 1)
# With and, when, unless: a plain program; inner defines; captures that are set.
PLAIN_ROWS = PLAIN + (6, 3, 3)
INNER_ROWS = INNER + (4, 4, 4)
SETS_ROWS = SETS + (4, 3, 3)


def classes_of(rng, n, choice):
    return [rng.choice(choice) for _ in range(n)]


def at_random(label, seed, size, count, style, ids, classes=(0,), late=(), **more):
    """`size` records over `count` names, and the expressions `late` before the last tenth."""
    rng = random.Random(seed)
    maker = Maker(rng, count, style)
    expressions = maker.tree(size * 9 // 10) + list(late)
    expressions += maker.tree(size - size * 9 // 10)
    return large(label, seed, classes_of(rng, count, classes), expressions, ids, **more)


def cases():
    twice = function([0], let([0], [ZERO], ident(0)))
    one_more = function([0], function([], ident(0)))
    every = range(256)
    return [
        large("tower", 1, [0] * 125, tower(), falling),
        large("counts", 2, [0] * 510, counts(), rising),
        large("names", 3, classes_of(random.Random(3), 1024, every), names(), mixed),
        large("sets", 4, [0] * 192, sets(), falling),
        large("lists", 10, [0] * 576, lists(), mixed),
        large("captured", 5, [0] * 70, captured(64), mixed),
        large("captured and one", 6, [0] * 70, captured(64, [one_more]), mixed, fresh=10, settled=10),
        large("captured in three", 7, [0] * 202, over(), falling, fresh=10, settled=10),
        large("tall", 8, [0, 1, 0, 0], tall(), rising),
        at_random("records", 4, 4096, 200, Style(PLAIN, 0, 30, 64), mixed),
        at_random("inner defines", 7, 1500, 60, Style(INNER, 1, 30, 24), mixed),
        at_random("classes", 1, 1200, 40, Style(CALLS, 1, 80, 100), rising, every),
        at_random("defines", 7, 2000, 400, Style(CALLS, 0, 100, 160), falling, (0, 0, 1)),
        at_random("captures", 4, 1500, 50, Style(CAPTURES, 1, 0, 8), mixed),
        at_random("mutated", 2, 1500, 50, Style(SETS, 20, 0, 8), mixed),
        at_random("refused 11", 6, 1500, 50, Style(SETS, 20, 0, 8), mixed, settled=11),
        at_random("refused 12", 8, 1500, 50, Style(SETS, 20, 0, 8), mixed, settled=12),
        at_random("refused 9", 1, 1200, 40, Style(EVEN, 1, 50, 8), mixed, late=[twice], fresh=9, settled=9),
        large("rows", 11, [0] * 5, rows(), falling),
        at_random("rows at random", 3, 4096, 200, Style(PLAIN_ROWS, 0, 30, 64), mixed, (0, 0, 0, 1, 2, 4, 8)),
        at_random("inner defines in rows", 5, 1500, 60, Style(INNER_ROWS, 1, 30, 24), mixed),
        at_random("mutated in rows", 3, 1500, 50, Style(SETS_ROWS, 20, 0, 8), mixed),
        at_random("far apart", 2, 1100, 60, Style(EVEN, 1, 50, 8), far_apart, (0, 0, 0, 1, 2, 4, 8, 15), places=2**32),
    ]


# ---- damaged

def changed(records, at, place, value):
    records = list(records)
    records[at] = records[at][:place] + (value,) + records[at][place + 1:]
    return records


def damaged():
    """How many names, the records, and the refusal, 2 to 8 or 16, which is met late or at a limit."""
    maker = Maker(random.Random(9), 40, Style(EVEN, 1, 50, 8))
    good = large("", 9, (), maker.tree(1000) + [function([0], ident(0)), call(ident(0))], mixed).case.records
    deeper = large("", 9, (), [begin(), begin(*tower())], mixed).case.records
    empty = (BEGIN, 0, 0, 0, 5, 6)
    untested = [(WHEN, 0, 0, 0, 5, 6), (UNLESS, 0, 0, 0, 7, 8)]
    last = len(good) - 1
    first_id = next(r[1] for r in good if r[1])
    return [
        (0, [empty] * 4097, 2), (1025, [empty] * 1000, 2), (40, changed(good, last, 2, 40), 3), (40, good[:-1], 4), (125, deeper, 5),
        (40, changed(good, last - 3, 0, CONST), 6), (40, changed(good, last - 1, 3, 0), 7), (40, changed(good, last, 1, first_id), 8),
        (40, good + untested, 16), (40, untested + changed(good, last, 1, first_id), 16), (40, untested + changed(good, last - 1, 3, 0), 7),
    ]
