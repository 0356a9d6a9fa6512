"""The tree without forms 10 to 12 that a tree stands for, from document 02; and what is said of it by the records as written."""
import sys

from reading import nodes
from rust import Facts, ROW, Unknown
from trees import AND, BEGIN, CONST, Case, HAS_ID, IF, UNLESS, WHEN

ID_LAST = 4294967294

# An expansion may nest as deep as the tree has records.
sys.setrecursionlimit(20000)


class Expander:
    """`records` grows by the expansion's records; `written` has the written record of each, None where it was added."""

    def __init__(self, written):
        self.source, self.records, self.written = written, [], []
        used = {r[1] for r in written}
        ids = range(1, ID_LAST + 1)
        # in every second tree the smallest ids that no record has, else the largest
        self.unused = (id for id in (ids if len(written) % 2 else reversed(ids)) if id not in used)

    def keep(self, at):
        self.records.append(self.source[at])
        self.written.append(at)

    def add(self, node, form, name=0, count=0):
        """A record that is not written, at the place in the text of the node that it belongs to."""
        id = next(self.unused) if form in HAS_ID else 0
        self.records.append((form, id, name, count) + self.source[node.at][4:])
        self.written.append(None)

    def put(self, node):
        if node.form == AND:
            self.put_and(node, node.kids)
        elif node.form in (WHEN, UNLESS):
            branches = [node.kids[1:], []]
            self.put_test(node, node.kids[0])
            for kids in branches if node.form == WHEN else reversed(branches):
                self.add(node, BEGIN, count=len(kids))
                self.put_all(kids)
        else:
            for at in [node.at] + node.names:
                self.keep(at)
            self.put_all(node.kids)

    def put_all(self, nodes):
        for node in nodes:
            self.put(node)

    def put_test(self, node, test):
        self.add(node, IF)
        self.put(test)

    def put_and(self, node, kids):
        """Of none #t, of one that one, of more an if of the first, the `and` of the others, and #f."""
        if not kids:
            return self.add(node, CONST)
        for kid in kids[:-1]:
            self.put_test(node, kid)
        self.put(kids[-1])
        for _ in kids[:-1]:
            self.add(node, CONST, name=1)


def expand(case):
    """The case expanded; and for each of its records the written one, None where it was added."""
    e = Expander(case.records)
    e.put_all(nodes(case.records))
    return Case(case.label, case.classes, e.records), e.written


def written_record(at, written):
    if written[at] is None:
        raise Unknown("something is said of a record that is not written: %d" % at)
    return written[at]


def by_written(facts, written, count):
    """The facts of an expansion, with the rows and the refusal's record of the `count` written ones."""
    if facts.refused:
        return Facts((facts.refused[0], written_record(facts.refused[1], written)))
    rows = [[0] * ROW for _ in range(count)]
    for at, row in enumerate(facts.rows):
        if any(row):
            rows[written_record(at, written)] = row
    return Facts(None, rows, facts.captured, facts.arguments)
