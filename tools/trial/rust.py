"""The Rust's facts, asked of the oracle, as the numbers of rows and list entries."""
import re
import subprocess

from trees import CALL, IDENT, LAMBDA, LET, text

NONE = 4294967295
ROW, ITEM = 20, 13  # how many numbers a row has, and an entry

# What a row is, by its first number; an identifier's is its kind.
FUNCTION_ROW, LET_ROW, CALL_ROW = 8, 9, 10
CAPTURED_MOST = 4096

# The lines of analysis.rs whose panics are refusals 11 and 12.
PANICS = {1338: 11, 1966: 12}

# The names of a row's numbers by form, and of an entry's.
FIELDS = {
    IDENT: "kind set depth shadows uses from to refers aliases builtin last slot escapes capture readcapture enclosing heap "
           "readheap shadowed required".split(),
    LET: "present let in arguments.first arguments.length".split(),
    LAMBDA: "present captured.first captured.length arguments.first arguments.length escapes aliases depth".split(),
    CALL: "call self from to".split(),
}
ENTRY = ("name id captured uses lastused slot escapes capture enclosing mutated heap readcapture readheap parentheap localheap "
         "depth").split()


# The names of the numbers of an entry's row.
ENTRY_ROW = "name id marks uses lastused slot capture heap readcapture readheap parentheap localheap depth".split()


class Unknown(Exception):
    """An answer that is none of the known ones."""


def ask(oracle, cases, runs):
    """The answers to all cases after so many runs, each a text."""
    if not cases:
        return []
    source = "---\n".join(text(c) for c in cases)
    out = subprocess.run([oracle, str(runs)], input=source, stdout=subprocess.PIPE, text=True, check=True).stdout
    if len(cases) == 1:
        return [out]
    answers = re.split(r"^---\n", out, flags=re.M)
    if len(answers) != len(cases):
        raise Unknown("%d answers to %d cases" % (len(answers), len(cases)))
    return answers


def fields(words):
    """The numbers of words `field=number` by field, `-` being none."""
    pairs = [w.split("=") for w in words.split()]
    return {name: NONE if value == "-" else int(value) for name, value in pairs}


def numbers(words, names):
    """The numbers of words that have these names, in this order."""
    found = fields(words)
    if list(found) != names:
        raise Unknown(words)
    return list(found.values())


def padded(row):
    return row + [0] * (ROW - len(row))


class Facts:
    """What the tables hold: rows, captured entries and argument entries, each a list of numbers."""

    def __init__(self, refused, rows=(), captured=(), arguments=()):
        self.refused, self.rows, self.captured, self.arguments = refused, list(rows), list(captured), list(arguments)


def panic_in(answer):
    """The refusal that a panic stands for."""
    found = re.search(r"\(analysis\.rs:(\d+), run 2, at=(\d+)\)", answer)
    if not found or int(found[1]) not in PANICS:
        raise Unknown(answer)
    return (PANICS[int(found[1])], int(found[2]))


def entry(words):
    """A list entry in the order of its row, the yes-or-no fields added together."""
    (name, ident, captured, uses, last, slot, escapes, capture, enclosing, mutated, heap, read_capture, read_heap,
     parent_heap, local_heap, depth) = numbers(words, ENTRY)
    marks = captured + 2 * escapes + 4 * enclosing + 8 * mutated
    return [name, ident, marks, uses, last, slot, capture, heap, read_capture, read_heap, parent_heap, local_heap, depth]


def lists_in(line, title):
    return [entry(item) for item in re.findall(r"\[%s ([^]]*)\]" % title, line)]


def parse(answer, case, ends, before=None):
    """The facts in an answer. Lists stand in their tables in the order of `ends`; after the
    second run each stays where the first, `before`, has put it, and what it lost is zero."""
    if answer.startswith("panic="):
        return Facts(panic_in(answer))
    if answer.startswith("malformed"):
        raise Unknown("malformed: " + text(case))
    lines = dict(line[3:].split(" ", 1) for line in answer.splitlines())
    facts = Facts(None, [[0] * ROW for _ in case.records])
    for node in ends:
        add_lists(facts, node, lines.pop(str(node.at)), before)
    for at, line in lines.items():
        form = case.records[int(at)][0]
        kind = [CALL_ROW] if form == CALL else []
        facts.rows[int(at)] = padded(kind + numbers(line, FIELDS[form]))
    return facts


def add_lists(facts, node, line, before):
    """The row of a lambda or a let, and its lists."""
    value = fields(line.split(" [")[0])
    captured, arguments = lists_in(line, "cap"), lists_in(line, "arg")
    if value["arguments"] != len(arguments) or value.get("captured", 0) != len(captured):
        raise Unknown(line)
    if node.form == LET:
        row = [LET_ROW, value["let"], value["in"], len(facts.arguments), len(arguments)]
    else:
        row = [FUNCTION_ROW, len(facts.captured), len(captured), len(facts.arguments), len(arguments)]
        row += [value["escapes"], value["aliases"], value["depth"]]
    facts.rows[node.at] = padded(row)
    facts.captured += captured
    facts.arguments += arguments
    if before and node.form == LAMBDA:
        facts.captured += [[0] * ITEM] * (before.rows[node.at][2] - len(captured))


def over_limit(facts, ends):
    """The lambda whose list makes the captured entries more than 4,096, or None."""
    total = 0
    for node in ends:
        total += facts.rows[node.at][2] if node.form == LAMBDA else 0
        if total > CAPTURED_MOST:
            return node.at
    return None


def field(case, table, i, j):
    """The name of the number j in the row i of a table."""
    names = ENTRY_ROW
    if table == "refused":
        names = ["number", "record"]
    elif table == "rows":
        form = case.records[i][0]
        names = ["present"] + FIELDS[CALL] if form == CALL else FIELDS.get(form, [])
    return names[j] if j < len(names) else "number %d" % j
