"""Lists of numbers that are not, or not quite, the records of trees: for the checks 1 to 8 and 16.

Each is the number of names and the numbers.
"""
import random

from trees import CALL, HAS_COUNT, HAS_ID, UNLESS, WHEN


def flat(records):
    return [n for r in records for n in r]


def limits():
    """At the limits and one past them: records, names, count, nesting, id."""
    begin = [7, 0, 0, 0, 0, 0]
    one = [7, 0, 0, 1, 0, 0]
    return [
        (0, begin * 4096), (0, begin * 4097), (1024, begin), (1025, begin),
        (0, [7, 0, 0, 255, 0, 0] + begin * 255), (0, [7, 0, 0, 256, 0, 0] + begin * 256), (0, [7, 0, 0, 255, 0, 0] + begin * 254),
        (0, one * 63 + begin), (0, one * 64 + begin), (0, one * 64),
        (1, [1, 4294967294, 0, 0, 0, 0]), (1, [1, 4294967295, 0, 0, 0, 0]), (1, [1, 0, 0, 0, 0, 0]),
        (1, [1, 1, 0, 0, 4294967295, 4294967295]), (0, [0] * 6), (0, [13] + [0] * 5), (0, [0] * 5), (0, []),
    ] + [l for form in (10, 11, 12) for l in expanded_limits(form)]


def expanded_limits(form):
    """The same of forms 10 to 12, and what stands beside check 16."""
    begin, read, empty_call = [7, 0, 0, 0, 0, 0], [1, 1, 0, 0, 0, 0], [8, 1, 0, 0, 0, 0]

    def of(count, id=0, name=0):
        return [form, id, name, count, 0, 0]

    return [
        (0, of(0)), (0, of(255) + begin * 255), (0, of(256) + begin * 256), (0, of(255) + begin * 254), (0, of(0, id=1)), (1, of(0, name=1)),
        (1, of(1) * 63 + read), (1, of(1) * 64 + read), (0, begin + of(0) + of(0)), (0, [7, 0, 0, 1, 0, 0] + of(0)), (0, of(0) + empty_call),
        (1, read + read + of(0)), (1, of(0) + read + read), (1, of(0) + [5, 0, 0, 0, 0, 0] + [2, 1, 0, 0, 0, 0] * 2),
        (1, [5, 0, 0, 0, 0, 0] + of(1) + read + begin),
    ]


# Each changes the records, and perhaps the number of names. `at` is a record.

def field(rng, records, at, place, value):
    records[at] = records[at][:place] + (value,) + records[at][place + 1:]


def change_field(rng, records, at):
    value = rng.choice([0, 1, 2, 3, 8, 255, 256, 4294967294, 4294967295, rng.randrange(15)])
    field(rng, records, at, rng.randrange(6), value)


def change_form(rng, records, at):
    """Another form with what fits it."""
    form = rng.randint(1, 12)
    id = records[at][1] or 777 if form in HAS_ID else 0
    count = rng.randrange(3) if form in HAS_COUNT else 0
    records[at] = (form, id, 0, count) + records[at][4:]


def change_count(rng, records, at):
    counted = [i for i, r in enumerate(records) if r[0] in HAS_COUNT]
    at = rng.choice(counted) if counted else at
    field(rng, records, at, 3, rng.choice([0, 0, 1, 2, 3, 255]))


def no_test(rng, records, at):
    """A `when` or `unless` of none, with a call of none in some."""
    for form in rng.choice([(WHEN,), (UNLESS,), (WHEN, CALL), (CALL, UNLESS)]):
        records.insert(rng.choice([0, len(records)]), (form, 778 if form == CALL else 0, 0, 0, 0, 0))


def repeat_id(rng, records, at):
    owners = [i for i, r in enumerate(records) if r[1]]
    if len(owners) > 1:
        a, b = rng.sample(owners, 2)
        field(rng, records, a, 1, records[b][1])


def drop_record(rng, records, at):
    del records[at]


def double_record(rng, records, at):
    records.insert(at, records[rng.randrange(len(records))])


def swap_records(rng, records, at):
    other = rng.randrange(len(records))
    records[at], records[other] = records[other], records[at]


WAYS = [change_field, change_form, change_form, change_count, change_count, no_test, repeat_id, drop_record, double_record, swap_records]


def copies(cases, count):
    """Copies of cases, each damaged in one or two ways."""
    rng = random.Random(len(cases))
    cases = [c for c in cases if 0 < len(c.records) <= 60]
    out = []
    for _ in range(count):
        case = rng.choice(cases)
        records, names = list(case.records), len(case.classes)
        for _ in range(rng.randint(1, 2)):
            if records:
                rng.choice(WAYS)(rng, records, rng.randrange(len(records)))
        numbers = flat(records)
        if rng.random() < 0.05:
            del numbers[rng.randrange(len(numbers) + 1):]
        if rng.random() < 0.05:
            names = rng.choice([0, names - 1, 1025])
        out.append((max(0, names), numbers))
    return out
