"""What the two runs have to answer to good trees: the Rust's facts of their expansions, and refusals 9 and 10, which are not its own."""
import expansion
import reading
import rust


def answers(oracle, cases):
    """For each case the facts after one run and after two, by its own records."""
    expanded = [expansion.expand(case) for case in cases]
    trees = [tree for tree, _ in expanded]
    told = zip(cases, expanded, rust.ask(oracle, trees, 1), rust.ask(oracle, trees, 2))
    for case, (tree, written), one, two in told:
        yield tuple(expansion.by_written(facts, written, len(case.records)) for facts in of_expansion(tree, one, two))


def of_expansion(case, one, two):
    nine, ends = reading.walk(case.records)
    if nine is not None:
        return (rust.Facts((9, nine)),) * 2
    fresh = rust.parse(one, case, ends)
    ten = rust.over_limit(fresh, ends)
    if ten is not None:
        return (rust.Facts((10, ten)),) * 2
    return fresh, rust.parse(two, case, ends, fresh)
