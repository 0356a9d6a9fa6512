//! Trees within the limits whose expansions nest some thousands deep: `and`s of many children in one another.

use super::{class, ids};
use crate::expression::{numbers, Expression, Own};
use crate::random::Random;
use crate::record::{Input, AND, CALL, LAMBDA, UNLESS, WHEN};

const NAMES: usize = 12;
/// Of all rows together, about.
const MOST_KIDS: usize = 3400;

fn identifier(random: &mut Random) -> Expression {
    Expression::identifier(random.below(NAMES) as u32)
}

/// One record or two.
fn leaf(random: &mut Random, at: usize) -> Expression {
    match random.below(10) {
        0 => Expression::constant(random.percent(50)),
        1 => Expression::new(AND, vec![], vec![]),
        _ if at.is_multiple_of(10) => Expression::new(CALL, vec![], vec![identifier(random)]),
        _ => identifier(random),
    }
}

/// A row of leaves around `inner`, which mostly stands last.
fn row(random: &mut Random, form: u32, kids: usize, inner: Expression) -> Expression {
    let mut row: Vec<Expression> = (1..kids).map(|at| leaf(random, at)).collect();
    let at = if random.percent(80) { row.len() } else { random.below(row.len() + 1) };
    row.insert(at, inner);
    Expression::new(form, vec![], row)
}

/// Each row is of one of forms 10 to 12, in some trees each is an `and`; now and then a lambda stands between two.
pub fn deep(random: &mut Random) -> Input {
    let levels = random.from(14, 60);
    let kids = MOST_KIDS / levels;
    let forms = random.pick(&[[AND, AND, AND], [AND, AND, WHEN], [AND, WHEN, UNLESS]]);
    let mut lambdas = 60 - levels;
    let mut tree = identifier(random);
    for _ in 0..levels {
        let form = random.pick(&forms);
        tree = row(random, form, kids, tree);
        if lambdas > 0 && random.percent(30) {
            lambdas -= 1;
            tree = Expression::new(LAMBDA, vec![random.below(NAMES) as u32], vec![tree]);
        }
    }
    let ids = ids(random, tree.size());
    let own = |at: usize| Own { id: ids[at], ..Own::plain(at) };
    Input { classes: (0..NAMES).map(|_| class(random)).collect(), numbers: numbers(&[tree], own) }
}

#[cfg(test)]
mod tests {
    use super::*;
    use crate::case::Case;
    use crate::expand::expand;
    use crate::node::{nodes, Node};
    use crate::record::records;
    use crate::refusals;
    use crate::stage::with_stack;

    fn nesting(node: &Node) -> usize {
        1 + node.kids.iter().map(nesting).max().unwrap_or(0)
    }

    #[test]
    fn the_expansion_is_deep_and_the_tree_is_good() {
        let deepest = |number| {
            let input = deep(&mut Random::new(1, "test", number));
            let expansion = expand(&records(&input.numbers)).records;
            assert_eq!(refusals::first(&Case::new(input)), None);
            nodes(&expansion).iter().map(nesting).max().unwrap_or(0)
        };
        let all: Vec<usize> = with_stack(|| (0..60).map(deepest).collect());
        assert!(all.iter().filter(|n| **n > 2000).count() > 20, "{all:?}");
    }
}
