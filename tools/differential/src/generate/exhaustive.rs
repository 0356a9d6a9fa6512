//! Every tree of up to so many records over so many names, by number.
//!
//! All forms with every count (a call has a head, a `when` a test), every placement of the names, constants #f and not.
//! A tree is found from its number by counting, so none is kept.

use crate::expression::Expression;
use crate::record::{children, has_count, needs_a_child, AND, BEGIN, IF};

pub struct Exhaustive {
    names: u64,
    last_form: u32,
    /// sequences[n][k]: how many sequences of k expressions have n records together.
    sequences: Vec<Vec<u64>>,
    /// expressions[n]: how many expressions have n records.
    expressions: Vec<u64>,
}

/// An expression's form with the number of its children: names, and others.
#[derive(Clone, Copy)]
struct Shape {
    form: u32,
    names: usize,
    others: usize,
}

/// Those of an expression of n records, other than an atom.
fn shapes(n: usize, last_form: u32) -> impl Iterator<Item = Shape> {
    let counts = move |form| if has_count(form) { n } else { 1 };
    let shape = |form, count: usize| {
        let (names, others) = children(form, count as u32);
        Shape { form, names: names as usize, others: others as usize }
    };
    let all = (IF..=last_form).flat_map(move |form| (0..counts(form)).map(move |count| shape(form, count)));
    all.filter(move |s| s.names + s.others < n.max(1) || (matches!(s.form, BEGIN | AND) && n == 1))
        .filter(|s| !needs_a_child(s.form) || s.others > 0)
}

impl Exhaustive {
    /// Of the forms up to this one.
    pub fn new(most: usize, names: u64, last_form: u32) -> Self {
        let mut all = Exhaustive { names, last_form, sequences: vec![vec![1]], expressions: vec![0] };
        for n in 1..=most {
            let inner: u64 = shapes(n, last_form).map(|shape| all.of_shape(n, shape)).sum();
            all.expressions.push(inner + all.atoms(n));
            all.sequences.push((0..=n).map(|k| all.of_length(n, k)).collect());
        }
        all
    }

    /// How many trees there are; they are numbered from 0, the smallest first.
    pub fn count(&self) -> u64 {
        self.sequences.iter().flatten().sum()
    }

    /// Identifiers, then the constants.
    fn atoms(&self, n: usize) -> u64 {
        if n == 1 {
            self.names + 2
        } else {
            0
        }
    }

    fn sequences(&self, n: usize, k: usize) -> u64 {
        self.sequences.get(n).and_then(|by_length| by_length.get(k)).copied().unwrap_or(0)
    }

    fn of_shape(&self, n: usize, shape: Shape) -> u64 {
        self.names.pow(shape.names as u32) * self.sequences(n - 1 - shape.names, shape.others)
    }

    /// The sequences by the size of their first expression.
    fn of_length(&self, n: usize, k: usize) -> u64 {
        if k == 0 {
            return u64::from(n == 0);
        }
        (1..=n).map(|first| self.expressions[first] * self.sequences(n - first, k - 1)).sum()
    }

    /// The numbers of those that have one of forms 10 to 12.
    pub fn expanded(&self) -> Vec<u64> {
        let has = |number: &u64| self.tree(*number).iter().any(Expression::has_expanded);
        (0..self.count()).filter(has).collect()
    }

    pub fn tree(&self, mut number: u64) -> Vec<Expression> {
        for (n, by_length) in self.sequences.iter().enumerate() {
            for (k, count) in by_length.iter().enumerate() {
                match number.checked_sub(*count) {
                    Some(left) => number = left,
                    None => return self.sequence(n, k, number),
                }
            }
        }
        panic!("no tree has this number")
    }

    fn sequence(&self, n: usize, k: usize, mut number: u64) -> Vec<Expression> {
        if k == 0 {
            return Vec::new();
        }
        for first in 1..=n {
            let others = self.sequences(n - first, k - 1);
            match number.checked_sub(self.expressions[first] * others) {
                Some(left) => number = left,
                None => {
                    let mut out = vec![self.expression(first, number / others)];
                    out.extend(self.sequence(n - first, k - 1, number % others));
                    return out;
                }
            }
        }
        panic!("no sequence has this number")
    }

    fn expression(&self, n: usize, number: u64) -> Expression {
        let Some(mut number) = number.checked_sub(self.atoms(n)) else {
            return match number.checked_sub(self.names) {
                Some(left) => Expression::constant(left == 1),
                None => Expression::identifier(number as u32),
            };
        };
        for shape in shapes(n, self.last_form) {
            match number.checked_sub(self.of_shape(n, shape)) {
                Some(left) => number = left,
                None => return self.expression_of(n, shape, number),
            }
        }
        panic!("no expression has this number")
    }

    fn expression_of(&self, n: usize, shape: Shape, number: u64) -> Expression {
        let sequences = self.sequences(n - 1 - shape.names, shape.others);
        let mut left = number / sequences;
        let mut name = |_| {
            let name = left % self.names;
            left /= self.names;
            name as u32
        };
        let names = (0..shape.names).map(&mut name).collect();
        let kids = self.sequence(n - 1 - shape.names, shape.others, number % sequences);
        Expression::new(shape.form, names, kids)
    }
}

#[cfg(test)]
mod tests {
    use super::Exhaustive;
    use crate::record::{SET, UNLESS};
    use std::collections::HashSet;

    /// An empty tree; x, y, 1, #f and (begin); then 45 of two records.
    #[test]
    fn small_numbers() {
        let counts: Vec<u64> = (0..=4).map(|most| Exhaustive::new(most, 2, SET).count()).collect();
        assert_eq!(counts, [1, 6, 51, 536, 6266]);
    }

    /// (and); of two records eleven pairs with (and), four other forms of (and), and the three forms of each of six.
    #[test]
    fn small_numbers_with_forms_10_to_12() {
        let count = |most| Exhaustive::new(most, 2, UNLESS).expanded().len();
        assert_eq!([0, 1, 2].map(count), [0, 1, 34]);
    }

    #[test]
    fn no_tree_twice() {
        let all = Exhaustive::new(4, 2, UNLESS);
        let trees: HashSet<String> = (0..all.count()).map(|i| format!("{:?}", all.tree(i))).collect();
        assert_eq!(trees.len() as u64, all.count());
    }
}
