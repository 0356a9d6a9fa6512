//! Inputs at the limits of document 01 and one past them, and the two largest shapes.

use crate::expression::{numbers, Expression, Own};
use crate::record::{Input, AND, BEGIN, CALL, CONSTANT, IDENTIFIER, LAMBDA, LET, SET, UNLESS, WHEN, WIDTH};

const EMPTY: [u32; WIDTH] = [BEGIN, 0, 0, 0, 0, 0];
const OF_ONE: [u32; WIDTH] = [BEGIN, 0, 0, 1, 0, 0];
const READ: [u32; WIDTH] = [IDENTIFIER, 1, 0, 0, 0, 0];

pub fn limits() -> Vec<Input> {
    let mut out: Vec<Input> = vec![
        raw(0, vec![]),
        raw(0, EMPTY.repeat(4096)),
        raw(0, EMPTY.repeat(4097)),
        raw(1024, EMPTY.to_vec()),
        raw(1025, EMPTY.to_vec()),
        raw(0, [OF_ONE.repeat(63), EMPTY.to_vec()].concat()),
        raw(0, [OF_ONE.repeat(64), EMPTY.to_vec()].concat()),
        raw(0, OF_ONE.repeat(64)),
        raw(0, OF_ONE.repeat(4096)),
        raw(1, vec![IDENTIFIER, 1, 0, 0, u32::MAX, u32::MAX]),
        raw(1, vec![IDENTIFIER, 1, 1, 0, 0, 0]),
        raw(0, vec![CONSTANT, 1, 2, 0, 0, 0]),
        raw(0, vec![0; WIDTH]),
        raw(0, vec![13, 0, 0, 0, 0, 0]),
        raw(0, vec![0; WIDTH - 1]),
    ];
    out.extend([0, u32::MAX - 1, u32::MAX].map(|id| raw(1, vec![IDENTIFIER, id, 0, 0, 0, 0])));
    out.extend([(255, 255), (256, 256), (255, 254)].map(|of| counted(BEGIN, of)));
    out.extend([(64, 0), (64, 1), (65, 0)].map(|(lambdas, one_more)| captures(lambdas, one_more)));
    out.extend([wide(4), wide(0), tall()]);
    out.extend(of_forms_10_to_12());
    out
}

/// The same limits; check 16, where it meets 7 and 8; the deepest expansions.
fn of_forms_10_to_12() -> Vec<Input> {
    let form = |form, count| [form, 0, 0, count, 0, 0];
    let empty_call = [CALL, 7, 0, 0, 0, 0];
    let mut out = Vec::new();
    for own in [AND, WHEN, UNLESS] {
        out.push(raw(1, form(own, 0).to_vec()));
        out.push(raw(1, [form(own, 0), empty_call].concat()));
        out.push(raw(1, [READ, READ, form(own, 0)].concat()));
        out.push(raw(1, [form(own, 1), READ].concat()));
        out.extend([63, 64].map(|around| raw(1, [form(own, 1).repeat(around), READ.to_vec()].concat())));
        out.extend([(255, 255), (256, 256), (255, 254)].map(|of| counted(own, of)));
        out.push(raw(1, vec![own, 9, 0, 1, 0, 0]));
        out.push(raw(2, vec![own, 0, 1, 0, 0, 0]));
    }
    out.extend([(16, 254), (61, 66), (1, 255)].map(|(levels, kids)| in_one_another(levels, kids)));
    out
}

/// So many `and`s in one another's last place, inside a lambda, with a lambda in the last.
fn in_one_another(levels: usize, kids: usize) -> Input {
    let inmost = lambda(vec![], Expression::identifier(0));
    let around = |inner: Expression| {
        let mut all = vec![Expression::identifier(0); kids - 1];
        all.push(inner);
        Expression::new(AND, vec![], all)
    };
    of(1, lambda(vec![0], (0..levels).fold(inmost, |inner, _| around(inner))))
}

fn raw(names: usize, numbers: Vec<u32>) -> Input {
    Input { classes: vec![0; names], numbers }
}

/// A form with this count and so many children.
fn counted(form: u32, (count, kids): (u32, usize)) -> Input {
    raw(0, [vec![form, 0, 0, count, 0, 0], EMPTY.repeat(kids)].concat())
}

fn of(names: usize, tree: Expression) -> Input {
    let own = |at: usize| Own { id: 9000 - at as u32, from: at as u32, to: at as u32 + 1 };
    raw(names, numbers(&[tree], own))
}

fn begin(kids: Vec<Expression>) -> Expression {
    Expression::new(BEGIN, vec![], kids)
}

fn lambda(names: Vec<u32>, body: Expression) -> Expression {
    Expression::new(LAMBDA, names, vec![body])
}

fn reads(names: impl Iterator<Item = u32>) -> Expression {
    begin(names.map(Expression::identifier).collect())
}

/// 64 parameters, all in the lists of so many lambdas; then perhaps one more entry in a lambda of its own.
fn captures(lambdas: usize, one_more: usize) -> Input {
    let idle = || lambda(vec![], Expression::constant(false));
    let mut kids = vec![lambda(vec![], reads(0..64))];
    kids.extend((1..lambdas).map(|_| idle()));
    let first = lambda((0..64).collect(), begin(kids));
    let more = lambda(vec![0], lambda(vec![], Expression::identifier(0)));
    of(64, begin([vec![first], vec![more; one_more]].concat()))
}

/// Lambdas of 255 parameters inside one another, all 1,020 names read by the innermost; `sets` groups of 64 are set.
pub fn wide(sets: usize) -> Input {
    let group = |i: u32| 255 * i..255 * (i + 1);
    let set = |name| Expression::new(SET, vec![name], vec![Expression::constant(false)]);
    let mut kids: Vec<Expression> =
        (0..sets as u32).map(|i| begin(group(i).take(64).map(set).collect())).collect();
    kids.extend((0..4).map(|i| reads(group(i))));
    let inmost = lambda(vec![], begin(kids));
    of(1020, (0..4).rev().fold(inmost, |body, i| lambda(group(i).collect(), body)))
}

/// Calls of 255 in one another's last place, a let in the last: the greatest heights.
pub fn tall() -> Input {
    let own = |kids| Expression::new(CALL, vec![], kids);
    let inner = lambda(vec![], Expression::new(SET, vec![2], vec![Expression::identifier(2)]));
    let inmost = Expression::new(LET, vec![2], vec![Expression::constant(false), inner]);
    let around = |inner: Expression| {
        let mut kids = vec![Expression::identifier(1)];
        kids.extend((0..253).map(|_| Expression::constant(false)));
        kids.push(inner);
        own(kids)
    };
    of(3, lambda(vec![0], (0..15).fold(inmost, |inner, _| around(inner))))
}
