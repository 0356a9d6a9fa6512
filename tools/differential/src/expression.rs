//! Expressions as the generators make them, and their records.

use crate::record::{has_counted_kids, has_id, is_expanded, Record};
use crate::record::{AND, CONSTANT, DEFINE, IDENTIFIER, LAMBDA, LET};

#[derive(Clone, Debug)]
pub struct Expression {
    pub form: u32,
    /// The name field: an identifier's name, or 1 for #f.
    pub name: u32,
    /// The children that are names.
    pub names: Vec<u32>,
    pub kids: Vec<Expression>,
}

impl Expression {
    pub fn new(form: u32, names: Vec<u32>, kids: Vec<Expression>) -> Self {
        Expression { form, name: 0, names, kids }
    }

    pub fn identifier(name: u32) -> Self {
        Expression { name, ..Expression::new(IDENTIFIER, vec![], vec![]) }
    }

    pub fn constant(is_false: bool) -> Self {
        Expression { name: is_false.into(), ..Expression::new(CONSTANT, vec![], vec![]) }
    }

    /// Whether it has a form that the original is given expanded.
    pub fn has_expanded(&self) -> bool {
        is_expanded(self.form) || self.kids.iter().any(Expression::has_expanded)
    }

    /// An `and` of one child is that child.
    pub fn core(&self) -> &Expression {
        match (self.form, self.kids.as_slice()) {
            (AND, [one]) => one.core(),
            _ => self,
        }
    }

    pub fn is_lambda_define(&self) -> bool {
        self.core().form == DEFINE && self.core().kids[0].core().form == LAMBDA
    }

    /// How many records it has.
    pub fn size(&self) -> usize {
        1 + self.names.len() + self.kids.iter().map(Expression::size).sum::<usize>()
    }

    fn count(&self) -> usize {
        match self.form {
            LET | LAMBDA => self.names.len(),
            form if has_counted_kids(form) => self.kids.len(),
            _ => 0,
        }
    }
}

/// What a record holds beside its expression.
#[derive(Clone, Copy)]
pub struct Own {
    pub id: u32,
    pub from: u32,
    pub to: u32,
}

impl Own {
    /// Numbers that rise with the place of the record.
    pub fn plain(at: usize) -> Self {
        let at = at as u32;
        Own { id: 10 + at, from: 100 + 2 * at, to: 101 + 2 * at }
    }
}

/// The numbers of the records in preorder; `own` is asked by record.
pub fn numbers(all: &[Expression], own: impl Fn(usize) -> Own) -> Vec<u32> {
    let mut out = Vec::new();
    all.iter().for_each(|e| put(&mut out, e, &own));
    out.into_iter().flat_map(Record::numbers).collect()
}

fn put(out: &mut Vec<Record>, e: &Expression, own: &impl Fn(usize) -> Own) {
    let record = |form, name, count, at| {
        let Own { id, from, to } = own(at);
        Record { form, id: if has_id(form) { id } else { 0 }, name, count, from, to }
    };
    out.push(record(e.form, e.name, e.count() as u32, out.len()));
    for name in &e.names {
        out.push(record(IDENTIFIER, *name, 0, out.len()));
    }
    e.kids.iter().for_each(|kid| put(out, kid, own));
}
