//! The trees that good records are.

use crate::record::{children, Record, DEFINE, LAMBDA};
use std::ops::Range;

/// A record with its children: the records that are names, and the others as nodes.
pub struct Node {
    pub at: usize,
    pub form: u32,
    pub names: Range<usize>,
    pub kids: Vec<Node>,
}

impl Node {
    pub fn is_lambda_define(&self) -> bool {
        self.form == DEFINE && self.kids[0].form == LAMBDA
    }
}

/// The top-level expressions.
pub fn nodes(records: &[Record]) -> Vec<Node> {
    let mut at = 0;
    let mut out = Vec::new();
    while at < records.len() {
        out.push(take(records, &mut at));
    }
    out
}

fn take(records: &[Record], at: &mut usize) -> Node {
    let here = *at;
    let Record { form, count, .. } = records[here];
    let (names, others) = children(form, count);
    let names = here + 1..here + 1 + names as usize;
    *at = names.end;
    let kids = (0..others).map(|_| take(records, at)).collect();
    Node { at: here, form, names, kids }
}
