//! A tree that can be changed, record by record.

use crate::node::{nodes, Node};
use crate::record::{has_counted_kids, records, Input, Record, BEGIN, CONSTANT, LAMBDA, LET};
use std::ops::Range;

/// An expression: its record, its children that are names, and the others.
#[derive(Clone, Debug)]
pub struct Part {
    pub record: Record,
    pub names: Vec<Record>,
    pub kids: Vec<Part>,
}

#[derive(Clone, Debug)]
pub struct Tree {
    pub classes: Vec<u8>,
    /// A begin of the top-level expressions, which is itself no record of the input.
    pub root: Part,
}

impl Part {
    fn new(records: &[Record], node: &Node) -> Self {
        let kids = node.kids.iter().map(|kid| Part::new(records, kid)).collect();
        Part { record: records[node.at], names: records[node.names.clone()].to_vec(), kids }
    }

    /// A constant that is not #f, where the record stands.
    pub fn constant(record: Record, id: u32) -> Self {
        Part {
            record: Record { form: CONSTANT, id, name: 0, count: 0, ..record },
            names: vec![],
            kids: vec![],
        }
    }

    /// How many children one by one can be left out: those that the count counts, parameters, or let bindings.
    pub fn loose(&self) -> usize {
        match self.record.form {
            form if has_counted_kids(form) => self.kids.len(),
            LAMBDA | LET => self.names.len(),
            _ => 0,
        }
    }

    pub fn leave_out(&mut self, which: Range<usize>) {
        if matches!(self.record.form, LAMBDA | LET) {
            self.names.drain(which.clone());
        }
        if self.record.form != LAMBDA {
            self.kids.drain(which);
        }
    }

    /// A child's children in its place.
    pub fn open(&mut self, kid: usize) {
        let inner = std::mem::take(&mut self.kids[kid].kids);
        self.kids.splice(kid..=kid, inner);
    }

    fn put(&self, out: &mut Vec<Record>) {
        out.push(Record { count: self.loose() as u32, ..self.record });
        out.extend(&self.names);
        self.kids.iter().for_each(|kid| kid.put(out));
    }

    fn each(&mut self, change: &mut impl FnMut(&mut Record)) {
        change(&mut self.record);
        self.names.iter_mut().for_each(&mut *change);
        self.kids.iter_mut().for_each(|kid| kid.each(change));
    }

    /// The part that stands so many parts after this one, or how many are lacking.
    fn find(&mut self, mut after: usize) -> Result<&mut Part, usize> {
        if after == 0 {
            return Ok(self);
        }
        after -= 1;
        for kid in &mut self.kids {
            match kid.find(after) {
                Ok(part) => return Ok(part),
                Err(left) => after = left,
            }
        }
        Err(after)
    }
}

impl Tree {
    /// The input passes checks 1 to 8 and 16.
    pub fn new(input: &Input) -> Self {
        let records = records(&input.numbers);
        let kids = nodes(&records).iter().map(|top| Part::new(&records, top)).collect();
        let record = Record { form: BEGIN, id: 0, name: 0, count: 0, from: 0, to: 0 };
        Tree { classes: input.classes.clone(), root: Part { record, names: vec![], kids } }
    }

    pub fn records(&self) -> Vec<Record> {
        let mut out = Vec::new();
        self.root.kids.iter().for_each(|top| top.put(&mut out));
        out
    }

    pub fn input(&self) -> Input {
        let numbers = self.records().into_iter().flat_map(Record::numbers).collect();
        Input { classes: self.classes.clone(), numbers }
    }

    /// By its place in the preorder of the expressions; the root is 0.
    pub fn part(&mut self, at: usize) -> Option<&mut Part> {
        self.root.find(at).ok()
    }

    /// Changes each record, in the order of the input.
    pub fn each(&mut self, mut change: impl FnMut(&mut Record)) {
        self.root.kids.iter_mut().for_each(|top| top.each(&mut change));
    }
}

#[cfg(test)]
mod tests {
    use super::*;
    use crate::generate::random_input;
    use crate::generate::trees::Mix;
    use crate::random::Random;

    #[test]
    fn a_tree_has_the_numbers_that_it_was_made_of() {
        for number in 0..100 {
            let input = random_input(&mut Random::new(3, "test", number), 60, Mix::Perhaps);
            assert_eq!(Tree::new(&input).input().numbers, input.numbers);
        }
    }
}
