//! The tree without forms 10 to 12 that a good tree stands for, from document 02.

use crate::node::{nodes, Node};
use crate::record::{has_id, Record, AND, BEGIN, CONSTANT, IF, UNLESS, WHEN};
use crate::refusals::LAST_ID;
use std::collections::HashSet;

pub struct Expanded {
    pub records: Vec<Record>,
    /// The written record of each; none of one that was added.
    pub written: Vec<Option<usize>>,
}

/// Added constants have ids that no record has: in every second tree the smallest of those, else the largest.
pub fn expand(records: &[Record]) -> Expanded {
    let used: HashSet<u32> = records.iter().filter(|r| has_id(r.form)).map(|r| r.id).collect();
    let low = records.len().is_multiple_of(2);
    let ids = (1..=LAST_ID).map(|n| if low { n } else { LAST_ID + 1 - n });
    let mut expander = Expander {
        from: records,
        unused: ids.filter(|id| !used.contains(id)),
        to: Expanded { records: Vec::new(), written: Vec::new() },
    };
    nodes(records).iter().for_each(|top| expander.put(top));
    expander.to
}

struct Expander<'a, Ids> {
    from: &'a [Record],
    unused: Ids,
    to: Expanded,
}

impl<Ids: Iterator<Item = u32>> Expander<'_, Ids> {
    fn keep(&mut self, at: usize) {
        self.to.records.push(self.from[at]);
        self.to.written.push(Some(at));
    }

    /// A record that is not written, at the place in the text of the node that it belongs to.
    fn add(&mut self, node: &Node, form: u32, name: u32, count: usize) {
        let Record { from, to, .. } = self.from[node.at];
        let id = if has_id(form) { self.unused.next().expect("fewer records than ids") } else { 0 };
        self.to.records.push(Record { form, id, name, count: count as u32, from, to });
        self.to.written.push(None);
    }

    fn put(&mut self, node: &Node) {
        match (node.form, node.kids.as_slice()) {
            (AND, kids) => self.put_and(node, kids),
            (WHEN, [test, then @ ..]) => {
                self.put_test(node, test);
                self.put_begin(node, then);
                self.put_begin(node, &[]);
            }
            (UNLESS, [test, otherwise @ ..]) => {
                self.put_test(node, test);
                self.put_begin(node, &[]);
                self.put_begin(node, otherwise);
            }
            (_, kids) => {
                self.keep(node.at);
                node.names.clone().for_each(|at| self.keep(at));
                kids.iter().for_each(|kid| self.put(kid));
            }
        }
    }

    /// Of none #t, of one that one, of more an if of the first, the `and` of the others, and #f.
    fn put_and(&mut self, node: &Node, kids: &[Node]) {
        match kids {
            [] => self.add(node, CONSTANT, 0, 0),
            [one] => self.put(one),
            [first, others @ ..] => {
                self.put_test(node, first);
                self.put_and(node, others);
                self.add(node, CONSTANT, 1, 0);
            }
        }
    }

    fn put_test(&mut self, node: &Node, test: &Node) {
        self.add(node, IF, 0, 0);
        self.put(test);
    }

    fn put_begin(&mut self, node: &Node, kids: &[Node]) {
        self.add(node, BEGIN, 0, kids.len());
        kids.iter().for_each(|kid| self.put(kid));
    }
}

#[cfg(test)]
mod tests {
    use super::*;
    use crate::generate::scripts::script;
    use crate::record::{is_expanded, records, Input};
    use crate::scheme::text;
    use crate::tree::Tree;

    /// The expansion as text, its added constants as 0, and the written records in its order.
    fn of(line: &str) -> (String, Vec<usize>) {
        let mut expanded = expand(&records(&script(line).numbers));
        let added = expanded.records.iter_mut().zip(&expanded.written).filter(|(_, at)| at.is_none());
        added.for_each(|(record, _)| record.id = 0);
        assert!(!expanded.records.iter().any(|r| is_expanded(r.form)));
        let numbers = expanded.records.into_iter().flat_map(Record::numbers).collect();
        let classes = vec![0; 4];
        (text(&Tree::new(&Input { classes, numbers })), expanded.written.into_iter().flatten().collect())
    }

    fn text_of(line: &str) -> String {
        of(line).0
    }

    #[test]
    fn as_document_02_says() {
        assert_eq!(text_of("(and)"), "0");
        assert_eq!(text_of("(and (and x))"), "n0");
        assert_eq!(text_of("(and x y)"), "(if n0 n1 #f)");
        assert_eq!(text_of("(and x y z)"), "(if n0 (if n1 n2 #f) #f)");
        assert_eq!(text_of("(and (and) #f)"), "(if 0 #f #f)");
        assert_eq!(text_of("(when x)"), "(if n0 (begin) (begin))");
        assert_eq!(text_of("(when x y)"), "(if n0 (begin n1) (begin))");
        assert_eq!(text_of("(unless x y z)"), "(if n0 (begin) (begin n1 n2))");
        assert_eq!(
            text_of("(lambda (x) (when (and x) (unless y) (f (and))))"),
            "(lambda (n0) (if n0 (begin (if n1 (begin) (begin)) (n2 0)) (begin)))"
        );
    }

    #[test]
    fn written_records_keep_their_order_and_number() {
        assert_eq!(of("(and x y)").1, [1, 2]);
        assert_eq!(of("(f (and (define g (unless x 5))))").1, [0, 1, 3, 4, 6, 7]);
        assert_eq!(of("(let ((x 1)) x)").1, [0, 1, 2, 3]);
    }

    #[test]
    fn added_ids_are_no_records() {
        for line in ["(and 1 2 3) (and)", "(and 1 2 3) (and) x"] {
            let written = records(&script(line).numbers);
            let expanded = expand(&written);
            let owners: Vec<u32> = expanded.records.iter().filter(|r| has_id(r.form)).map(|r| r.id).collect();
            assert_eq!(owners.len(), written.iter().filter(|r| has_id(r.form)).count() + 3);
            assert_eq!(owners.iter().collect::<HashSet<_>>().len(), owners.len());
        }
    }
}
